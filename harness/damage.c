/* Writes damaged copies of a library, for the tests: damage FILE FOLDER COUNT. The same file and count
   give the same copies, FOLDER/0 and up. With a place behind, AT LENGTH, the damage is to texts there alone. */
#include <stdint.h>
#include <stdio.h>
#include <stdlib.h>
#include <string.h>

static uint8_t whole[1 << 20], copy[1 << 20];
static size_t whole_len, copy_len;
static uint64_t state = UINT64_C(0x9e3779b97f4a7c15);

static size_t any(size_t below)
{
    state ^= state << 13;
    state ^= state >> 7;
    state ^= state << 17;
    return (size_t)(state >> 11) % below;
}

/* Numbers that lie at edges: of signs, of sizes, of inline constants. */
static uint32_t edge(void)
{
    static const uint32_t edges[] = {
        0, 1, 2, 3, 4, 8, 20, 23, 24, 100, 0x7f, 0xff, 0x100, 0xffff, 0x10000, 0x7fffffff,
        0x80000000, 0x80000001, 0xfffffff0, 0xffffffff, 0x8c00ffff, 0xc00000ff, 0x01000064};
    if (any(3) == 0)
        return (uint32_t)any(copy_len + 64);
    return edges[any(sizeof edges / sizeof *edges)];
}

static void set_word(size_t at, uint32_t word)
{
    for (size_t i = 0; i < 4 && at + i < copy_len; i++)
        copy[at + i] = (uint8_t)(word >> 8 * i);
}

/* A type field, an offset or a count, often enough in the header and its tables. */
static void damage_word(void)
{
    size_t most = any(2) == 0 && 512 < copy_len ? 512 : copy_len;
    set_word(any(most) & ~(size_t)3, edge());
}

static void damage_once(void)
{
    switch (any(6)) {
    case 0:
        copy[any(copy_len)] ^= (uint8_t)(1u << any(8));
        break;
    case 1:
        copy[any(copy_len)] = (uint8_t)any(256);
        break;
    case 2:
        memmove(copy + any(copy_len / 2), copy + any(copy_len / 2), copy_len / 4);
        break;
    default:
        damage_word();
    }
}

/* Characters at the edges of RFC 3629's grammar, and what breaks off or is none: a text with a few of these is UTF-8
   or stops being it anywhere. */
static void damage_text(size_t at, size_t len)
{
    static const char *const characters[] = {
        "\x7f", "\xc2\x80", "\xdf\xbf", "\xe0\xa0\x80", "\xe1\x80\x80", "\xec\xbf\xbf", "\xed\x9f\xbf",
        "\xee\x80\x80", "\xef\xbf\xbf", "\xf0\x90\x80\x80", "\xf1\x80\x80\x80", "\xf3\xbf\xbf\xbf",
        "\xf4\x8f\xbf\xbf", "\x80", "\xbf", "\xc0\x80", "\xc1\xbf", "\xc3", "\xe0\x9f\xbf", "\xe2\x82",
        "\xed\xa0\x80", "\xed\xbf\xbf", "\xf0\x8f\xbf\xbf", "\xf0\x9f\x98", "\xf4\x90\x80\x80", "\xf5\x80",
        "\xff"};
    const char *character = characters[any(sizeof characters / sizeof *characters)];
    size_t offset = any(len);
    for (size_t i = 0; character[i] != '\0' && offset + i < len && at + offset + i < copy_len; i++)
        copy[at + offset + i] = (uint8_t)character[i];
}

static void damage_copy(void)
{
    for (size_t n = 1 + any(6); 0 < n; n--)
        damage_once();
    if (any(16) == 0)
        copy_len = any(copy_len);
}

static int write_copy(const char *folder, int number)
{
    char path[4096];
    snprintf(path, sizeof path, "%s/%d", folder, number);
    FILE *file = fopen(path, "wb");
    int written = file != NULL && fwrite(copy, 1, copy_len, file) == copy_len;
    if (file != NULL && fclose(file) != 0)
        written = 0;
    if (!written)
        perror(path);
    return written ? 0 : 1;
}

int main(int argc, char **argv)
{
    FILE *file = argc == 4 || argc == 6 ? fopen(argv[1], "rb") : NULL;
    if (file == NULL)
        return fputs("usage: damage FILE FOLDER COUNT [AT LENGTH]\n", stderr), 2;
    whole_len = fread(whole, 1, sizeof whole, file);
    fclose(file);
    for (int i = 0; i < atoi(argv[3]); i++) {
        memcpy(copy, whole, whole_len);
        copy_len = whole_len;
        if (argc == 4)
            damage_copy();
        for (size_t n = argc == 6 ? 1 + any(24) : 0; 0 < n; n--)
            damage_text((size_t)atoi(argv[4]), (size_t)atoi(argv[5]));
        if (write_copy(argv[2], i) != 0)
            return 2;
    }
    return 0;
}
