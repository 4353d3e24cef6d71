/* Walks along the bodies of a library's sheet, for the tests: walks FILE names the field of every byte of every body,
   one a line. walks FILE damaged does so with the beginnings of each body and with each of its bytes changed, each
   in memory of its own length, so that a memory checker sees a walk that leaves it. walks FILE nested names what an
   alias of many levels stands for, of as many as are allowed, of one more, and of a million. */
#include <stdio.h>
#include <stdlib.h>
#include <string.h>

#include "fields.h"

enum { WORD = 4 };

/* A walk to the byte `at` of the body's first `len` bytes, with another byte at `changed`, if that is one of them; in
   memory that ends where these do. */
static void walk_copy(const body *b, size_t len, size_t changed, uint8_t byte, size_t at)
{
    uint8_t *bytes = malloc(len == 0 ? 1 : len);
    if (bytes == NULL)
        exit(2);
    memcpy(bytes, b->bytes.bytes, len);
    if (changed < len)
        bytes[changed] = byte;
    const body copy = {b->l, {bytes, len}, b->is_type};
    print_parting_field(&copy, &copy, at);
    free(bytes);
}

static void walk_whole(const body *b, size_t at)
{
    walk_copy(b, b->bytes.len, SIZE_MAX, 0, at);
}

/* The beginning that ends behind the byte `at`, and the body with that byte changed: walks to its end. */
static void walk_damaged(const body *b, size_t at)
{
    static const uint8_t bytes[] = {0, 1, 2, 3, 4, 5, 6, 7, 8, 14, 24, 64, 0x7f, 0x80, 0xff};
    size_t len = b->bytes.len;
    walk_copy(b, at, SIZE_MAX, 0, at == 0 ? 0 : at - 1);
    walk_copy(b, at, SIZE_MAX, 0, at);
    for (size_t i = 0; i < sizeof bytes; i++)
        walk_copy(b, len, at, bytes[i], len - 1);
}

/* An alias that stands for so many pointers over a Long: a head of zeros but for its kind, and the type. */
static void walk_nested(const library *l, size_t pointers)
{
    enum { ALIAS = 6, HEAD = 15, BASE = 3 };
    size_t len = HEAD + pointers + BASE;
    uint8_t *bytes = calloc(len, 1);
    if (bytes == NULL)
        exit(2);
    bytes[0] = ALIAS;
    memset(bytes + HEAD, MSFT_POINTER, pointers);
    bytes[len - BASE] = MSFT_BASE;
    bytes[len - BASE + 1] = 3;
    const body b = {l, {bytes, len}, true};
    print_parting_field(&b, &b, len - 1);
    free(bytes);
}

static void walk_aliases(const library *l)
{
    walk_nested(l, 31);
    walk_nested(l, 32);
    walk_nested(l, 1000000);
}

typedef void walking(const body *b, size_t at);

static void walk_body(const body *b, walking *walk)
{
    for (size_t at = 0; at < b->bytes.len; at++)
        walk(b, at);
}

/* The contents give the count of types and the length of each body, the library's first. */
static void walk_bodies(const library *l, const sheet *s, walking *walk)
{
    size_t types = (size_t)msft_le(s->bytes, WORD), from = WORD * (2 + types);
    for (size_t i = 0; i <= types; i++) {
        size_t len = (size_t)msft_le(s->bytes + WORD * (i + 1), WORD);
        const body b = {l, {s->bytes + from, len}, i != 0};
        walk_body(&b, walk);
        from += len;
    }
}

int main(int argc, char **argv)
{
    library l;
    sheet s;
    if (argc < 2 || !load(&l, argv[1]))
        return 2;
    int status = need_sheet(&l, &s);
    if (status == DONE && argc == 2)
        walk_bodies(&l, &s, walk_whole);
    else if (status == DONE && strcmp(argv[2], "damaged") == 0)
        walk_bodies(&l, &s, walk_damaged);
    else if (status == DONE)
        walk_aliases(&l);
    free_sheet(&s);
    unload(&l);
    return status;
}
