/* tlb: reads COM type libraries (MSFT format) for people. See tlb.1. */
#include "commands.h"
#include "library.h"

#include <errno.h>
#include <stdio.h>
#include <string.h>

static const char usage[] =
    "usage: tlb members FILE         every type and member\n"
    "       tlb sheet [-o OUT] FILE  the sheet, in hex; raw to OUT\n"
    "       tlb same FILE FILE       whether two libraries have the same description, and in\n"
    "                                which field they part\n"
    "       tlb check FILE           whether it is read, how much, and how long its sheet is; what\n"
    "                                leads out of its tables, which references hit no typeinfo\n"
    "                                and which texts are not UTF-8; or what is refused and why\n"
    "       tlb --help               this text\n"
    "\n"
    "Exit status: 0 done (same: the same); 1 refused (same: different); 2 trouble.\n";

/* ---- the sheet ---- */

static void print_hex(const sheet *s)
{
    for (size_t i = 0; i < s->len; i++)
        printf("%02x", s->bytes[i]);
    putchar('\n');
}

static int write_raw(const sheet *s, const char *to)
{
    errno = 0;
    FILE *file = fopen(to, "wb");
    bool written = file != NULL && fwrite(s->bytes, 1, s->len, file) == s->len;
    if (file != NULL && fclose(file) != 0)
        written = false;
    if (written)
        return DONE;
    fprintf(stderr, "tlb: %s: cannot be written: %s\n", to, strerror(errno));
    return TROUBLE;
}

int sheet_command(const char *path, const char *to)
{
    library l;
    sheet s;
    if (!load(&l, path))
        return TROUBLE;
    int status = need_sheet(&l, &s);
    if (status == DONE && to != NULL)
        status = write_raw(&s, to);
    else if (status == DONE)
        print_hex(&s);
    free_sheet(&s);
    unload(&l);
    return status;
}

/* ---- the command line ---- */

static int say_usage(void)
{
    fputs(usage, stderr);
    return TROUBLE;
}

/* -o OUT may stand before FILE or behind it. */
static int sheet_words(int count, char **words)
{
    if (count == 1)
        return sheet_command(words[0], NULL);
    if (count == 3 && strcmp(words[0], "-o") == 0)
        return sheet_command(words[2], words[1]);
    if (count == 3 && strcmp(words[1], "-o") == 0)
        return sheet_command(words[0], words[2]);
    return say_usage();
}

static int run(int count, char **words)
{
    if (count == 1 && strcmp(words[0], "--help") == 0)
        return fputs(usage, stdout) < 0 ? TROUBLE : DONE;
    if (count == 2 && strcmp(words[0], "members") == 0)
        return members_command(words[1]);
    if (count == 2 && strcmp(words[0], "check") == 0)
        return check_command(words[1]);
    if (count == 3 && strcmp(words[0], "same") == 0)
        return same_command(words[1], words[2]);
    if (1 < count && strcmp(words[0], "sheet") == 0)
        return sheet_words(count - 1, words + 1);
    return say_usage();
}

int main(int argc, char **argv)
{
    int status = run(argc - 1, argv + 1);
    if (fflush(stdout) != 0 || ferror(stdout)) {
        fputs("tlb: standard output cannot be written\n", stderr);
        return TROUBLE;
    }
    return status;
}
