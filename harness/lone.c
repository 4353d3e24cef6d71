/* Calls about bytes that are no library: records, cursors, a chain and texts alone; and one about a number alone.
   Prints what each replies. */
#include <stdio.h>
#include <stdlib.h>

#include "msft_typelib.h"

enum { VAR_SIZE = 20, REF_SIZE = 16, NAME_SIZE = 16, PARAM_SIZE = 12, MOST_BYTES = 16777216 };

static void say(const char *what, int64_t reply)
{
    printf("%s: %d\n", what, (int)reply);
}

/* A variable's record of just its fixed part: its size, then zeros but for the flags. */
static void variable(void)
{
    uint8_t var[VAR_SIZE] = {VAR_SIZE}, out[16];
    var[8] = 5;
    say("a variable", msft_var_from_raw(var, VAR_SIZE, 0, VAR_SIZE, out, sizeof out));
    say("its flags", msft_var_flags(var, VAR_SIZE, 0, VAR_SIZE));
    say("its attribute", msft_var_help_context(var, VAR_SIZE, 0, VAR_SIZE));
    say("no room", msft_var_from_raw(var, VAR_SIZE, 0, VAR_SIZE, out, sizeof out - 1));
    say("a byte short", msft_var_from_raw(var, VAR_SIZE - 1, 0, VAR_SIZE - 1, out, sizeof out));
    say("past the end", msft_var_from_raw(var, VAR_SIZE, 1, VAR_SIZE, out, sizeof out));
    say("a step", msft_var_step(var, VAR_SIZE, 0, VAR_SIZE, 1, 0, out, sizeof out));
    say("no bytes", msft_var_flags(var, 0, 0, VAR_SIZE));
}

/* Two parameters, stepped to their end. */
static void parameters(void)
{
    uint8_t params[2 * PARAM_SIZE] = {0}, out[MSFT_YIELD_BYTES];
    msft_cursor c = {0, sizeof params, 2, 0};
    int64_t reply;
    while ((reply = msft_param_step(params, sizeof params, MSFT_CURSOR(c), out, sizeof out)) > 0) {
        say("a parameter", reply);
        c = msft_unpack_yield(out).next;
    }
    say("behind them", reply);
}

/* A chain of one record, which ends or comes round. */
static void chain(void)
{
    uint8_t ref[REF_SIZE] = {0}, out[MSFT_SIZE_BYTES];
    say("a circle", msft_walk(ref, REF_SIZE, 0, REF_SIZE, 0, 0, out, sizeof out));
    ref[12] = 0xff;
    ref[13] = 0xff;
    ref[14] = 0xff;
    ref[15] = 0xff;
    say("a chain", msft_walk(ref, REF_SIZE, 0, REF_SIZE, 0, 0, out, sizeof out));
    say("its records", (int64_t)msft_unpack_size(out));
    say("past its table", msft_walk(ref, REF_SIZE, 0, REF_SIZE - 1, 0, 0, out, sizeof out));
    say("its records", (int64_t)msft_unpack_size(out));
    say("a record past it",
        msft_impl_type_step(ref, REF_SIZE, 0, REF_SIZE - 1, 0, 0, out, sizeof out));
}

/* A name of four bytes behind its intro; its cursor ends with it or a byte before. */
static void name(void)
{
    uint8_t entry[NAME_SIZE] = {0}, out[MSFT_NAME_YIELD_BYTES];
    entry[8] = 4;
    say("a name", msft_name_step(entry, NAME_SIZE, 0, NAME_SIZE, 0, 0, out, sizeof out));
    say("past its cursor", msft_name_step(entry, NAME_SIZE, 0, NAME_SIZE - 1, 0, 0, out, sizeof out));
    say("past the bytes", msft_name_step(entry, NAME_SIZE - 1, 0, NAME_SIZE, 0, 0, out, sizeof out));
}

/* The check of a text: whether it is UTF-8, and how many of its bytes were looked at. */
static void check(const char *what, const uint8_t *bytes, size_t bytes_len, msft_place text)
{
    uint8_t out[MSFT_TEXT_CHECK_BYTES];
    int64_t reply = msft_text_check(bytes, bytes_len, MSFT_PLACE(text), out, sizeof out);
    if (reply < 0) {
        say(what, reply);
        return;
    }
    msft_text_checked c = msft_unpack_text_checked(out);
    printf("%s: %d, %s, looked at %zu\n", what, (int)reply, c.is_valid ? "valid" : "not valid", c.looked_at);
}

/* A letter, an e with an acute accent, and the first byte of another. */
static void texts(void)
{
    static const uint8_t bytes[] = {'a', 0xc3, 0xa9, 0xc3};
    const msft_place whole = {0, 3}, broken = {0, 4}, behind = {2, 2}, none = {4, 0}, past = {1, 4};
    uint8_t out[MSFT_TEXT_CHECK_BYTES];
    check("a text", bytes, sizeof bytes, whole);
    check("a text that breaks off", bytes, sizeof bytes, broken);
    check("a text from within a letter", bytes, sizeof bytes, behind);
    check("an empty text", bytes, sizeof bytes, none);
    check("a text past the end", bytes, sizeof bytes, past);
    say("a text, no room", msft_text_check(bytes, sizeof bytes, MSFT_PLACE(whole), out, sizeof out - 1));
}

/* References by their numbers: the smallest; at multiples of 100, of the whole number or without its bit 0x01000000,
   and beside them; with a low bit set; at the ends of the range. */
static void references(void)
{
    static const int32_t hreftypes[] = {
        0, 4, 8, 96, 100, 104, 200, 0x01000000, 0x01000004, 0x01000054, 0x01000064, 0x02000000, 0x03000000,
        1, 2, 3, 5, 101, 0x01000005, 0x7effffe0, 0x7efffffc, 0x7fffffd0, 0x7fffffe0, 0x7ffffffc, INT32_MAX,
        -1, -4, -100, -0x7ffffffc, INT32_MIN};
    for (size_t i = 0; i < sizeof hreftypes / sizeof *hreftypes; i++)
        printf("a reference of %ld: %ld\n", (long)hreftypes[i], (long)msft_misplaced_offset(hreftypes[i]));
}

/* What parses refuses such bytes, and over-long bytes are refused by all. */
static int refused(void)
{
    const msft_place all = {0, MOST_BYTES};
    uint8_t none[VAR_SIZE] = {0}, *bytes = calloc(MOST_BYTES + 1, 1);
    if (bytes == NULL)
        return 2;
    say("the locale", msft_lcid(none, sizeof none));
    say("as long as may be", msft_var_flags(bytes, MOST_BYTES, 0, VAR_SIZE));
    check("a text as long", bytes, MOST_BYTES, all);
    say("over-long", msft_var_flags(bytes, MOST_BYTES + 1, 0, VAR_SIZE));
    check("a text in it", bytes, MOST_BYTES + 1, all);
    free(bytes);
    return 0;
}

int main(void)
{
    variable();
    parameters();
    chain();
    name();
    texts();
    references();
    return refused();
}
