/* What number each cursor gives its records, and that calls write as much as the header names. Steps each over
   bytes made here, to its end, or three times along a chain that has none, and prints the numbers and the places. */
#include <inttypes.h>
#include <stdio.h>

#include "msft_typelib.h"

enum { MOST_SIZE = 24, FUNC_SIZE = 24, VAR_SIZE = 20, PARAM_SIZE = 12 };
enum { GUID_SIZE = 24, IMPORT_SIZE = 12, FILE_SIZE = 16, NAME_SIZE = 12, REF_SIZE = 16 };

static void say(const char *what, uint64_t number, msft_place record)
{
    printf("%s %" PRIu64 ": %zu bytes at %zu\n", what, number, record.len, record.at);
}

static void set_word(uint8_t *at, uint32_t word)
{
    for (int i = 0; i < 4; i++)
        at[i] = (uint8_t)(word >> 8 * i);
}

/* ---- functions, variables and parameters ---- */

typedef int64_t member_step(const uint8_t *lib, size_t lib_len, size_t pos, size_t end,
                            size_t remaining, uint64_t yielded, uint8_t *out, size_t out_len);

/* Two records, where three are declared: the cursor ends before the third. The size of a member stands in
   its first word. */
static void members(const char *what, member_step *step, uint8_t size, uint64_t yielded)
{
    uint8_t bytes[2 * MOST_SIZE] = {0}, out[MSFT_YIELD_BYTES];
    msft_cursor at = {0, 2 * (size_t)size, 3, yielded};
    bytes[0] = size;
    bytes[size] = size;
    while (step(bytes, sizeof bytes, MSFT_CURSOR(at), out, sizeof out) == (int64_t)sizeof out) {
        msft_yield y = msft_unpack_yield(out);
        say(what, y.number, y.record);
        at = y.next;
    }
    printf("%s cursor: %" PRIu64 " yielded, %zu remaining\n", what, at.yielded, at.remaining);
}

/* ---- tables ---- */

typedef int64_t table_step(const uint8_t *lib, size_t lib_len, size_t pos, size_t end,
                           uint64_t yielded, uint8_t *out, size_t out_len);

/* Two entries, and a byte that is none. */
static void table(const char *what, table_step *step, size_t size)
{
    uint8_t bytes[2 * MOST_SIZE + 1] = {0}, out[MSFT_TABLE_YIELD_BYTES];
    msft_table_cursor at = {0, 2 * size + 1, 0};
    while (step(bytes, sizeof bytes, MSFT_TABLE_CURSOR(at), out, sizeof out) == (int64_t)sizeof out) {
        msft_table_yield y = msft_unpack_table_yield(out);
        say(what, y.number, y.record);
        at = y.next;
    }
    printf("%s cursor: %" PRIu64 " yielded\n", what, at.yielded);
}

/* Two names of four bytes, the second behind the first; the table begins at the first. */
static void names(void)
{
    uint8_t bytes[2 * (NAME_SIZE + 4)] = {0}, out[MSFT_NAME_YIELD_BYTES];
    msft_name_cursor at = {0, sizeof bytes, 0, 0};
    bytes[8] = 4;
    bytes[NAME_SIZE + 4 + 8] = 4;
    while (msft_name_step(bytes, sizeof bytes, MSFT_NAME_CURSOR(at), out, sizeof out) == (int64_t)sizeof out) {
        msft_name_yield y = msft_unpack_name_yield(out);
        say("name", y.number, y.record.text);
        at = y.next;
    }
    printf("name cursor: %" PRIu64 " yielded\n", at.yielded);
}

/* ---- typeinfos ---- */

/* A library of three types, the second of which is refused, and the end behind them. */
static void typeinfos(void)
{
    enum { COUNT = 3, OFFSETS = 84, DIRECTORY = OFFSETS + 4 * COUNT, TYPES = DIRECTORY + 240, SIZE = 100 };
    uint8_t bytes[TYPES + 2 * SIZE] = {'M', 'S', 'F', 'T'}, out[MSFT_TYPEINFO_YIELD_BYTES];
    set_word(bytes + 32, COUNT);
    set_word(bytes + OFFSETS + 4, UINT32_MAX);
    set_word(bytes + OFFSETS + 8, SIZE);
    set_word(bytes + DIRECTORY, TYPES);
    set_word(bytes + DIRECTORY + 4, 2 * SIZE);
    for (size_t index = 0; index <= COUNT;) {
        int64_t reply = msft_typeinfo_step(bytes, sizeof bytes, index, out, sizeof out);
        if (reply != (int64_t)sizeof out) {
            printf("typeinfo %zu: refused %d\n", index, (int)-reply);
            index++;
            continue;
        }
        msft_typeinfo_yield y = msft_unpack_typeinfo_yield(out);
        say("typeinfo", y.number, y.record);
        index = y.next;
    }
}

/* ---- implemented types ---- */

/* A record that is followed by itself has no end: three steps. */
static void chain(uint64_t yielded)
{
    uint8_t bytes[REF_SIZE] = {0}, out[MSFT_CHAIN_YIELD_BYTES];
    msft_chain_cursor at = {0, REF_SIZE, 0, yielded};
    for (int i = 0; i < 3; i++) {
        if (msft_impl_type_step(bytes, sizeof bytes, MSFT_CHAIN_CURSOR(at), out, sizeof out)
            != (int64_t)sizeof out)
            return;
        msft_chain_yield y = msft_unpack_chain_yield(out);
        say("reference", y.number, y.record);
        at = y.next;
    }
    printf("reference cursor: %" PRIu64 " yielded\n", at.yielded);
}

/* The walk is of the chain from the cursor on, whatever the cursor has yielded. */
static void walk(void)
{
    uint8_t bytes[REF_SIZE] = {0}, out[MSFT_SIZE_BYTES];
    set_word(bytes + 12, UINT32_MAX);
    msft_chain_cursor at = {0, REF_SIZE, 0, UINT64_MAX};
    if (0 < msft_walk(bytes, sizeof bytes, MSFT_CHAIN_CURSOR(at), out, sizeof out))
        printf("walk: %zu\n", msft_unpack_size(out));
}

/* ---- lengths ---- */

/* What sets a cursor up, the check of a text, and the figures of a sheet, over the smallest library: how many write as
   much as the header names for them. */
static void lengths(void)
{
    enum { LIBRARY_SIZE = 324, TYPE_SIZE = 100 };
    uint8_t bytes[LIBRARY_SIZE] = {'M', 'S', 'F', 'T'}, out[MSFT_NAME_YIELD_BYTES];
    int right = 0;
    right += msft_funcs(bytes, sizeof bytes, 0, TYPE_SIZE, out, sizeof out) == MSFT_CURSOR_BYTES;
    right += msft_guids(bytes, sizeof bytes, out, sizeof out) == MSFT_TABLE_CURSOR_BYTES;
    right += msft_names(bytes, sizeof bytes, out, sizeof out) == MSFT_NAME_CURSOR_BYTES;
    right += msft_impl_types(bytes, sizeof bytes, 0, TYPE_SIZE, out, sizeof out) == MSFT_CHAIN_CURSOR_BYTES;
    right += msft_typeinfos(bytes, sizeof bytes, out, sizeof out) == MSFT_SIZE_BYTES;
    right += msft_text_check(bytes, sizeof bytes, 0, 4, out, sizeof out) == MSFT_TEXT_CHECK_BYTES;
    right += msft_sheet_figures(bytes, sizeof bytes, out, sizeof out) == MSFT_FIGURES_BYTES;
    printf("calls that write the length that is named: %d of 7\n", right);
}

int main(void)
{
    members("function", msft_func_step, FUNC_SIZE, 0);
    members("variable", msft_var_step, VAR_SIZE, 0);
    members("parameter", msft_param_step, PARAM_SIZE, 0);
    members("late function", msft_func_step, FUNC_SIZE, UINT64_MAX - 1);
    table("guid", msft_guid_step, GUID_SIZE);
    table("import", msft_import_step, IMPORT_SIZE);
    table("import file", msft_imp_file_step, FILE_SIZE);
    names();
    typeinfos();
    chain(0);
    chain(UINT64_MAX - 1);
    walk();
    lengths();
    return 0;
}
