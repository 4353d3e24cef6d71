/* The harness's own use of the library: which member draws, what it takes and what it returns; and the library's
   sheet, to be kept with the report.
       example slot_random.tlb Draw
       example slot_random.tlb Draw slot_random.sheet */
#include <msft_typelib.h>
#include <stdio.h>
#include <stdlib.h>

#define LIB lib, lib_len
static uint8_t lib[16777217], out[MSFT_YIELD_BYTES];
static size_t lib_len;

/* A parameter: its name, and its type as pointers and the name of a base type. */
static void print_parameter(msft_place param)
{
    int64_t name = msft_param_name_offset(LIB, MSFT_PLACE(param));
    int64_t type = msft_param_datatype(LIB, MSFT_PLACE(param));
    printf(msft_param_is_out(LIB, MSFT_PLACE(param)) == 1 ? "  returns " : "  takes   ");
    if (0 < msft_name(LIB, msft_i32(name), out, sizeof out))
        printf("%.*s: ", (int)msft_unpack_place(out).len, (char *)lib + msft_unpack_place(out).at);
    for (int level = 0; level < 32; level++) {
        if (msft_type_description(LIB, msft_i32(type), out, sizeof out) < 0 || out[0] != MSFT_POINTER)
            break;
        printf("pointer to ");
        type = (uint32_t)msft_unpack_description(out).number;
    }
    int64_t n = msft_vt_name(out[0] == MSFT_BASE ? (uint16_t)msft_le(out + 1, 2) : 29, out, sizeof out);
    printf("%.*s\n", (int)n, (char *)out);
}

/* A function: its number, what C needs to call it, and its parameters. */
static void print_function(msft_place type, msft_yield func)
{
    printf("function %llu: memid 0x%08llx, vtable offset 0x%04llx\n", (unsigned long long)func.number,
           (unsigned long long)msft_func_memid(LIB, MSFT_PLACE(type), func.number),
           (unsigned long long)msft_func_vtable_offset(LIB, MSFT_PLACE(func.record)));
    if (msft_params(LIB, MSFT_PLACE(func.record), out, sizeof out) < 0)
        return;
    msft_cursor at = msft_unpack_cursor(out);
    while (0 < msft_param_step(LIB, MSFT_CURSOR(at), out, sizeof out)) {
        msft_yield param = msft_unpack_yield(out);
        at = param.next;
        print_parameter(param.record);
    }
}

/* The functions of a type that have the name; replies how many. A function's name and memid lie apart
   from its record: the number that comes with the record finds them. */
static int find(msft_place type, const char *wanted)
{
    int found = 0;
    msft_cursor at = {0, 0, 0, 0};
    if (0 < msft_funcs(LIB, MSFT_PLACE(type), out, sizeof out))
        at = msft_unpack_cursor(out);
    while (0 < msft_func_step(LIB, MSFT_CURSOR(at), out, sizeof out)) {
        msft_yield func = msft_unpack_yield(out);
        at = func.next;
        if (msft_func_name(LIB, MSFT_PLACE(type), func.number, out, sizeof out) < 0)
            continue;
        msft_place name = msft_unpack_place(out);
        if (name.len == strlen(wanted) && memcmp(lib + name.at, wanted, name.len) == 0) {
            print_function(type, func);
            found++;
        }
    }
    return found;
}

static int refuse(int64_t reply)
{
    fprintf(stderr, "refused %d: %s\n", (int)-reply, msft_refusal_word(reply));
    return 2;
}

static int store(const char *path, const uint8_t *bytes, size_t len)
{
    FILE *file = fopen(path, "wb");
    if (file == NULL)
        return perror(path), 2;
    int is_short = fwrite(bytes, 1, len, file) != len;
    if (is_short)
        perror(path);
    if (fclose(file) != 0 && !is_short)
        return perror(path), 2;
    return is_short ? 2 : 0;
}

/* The library's sheet, into a file. How many bytes to reserve is in its figures: they are refused as the sheet would be,
   but for one that is longer than any sheet may be, and else the sheet has just as many. */
static int store_sheet(const char *path)
{
    int64_t reply = msft_sheet_figures(LIB, out, sizeof out);
    if (reply < 0)
        return refuse(reply);
    size_t len = msft_unpack_figures(out).length;
    if (MSFT_MOST_FIGURE < len)
        return refuse(-MSFT_NO_SPACE);
    uint8_t *sheet = malloc(len);
    if (sheet == NULL)
        return perror("example"), 2;
    reply = msft_sheet(LIB, sheet, len);
    int status = reply < 0 ? refuse(reply) : store(path, sheet, len);
    free(sheet);
    return status;
}

int main(int argc, char **argv)
{
    int found = 0;
    FILE *file = argc == 3 || argc == 4 ? fopen(argv[1], "rb") : NULL;
    if (file == NULL)
        return fputs("usage: example LIBRARY MEMBER [SHEET]\n", stderr), 2;
    lib_len = fread(lib, 1, sizeof lib, file);
    fclose(file);
    int64_t count = msft_typeinfo_count(LIB);
    if (count < 0)
        return refuse(count);
    for (size_t i = 0; i < (size_t)count; i++)
        if (0 < msft_typeinfo(LIB, i, out, sizeof out))
            found += find(msft_unpack_place(out), argv[2]);
    if (argc == 4 && store_sheet(argv[3]) != 0)
        return 2;
    return found == 0;
}
