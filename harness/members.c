/* tlb members: every type of a library with its members, one a line. */
#include "commands.h"
#include "spell.h"

#include <inttypes.h>
#include <stdio.h>

/* ---- words for codes ---- */

typedef struct bit {
    uint32_t mask;
    const char *word;
} bit;

/* The words of the bits that are set, and what is left in hex, between brackets. */
static void put_bits(cell *c, uint32_t flags, const bit *bits, size_t count)
{
    const char *before = "[";
    for (size_t i = 0; i < count; i++) {
        if ((flags & bits[i].mask) == 0)
            continue;
        put(c, "%s%s", before, bits[i].word);
        flags &= ~bits[i].mask;
        before = ", ";
    }
    if (flags != 0) {
        put(c, "%s0x%lx", before, (unsigned long)flags);
        before = ", ";
    }
    if (before[0] == ',')
        put(c, "] ");
}

static const char *invoke_word(int64_t kind)
{
    switch (kind) {
    case 1: return "func";
    case 2: return "propget";
    case 4: return "propput";
    case 8: return "propputref";
    default: return "unknown";
    }
}

/* ---- cells ---- */

static void put_name(cell *c, text name)
{
    if (name.bytes == NULL)
        put(c, "(no name)");
    else
        put_text(c, name);
}

/* A name, and the GUID where there is one. */
static void put_title(cell *c, const library *l, text name, int64_t guid)
{
    cell id;
    clear(&id);
    put_guid(&id, l, guid);
    put_name(c, name);
    if (id.len != 0)
        put(c, " %s", id.text);
}

/* A member's number, as its step gave it. */
static void print_number(uint64_t number)
{
    printf("    %6" PRIu64, number);
}

/* A member's identifier, as the record has it. */
static void print_memid(int64_t memid)
{
    if (memid < 0)
        printf("  %-10s", "-");
    else
        printf("  0x%08lx", (unsigned long)memid);
}

/* A number that is hex by nature, such as an offset. */
static void print_offset(int64_t offset)
{
    if (offset < 0)
        printf("  %-6s", "-");
    else
        printf("  0x%04lx", (unsigned long)offset);
}

static void print_heads(bool *printed)
{
    if (!*printed)
        printf("    %6s  %-10s  %-6s  %-10s  %s\n", "number", "memid", "offset", "kind", "member");
    *printed = true;
}

/* ---- functions ---- */

static void put_default(cell *c, const library *l, msft_place function, uint64_t number)
{
    int64_t word = msft_func_default_value_offset(BYTES(l), MSFT_PLACE(function), number);
    put(c, " = ");
    put_constant(c, l, word);
}

/* A parameter: its flags in words, its type, its name, and the default value. */
static void put_parameter(cell *c, const library *l, msft_place function, record parameter)
{
    static const bit words[] = {{0x01, "in"}, {0x02, "out"}, {0x04, "lcid"}, {0x08, "retval"},
                                {0x10, "optional"}};
    int64_t flags = msft_param_flags(BYTES(l), MSFT_PLACE(parameter.place));
    uint32_t bits = flags < 0 ? 0 : (uint32_t)flags;
    put_bits(c, bits & ~UINT32_C(0x20), words, sizeof words / sizeof *words);
    put_type(c, l, msft_param_datatype(BYTES(l), MSFT_PLACE(parameter.place)));
    put(c, " ");
    put_name(c, name_at(l, msft_param_name_offset(BYTES(l), MSFT_PLACE(parameter.place))));
    if ((bits & 0x20) != 0)
        put_default(c, l, function, parameter.number);
}

static void print_parameters(const library *l, msft_place function)
{
    msft_cursor at = parameters_of(l, function);
    record parameter;
    cell c;
    putchar('(');
    while (next_parameter(l, &at, &parameter)) {
        clear(&c);
        put_parameter(&c, l, function, parameter);
        printf("%s%s", parameter.number == 0 ? "" : ", ", c.text);
    }
    puts(")");
}

static void print_function(const library *l, msft_place type, record function)
{
    cell c;
    print_number(function.number);
    print_memid(msft_func_memid(BYTES(l), MSFT_PLACE(type), function.number));
    print_offset(msft_func_vtable_offset(BYTES(l), MSFT_PLACE(function.place)));
    printf("  %-10s  ", invoke_word(msft_func_invoke_kind(BYTES(l), MSFT_PLACE(function.place))));
    clear(&c);
    put_type(&c, l, msft_func_datatype(BYTES(l), MSFT_PLACE(function.place)));
    put(&c, " ");
    put_name(&c, function_name(l, type, function.number));
    fputs(c.text, stdout);
    print_parameters(l, function.place);
}

/* Says where a type declares another number of members than were found. */
static void print_missing(const char *what, int64_t declared, uint64_t found)
{
    if (declared != (int64_t)found)
        printf("    (declares %ld %s, found %" PRIu64 ")\n", (long)declared, what, found);
}

static void print_functions(const library *l, msft_place type, bool *heads)
{
    msft_cursor at = functions_of(l, type);
    record function;
    while (next_function(l, &at, &function)) {
        print_heads(heads);
        print_function(l, type, function);
    }
    print_missing("functions", msft_typeinfo_func_count(BYTES(l), MSFT_PLACE(type)), at.yielded);
}

/* ---- variables ---- */

static void print_variable(const library *l, msft_place type, record variable)
{
    int64_t kind = msft_var_varkind(BYTES(l), MSFT_PLACE(variable.place));
    int64_t word = msft_var_offs_value(BYTES(l), MSFT_PLACE(variable.place));
    cell c;
    print_number(variable.number);
    print_memid(msft_var_memid(BYTES(l), MSFT_PLACE(type), variable.number));
    print_offset(kind == 2 ? -MSFT_NOTHING_THERE : word);
    printf("  %-10s  ", variable_word(kind));
    clear(&c);
    put_type(&c, l, msft_var_datatype(BYTES(l), MSFT_PLACE(variable.place)));
    put(&c, " ");
    put_name(&c, variable_name(l, type, variable.number));
    if (kind == 2) {
        put(&c, " = ");
        put_constant(&c, l, word);
    }
    puts(c.text);
}

static void print_variables(const library *l, msft_place type, bool *heads)
{
    msft_cursor at = variables_of(l, type);
    record variable;
    while (next_variable(l, &at, &variable)) {
        print_heads(heads);
        print_variable(l, type, variable);
    }
    print_missing("variables", msft_typeinfo_var_count(BYTES(l), MSFT_PLACE(type)), at.yielded);
}

/* ---- what a type rests on ---- */

static void print_implemented(const library *l, msft_place reference)
{
    static const bit words[] = {{0x1, "default"}, {0x2, "source"}, {0x4, "restricted"},
                                {0x8, "defaultvtable"}};
    int64_t flags = msft_ref_flags(BYTES(l), MSFT_PLACE(reference));
    cell c;
    clear(&c);
    put_bits(&c, flags < 0 ? 0 : (uint32_t)flags, words, sizeof words / sizeof *words);
    put_reference(&c, l, msft_ref_reftype(BYTES(l), MSFT_PLACE(reference)));
    printf("    implements %s\n", c.text);
}

/* The interfaces of a coclass: as many as the walk along their chain took. */
static void print_chain(const library *l, msft_place type)
{
    uint8_t out[MSFT_CHAIN_YIELD_BYTES];
    if (msft_impl_types(BYTES(l), MSFT_PLACE(type), out, sizeof out) < 0)
        return;
    msft_chain_cursor at = msft_unpack_chain_cursor(out);
    if (msft_walk(BYTES(l), MSFT_CHAIN_CURSOR(at), out, sizeof out) < 0)
        return;
    size_t count = msft_unpack_size(out);
    while (at.yielded < count) {
        if (msft_impl_type_step(BYTES(l), MSFT_CHAIN_CURSOR(at), out, sizeof out) < 0)
            return;
        msft_chain_yield y = msft_unpack_chain_yield(out);
        print_implemented(l, y.record);
        at = y.next;
    }
}

static void print_base(const library *l, msft_place type, int64_t kind)
{
    int64_t field = msft_typeinfo_datatype1(BYTES(l), MSFT_PLACE(type));
    cell c;
    clear(&c);
    if (kind == 5) {
        print_chain(l, type);
    } else if (kind == 6) {
        put_type(&c, l, field);
        printf("    stands for %s\n", c.text);
    } else if ((kind == 3 || kind == 4) && field != INT64_C(0xffffffff)) {
        put_reference(&c, l, field);
        printf("    extends %s\n", c.text);
    }
}

/* ---- types and the library ---- */

static void print_type(const library *l, size_t index, msft_place type)
{
    int64_t kind = msft_typeinfo_typekind(BYTES(l), MSFT_PLACE(type));
    bool heads = false;
    cell c;
    clear(&c);
    put(&c, "[%zu] ", index);
    put_kind(&c, kind);
    put(&c, " ");
    put_title(&c, l, type_name(l, index),
              msft_typeinfo_guid_offset(BYTES(l), MSFT_PLACE(type)));
    printf("\n%s\n", c.text);
    clear(&c);
    put_version(&c, msft_typeinfo_version(BYTES(l), MSFT_PLACE(type)));
    printf("    flags 0x%08lx, version %s\n",
           (unsigned long)msft_typeinfo_flags(BYTES(l), MSFT_PLACE(type)), c.text);
    print_base(l, type, kind);
    print_functions(l, type, &heads);
    print_variables(l, type, &heads);
}

static void print_library(const library *l)
{
    uint8_t out[16];
    cell c;
    clear(&c);
    put(&c, "library ");
    put_title(&c, l, name_at(l, msft_name_offset(BYTES(l))), msft_lib_guid_offset(BYTES(l)));
    puts(c.text);
    clear(&c);
    put_version(&c, msft_version(BYTES(l)));
    printf("    version %s, lcid 0x%04lx, %ld types\n", c.text, (unsigned long)msft_lcid(BYTES(l)),
           (long)msft_typeinfo_count(BYTES(l)));
    text help = text_at(l, msft_lib_helpstring(BYTES(l), out, sizeof out), out);
    clear(&c);
    put_quoted(&c, help);
    if (help.bytes != NULL)
        printf("    %s\n", c.text);
}

static void print_types(const library *l)
{
    int64_t count = msft_typeinfo_count(BYTES(l));
    msft_place type;
    for (int64_t i = 0; i < count; i++)
        if (type_at(l, (size_t)i, &type))
            print_type(l, (size_t)i, type);
}

/* Only what has a sheet is listed: it is read to its end without a refusal, and is not longer than the
   sheet allows. The figures tell that without a sheet. */
int members_command(const char *path)
{
    library l;
    msft_figures f;
    if (!load(&l, path))
        return TROUBLE;
    int status = need_figures(&l, &f);
    if (status == DONE) {
        print_library(&l);
        print_types(&l);
    }
    unload(&l);
    return status;
}
