#include "findings.h"
#include "utf8.h"

#include <inttypes.h>
#include <stdio.h>

/* A field that is not negative names an entry of a table by its offset. It leads out of the table where
   the reading of that entry replies 9. A field that is not there itself is no such field. */
typedef int64_t reading(const uint8_t *lib, size_t lib_len, int32_t offset, uint8_t *out,
                        size_t out_len);

/* The most bytes that one of these readings writes: those of a reference. */
enum { MOST_OUT = 34 };

/* What is found: an offset that leads out of its table, a reference to where no typeinfo is, or a text that is not
   UTF-8. A library in a code page can have hundreds of the last, which must not push out the others: each kind is
   counted and told by itself. */
typedef enum kind { OUTSIDE, MISPLACED, NOT_UTF8, KINDS } kind;

/* A hostile library can lead out of its tables millions of times: so many of a kind are told. */
enum { MOST_TOLD = 100 };

/* A pass over the library: the first, for KINDS, only counts; one for a kind says where those of that kind are. */
typedef struct search {
    const library *l;
    kind says;
    size_t found[KINDS];
    cell where;
} search;

/* Whether this pass has something left to say. */
static bool is_saying(const search *s)
{
    return s->says != KINDS && s->found[s->says] < MOST_TOLD;
}

/* Counts a finding; replies whether this pass says it. */
static bool counted(search *s, kind of)
{
    bool said = s->says == of && is_saying(s);
    s->found[of]++;
    return said;
}

static bool names_something(int64_t field)
{
    return 0 <= field && 0 <= msft_i32(field);
}

/* One finding: `part` and `what` are words for the field. */
static void say(const search *s, const char *part, const char *what, int64_t offset, const char *is)
{
    printf("  %s: %s%s, at offset 0x%lx, is %s\n", s->where.text, part, what, (unsigned long)offset, is);
}

static void found(search *s, const char *part, const char *what, int64_t offset, const char *is)
{
    if (counted(s, OUTSIDE))
        say(s, part, what, offset, is);
}

static void look(search *s, const char *part, const char *what, int64_t field, reading *read,
                 const char *is)
{
    uint8_t out[MOST_OUT];
    if (names_something(field)
        && read(BYTES(s->l), msft_i32(field), out, sizeof out) == -MSFT_NOTHING_THERE)
        found(s, part, what, field, is);
}

static void look_at_guid(search *s, const char *part, const char *what, int64_t field)
{
    look(s, part, what, field, msft_guid, "not inside the GUID table and the file");
}

/* The bytes at an offset of a table; NULL where they are not inside it and the file. */
static const uint8_t *bytes_in(const library *l, size_t index, int64_t offset, size_t size)
{
    uint8_t out[16];
    if (!names_something(offset) || msft_segment(BYTES(l), index, out, sizeof out) < 0)
        return NULL;
    msft_place table = msft_unpack_place(out);
    size_t at = table.at + (size_t)offset;
    if (table.len < (size_t)offset + size || l->len < at + size)
        return NULL;
    return l->bytes + at;
}

/* A stored text whose length is below minus 1 is nothing wherever it lies. */
static bool has_no_length(const library *l, int64_t offset)
{
    enum { TABLE = 11, HEAD = 6, TEXT = 8 };
    const uint8_t *head = bytes_in(l, TABLE, offset, HEAD);
    return head != NULL && msft_le(head, 2) == TEXT && msft_i32((int64_t)msft_le(head + 2, 4)) < -1;
}

static void look_at_constant(search *s, const char *what, int64_t field)
{
    if (!has_no_length(s->l, field))
        look(s, "", what, field, msft_const_value, "not inside the table of constants and the file");
}

/* ---- texts ---- */

/* Names and file names stand in the sheet as often as they are looked at: all together are no longer than that. */
static void look_at_text(search *s, const char *part, const char *what, int64_t offset, text t)
{
    cell is;
    if (is_utf8(t) || !counted(s, NOT_UTF8))
        return;
    clear(&is);
    put(&is, "not UTF-8: ");
    put_fault(&is, s->l, t);
    say(s, part, what, offset, is.text);
}

static void look_at_name(search *s, int64_t field)
{
    text name = name_at(s->l, field);
    if (name.bytes != NULL)
        look_at_text(s, "", "its name", field, name);
    else if (names_something(field))
        found(s, "", "its name", field, "not inside the name table and the file");
}

static void look_at_file_name(search *s, const char *what, int64_t offset, msft_place file)
{
    uint8_t out[16];
    int64_t reply = msft_impfile_filename_bytes(BYTES(s->l), MSFT_PLACE(file), out, sizeof out);
    if (0 <= reply)
        look_at_text(s, "the file name in the import file of ", what, offset, text_at(s->l, reply, out));
}

/* The library's help string, two bytes of length and its own. It is in no sheet; but the listing has it only where
   it is UTF-8. */
static void look_at_help(search *s)
{
    enum { TABLE = 8, HEAD = 2 };
    int64_t offset = msft_helpstring_offset(BYTES(s->l));
    const uint8_t *head = bytes_in(s->l, TABLE, offset, HEAD);
    if (head == NULL)
        return;
    text help = {head + HEAD, (size_t)msft_le(head, HEAD)};
    if (bytes_in(s->l, TABLE, offset, HEAD + help.len) != NULL)
        look_at_text(s, "", "its help string", offset, help);
}

/* ---- where ---- */

/* Goes on to a type, a member, a parameter or an interface, and looks at its name; a refusal for `name`
   says that it has none. Replies where the words for what it is part of end; `leave` cuts there. */
static size_t enter(search *s, const char *what, uint64_t number, int64_t name)
{
    size_t before = s->where.len;
    if (is_saying(s)) {
        text words = name_at(s->l, name);
        put(&s->where, "%s %" PRIu64, what, number);
        if (words.bytes != NULL) {
            put(&s->where, " ");
            put_quoted(&s->where, words);
        }
    }
    look_at_name(s, name);
    return before;
}

static void leave(search *s, size_t before)
{
    s->where.len = before;
    s->where.text[before] = '\0';
}

/* ---- references and types ---- */

static void look_at_import(search *s, const char *what, const msft_reference *r)
{
    const library *l = s->l;
    int64_t file = msft_impinfo_imp_file_offset(BYTES(l), MSFT_PLACE(r->info));
    if ((msft_impinfo_flags(BYTES(l), MSFT_PLACE(r->info)) & 0x10000) != 0)
        look_at_guid(s, "the GUID in the import record of ", what,
                     msft_impinfo_guid_offset(BYTES(l), MSFT_PLACE(r->info)));
    look(s, "the import file of ", what, file, msft_imp_file,
         "not inside the table of import files and the file");
    if (!r->has_file)
        return;
    look_at_guid(s, "the GUID in the import file of ", what,
                 msft_impfile_guid_offset(BYTES(l), MSFT_PLACE(r->file)));
    look_at_file_name(s, what, file, r->file);
}

static void found_misplaced(search *s, const char *what, int64_t offset)
{
    if (counted(s, MISPLACED))
        printf("  %s: %s refers to %ld, where no typeinfo is\n", s->where.text, what, (long)offset);
}

/* A reference with one of its low two bits set names an import record. Any other is a typeinfo's place, or no
   typeinfo is there; it is not looked up in a table. */
static void look_at_reference(search *s, const char *what, int64_t hreftype)
{
    uint8_t out[MOST_OUT];
    if (!names_something(hreftype))
        return;
    int64_t misplaced = msft_misplaced_offset(msft_i32(hreftype));
    if (0 <= misplaced)
        found_misplaced(s, what, misplaced);
    if ((hreftype & 3) == 0)
        return;
    if (msft_resolve_hreftype_full(BYTES(s->l), msft_i32(hreftype), out, sizeof out) < 0) {
        found(s, "the import record of ", what, hreftype & ~INT64_C(0x01000003),
              "not inside the table of imports and the file");
        return;
    }
    msft_reference r = msft_unpack_reference(out);
    look_at_import(s, what, &r);
}

/* A description that is not there: its type descriptor leads out, or else the array descriptor that this
   names by its low 16 bits. */
static void found_descriptor(search *s, const char *what, int64_t field)
{
    uint8_t out[8];
    if (msft_type_desc(BYTES(s->l), msft_i32(field), out, sizeof out) < 0)
        found(s, "a type descriptor of ", what, field, "not inside the table of type descriptors and the file");
    else
        found(s, "an array descriptor of ", what, (int64_t)msft_le(out + 4, 2),
              "not inside the table of array descriptors and the file");
}

static void look_at_type(search *s, const char *what, int64_t field)
{
    msft_description d;
    while (0 <= field) {
        if (!describe(s->l, field, &d)) {
            found_descriptor(s, what, field);
            return;
        }
        if (d.code == MSFT_REFERENCE)
            look_at_reference(s, what, (int64_t)(uint32_t)d.number);
        field = described(s->l, &d);
    }
}

/* ---- types and members ---- */

static void look_at_parameters(search *s, msft_place function)
{
    const library *l = s->l;
    msft_cursor at = parameters_of(l, function);
    record p;
    while (next_parameter(l, &at, &p)) {
        size_t before = enter(s, ", parameter", p.number,
                              msft_param_name_offset(BYTES(l), MSFT_PLACE(p.place)));
        look_at_type(s, "its type", msft_param_datatype(BYTES(l), MSFT_PLACE(p.place)));
        if ((msft_param_flags(BYTES(l), MSFT_PLACE(p.place)) & 0x20) != 0)
            look_at_constant(s, "its default value",
                             msft_func_default_value_offset(BYTES(l), MSFT_PLACE(function), p.number));
        leave(s, before);
    }
}

static void look_at_functions(search *s, msft_place type)
{
    const library *l = s->l;
    msft_cursor at = functions_of(l, type);
    record f;
    while (next_function(l, &at, &f)) {
        size_t before = enter(s, ", function", f.number,
                              msft_func_name_offset(BYTES(l), MSFT_PLACE(type), f.number));
        look_at_type(s, "its result", msft_func_datatype(BYTES(l), MSFT_PLACE(f.place)));
        look_at_parameters(s, f.place);
        leave(s, before);
    }
}

static void look_at_variables(search *s, msft_place type)
{
    const library *l = s->l;
    msft_cursor at = variables_of(l, type);
    record v;
    while (next_variable(l, &at, &v)) {
        size_t before = enter(s, ", variable", v.number,
                              msft_var_name_offset(BYTES(l), MSFT_PLACE(type), v.number));
        look_at_type(s, "its type", msft_var_datatype(BYTES(l), MSFT_PLACE(v.place)));
        if (msft_var_varkind(BYTES(l), MSFT_PLACE(v.place)) == 2)
            look_at_constant(s, "its value", msft_var_offs_value(BYTES(l), MSFT_PLACE(v.place)));
        leave(s, before);
    }
}

static size_t enter_interface(search *s, uint64_t number)
{
    return enter(s, ", interface", number, -MSFT_NOTHING_THERE);
}

/* The interfaces of a coclass, and the offset behind the last. */
static void look_at_chain(search *s, msft_place type)
{
    const library *l = s->l;
    uint8_t out[MSFT_CHAIN_YIELD_BYTES];
    size_t before;
    if (msft_impl_types(BYTES(l), MSFT_PLACE(type), out, sizeof out) < 0)
        return;
    msft_chain_cursor at = msft_unpack_chain_cursor(out);
    while (0 <= msft_impl_type_step(BYTES(l), MSFT_CHAIN_CURSOR(at), out, sizeof out)) {
        msft_chain_yield y = msft_unpack_chain_yield(out);
        before = enter_interface(s, y.number);
        look_at_reference(s, "its type", msft_ref_reftype(BYTES(l), MSFT_PLACE(y.record)));
        leave(s, before);
        at = y.next;
    }
    if (!names_something(at.next))
        return;
    before = enter_interface(s, at.yielded);
    found(s, "", "its record", at.next, "not inside the table of references and the file");
    leave(s, before);
}

static void look_at_base(search *s, msft_place type)
{
    int64_t field = msft_typeinfo_datatype1(BYTES(s->l), MSFT_PLACE(type));
    switch (msft_typeinfo_typekind(BYTES(s->l), MSFT_PLACE(type))) {
    case 3:
    case 4: look_at_reference(s, "its base", field); break;
    case 5: look_at_chain(s, type); break;
    case 6: look_at_type(s, "what it stands for", field); break;
    default: break;
    }
}

static void look_at_types(search *s)
{
    const library *l = s->l;
    int64_t count = msft_typeinfo_count(BYTES(l));
    msft_place type;
    for (int64_t i = 0; i < count; i++) {
        if (!type_at(l, (size_t)i, &type))
            continue;
        size_t before = enter(s, "type", (size_t)i,
                              msft_typeinfo_name_offset(BYTES(l), MSFT_PLACE(type)));
        look_at_guid(s, "", "its GUID", msft_typeinfo_guid_offset(BYTES(l), MSFT_PLACE(type)));
        look_at_base(s, type);
        look_at_functions(s, type);
        look_at_variables(s, type);
        leave(s, before);
    }
}

/* ---- the whole search ---- */

static void search_for(search *s, const library *l, kind says)
{
    s->l = l;
    s->says = says;
    for (int i = 0; i < KINDS; i++)
        s->found[i] = 0;
    clear(&s->where);
    put(&s->where, "the library");
    look_at_name(s, msft_name_offset(BYTES(l)));
    look_at_help(s);
    look_at_guid(s, "", "its GUID", msft_lib_guid_offset(BYTES(l)));
    leave(s, 0);
    look_at_types(s);
}

static void print_kind(const library *l, kind says, size_t count, const char *head)
{
    search s;
    if (count == 0)
        return;
    printf("  %zu %s\n", count, head);
    search_for(&s, l, says);
    if (MOST_TOLD < count)
        printf("  and %zu more\n", count - MOST_TOLD);
}

void print_findings(const library *l)
{
    search s;
    search_for(&s, l, KINDS);
    print_kind(l, OUTSIDE, s.found[OUTSIDE],
               s.found[OUTSIDE] == 1 ? "reading leads out of its table" : "readings lead out of their tables");
    print_kind(l, MISPLACED, s.found[MISPLACED],
               s.found[MISPLACED] == 1 ? "reference hits no typeinfo; typeinfos stand every 100 bytes"
                                       : "references hit no typeinfo; typeinfos stand every 100 bytes");
    print_kind(l, NOT_UTF8, s.found[NOT_UTF8],
               s.found[NOT_UTF8] == 1 ? "text is not UTF-8; names in a code page are read as bytes, not as text"
                                      : "texts are not UTF-8; names in a code page are read as bytes, not as text");
}
