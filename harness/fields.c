/* The fields of a sheet's bodies, by the layout in document 01, and of a reference that hits no typeinfo in document 02.
   A walk reads a body field by field up to the one that holds the wanted byte. Two bodies that are the same up to
   that byte have the same fields before it, and so the walks along both come to the same field. */
#include "fields.h"
#include "spell.h"

#include <inttypes.h>
#include <stdio.h>
#include <string.h>

enum { GUID_SIZE = 16, BOUND_SIZE = 8 };

typedef struct walk {
    const library *l;
    text body;
    size_t at;
    size_t wanted;
    /* The bytes do not follow the layout: the walk has ended. */
    bool is_broken;
    /* The number that was read last: of a list its length. */
    uint64_t last;
    /* The entry of a list in which the walk is, its name, and what it has in the field that was read last. */
    cell where, name, value;
    /* The field that holds the wanted byte, and the part of it that does, with what this has. Both are NULL before the
       walk comes to them. */
    const char *field, *part;
    cell part_value;
} walk;

/* ---- parts: a number, or some bytes ---- */

/* Numbers of one or two bytes are codes and counts. Of a long part, the byte itself. */
static void note_part(walk *w, text t, const char *part)
{
    w->part = part;
    if (t.len <= 2)
        put(&w->part_value, "%" PRIu64, msft_le(t.bytes, t.len));
    else if (t.len <= 8)
        put(&w->part_value, "0x%08" PRIx64, msft_le(t.bytes, t.len));
    else if (t.len == GUID_SIZE)
        put_guid_text(&w->part_value, t);
    else
        put(&w->part_value, "0x%02x", t.bytes[w->wanted - w->at]);
}

static text take(walk *w, size_t width, const char *part)
{
    text t = {w->body.bytes, 0};
    if (w->is_broken || w->body.len - w->at < width) {
        w->is_broken = true;
        return t;
    }
    t.bytes = w->body.bytes + w->at;
    t.len = width;
    if (w->at <= w->wanted && w->wanted - w->at < width)
        note_part(w, t, part);
    w->at += width;
    return t;
}

/* A number, which is 0 where the walk has ended. */
static uint64_t number(walk *w, size_t width, const char *part)
{
    text t = take(w, width, part);
    w->last = msft_le(t.bytes, t.len);
    return w->last;
}

/* The byte before something that may be missing. */
static bool is_there(walk *w, const char *part)
{
    uint64_t mark = number(w, 1, part);
    if (1 < mark)
        w->is_broken = true;
    return mark == 1;
}

/* ---- fields: each is read at the walk's place, and spelled ---- */

typedef void reading(walk *w, cell *c);

static void read_count(walk *w, cell *c)
{
    put(c, "%" PRIu64, number(w, 2, "their number"));
}

static void read_long_count(walk *w, cell *c)
{
    put(c, "%" PRIu64, number(w, 4, "their number"));
}

static void read_offset(walk *w, cell *c)
{
    put(c, "0x%04" PRIx64, number(w, 2, "its number"));
}

static void read_word(walk *w, cell *c)
{
    put(c, "0x%08" PRIx64, number(w, 4, "its number"));
}

static void read_small_word(walk *w, cell *c)
{
    put(c, "0x%04" PRIx64, number(w, 4, "its number"));
}

static void read_version(walk *w, cell *c)
{
    put_version(c, (int64_t)number(w, 4, "its number"));
}

static void read_type_kind(walk *w, cell *c)
{
    put_kind(c, (int64_t)number(w, 1, "its number"));
}

static void read_variable_kind(walk *w, cell *c)
{
    put(c, "%s", variable_word((int64_t)number(w, 2, "its number")));
}

static void read_memid(walk *w, cell *c)
{
    if (is_there(w, "whether there is one"))
        read_word(w, c);
    else
        put(c, "(nothing)");
}

static void read_guid(walk *w, cell *c)
{
    if (is_there(w, "whether there is one"))
        put_guid_text(c, take(w, GUID_SIZE, "its bytes"));
    else
        put(c, "(nothing)");
}

static void read_name(walk *w, cell *c)
{
    if (is_there(w, "whether there is one"))
        put_quoted(c, take(w, (size_t)number(w, 1, "its length"), "its bytes"));
    else
        put(c, "(no name)");
}

/* ---- references and types, as the listing spells them ---- */

static void read_file(walk *w, cell *c)
{
    if (!is_there(w, "whether there is an import file")) {
        put(c, "(no file)");
        return;
    }
    if (is_there(w, "whether the import file has a GUID"))
        take(w, GUID_SIZE, "the import file's GUID");
    number(w, 4, "the import file's lcid");
    number(w, 4, "the import file's version");
    put_text(c, take(w, (size_t)number(w, 2, "the length of the import file's name"), "the import file's name"));
}

/* The file is spelled before what stands before it in the sheet. */
static void read_import(walk *w, cell *c)
{
    cell which;
    clear(&which);
    if ((number(w, 4, "the import record's flags") & 0x10000) != 0)
        read_guid(w, &which);
    else
        put(&which, "#%ld", (long)msft_i32((int64_t)number(w, 4, "the type's number in the import file")));
    read_file(w, c);
    put(c, ":%s", which.text);
}

static void read_reference(walk *w, cell *c)
{
    enum { NOTHING, INTERNAL, IMPORT, MISPLACED };
    uint64_t code = number(w, 1, "the reference's code in the sheet");
    if (code == NOTHING) {
        put(c, "(nothing)");
        return;
    }
    if (1 < number(w, 1, "the reference's bit 0x01000000"))
        w->is_broken = true;
    switch (code) {
    case INTERNAL: put_internal(c, w->l, (size_t)number(w, 2, "the type's number")); break;
    case IMPORT: read_import(w, c); break;
    case MISPLACED: put_misplaced(c, (int64_t)number(w, 4, "its number")); break;
    default: w->is_broken = true;
    }
}

static void put_dimensions(cell *c, text bounds)
{
    for (size_t i = 0; i < bounds.len; i += BOUND_SIZE)
        put_bounds(c, msft_unpack_bound(bounds.bytes + i));
}

static void read_levels(walk *w, cell *c, int levels);

/* The dimensions stand before the element in the sheet, and are spelled behind it. */
static void read_array(walk *w, cell *c, int levels)
{
    size_t dimensions = (size_t)number(w, 2, "how many dimensions an array has");
    text bounds = take(w, BOUND_SIZE * dimensions, "an array's bounds");
    read_levels(w, c, levels);
    put_dimensions(c, bounds);
}

static void read_described(walk *w, cell *c, uint64_t code, int levels)
{
    switch (code) {
    case 0: put(c, "(nothing)"); break;
    case MSFT_BASE: put_code(c, (uint16_t)number(w, 2, "the VARTYPE code")); break;
    case MSFT_POINTER:
        read_levels(w, c, levels);
        put(c, "*");
        break;
    case MSFT_SAFE_ARRAY:
        put(c, "SAFEARRAY(");
        read_levels(w, c, levels);
        put(c, ")");
        break;
    case MSFT_C_ARRAY: read_array(w, c, levels); break;
    case MSFT_REFERENCE: read_reference(w, c); break;
    default: w->is_broken = true;
    }
}

static void read_levels(walk *w, cell *c, int levels)
{
    if (levels == 0)
        w->is_broken = true;
    if (!w->is_broken)
        read_described(w, c, number(w, 1, "the type's code in the sheet"), levels - 1);
}

static void read_type(walk *w, cell *c)
{
    read_levels(w, c, MOST_LEVELS);
}

/* ---- constants ---- */

/* How many bytes the value of a constant has, by its code; a text and a decimal are no numbers. */
static uint8_t width_of(uint16_t code)
{
    static const uint8_t widths[] = {0, 0, 2, 4, 4, 8, 8, 8, 0, 4, 4, 1, 4, 4, 0, 4, 1, 1, 2, 4, 8, 8, 4, 4, 0, 4};
    if (code < sizeof widths)
        return widths[code];
    return code == 64 ? 8 : 4;
}

/* The place is one in the body. */
static msft_place read_place(walk *w, size_t len, const char *part)
{
    msft_place p = {w->at, 0};
    p.len = take(w, len, part).len;
    return p;
}

static void read_value(walk *w, msft_constant *k)
{
    enum { TEXT = 8, DECIMAL = 14, DECIMAL_SIZE = 16 };
    k->vt = (uint16_t)number(w, 2, "its VARTYPE code");
    if (k->vt == TEXT) {
        k->is_null = !is_there(w, "whether there is a text");
        if (!k->is_null)
            k->place = read_place(w, (size_t)number(w, 4, "its length"), "its bytes");
    } else if (k->vt == DECIMAL) {
        k->place = read_place(w, DECIMAL_SIZE, "its bytes");
    } else {
        k->width = width_of(k->vt);
        k->bits = number(w, k->width, "its number");
    }
}

static void read_constant(walk *w, cell *c)
{
    msft_constant k = {0, 0, 0, 0, {0, 0}};
    if (!is_there(w, "whether there is one")) {
        put(c, "(nothing)");
        return;
    }
    read_value(w, &k);
    if (!w->is_broken)
        put_value(c, w->body.bytes, &k);
}

/* ---- the walk. Each function replies whether it goes on behind what was read ---- */

typedef struct field {
    const char *what;
    reading *read;
} field;

static bool pass(walk *w, const field *f)
{
    clear(&w->value);
    f->read(w, &w->value);
    if (!w->is_broken && w->part != NULL)
        w->field = f->what;
    return !w->is_broken && w->part == NULL;
}

static bool pass_all(walk *w, const field *fields, size_t count)
{
    for (size_t i = 0; i < count; i++)
        if (!pass(w, &fields[i]))
            return false;
    return true;
}

#define PASS_ALL(w, fields) pass_all(w, fields, sizeof(fields) / sizeof *(fields))

/* A list: the field with its length, what an entry is, the field that stands in an entry before its name (NULL where
   entries have no names), and the walk along an entry. */
typedef struct list {
    field count;
    const char *entry;
    const field *before_name;
    bool (*pass_entry)(walk *w);
} list;

/* The name of the entry that begins here; the walk then stands where it stood. */
static void look_for_name(walk *w, const field *before_name)
{
    size_t from = w->at, wanted = w->wanted;
    w->wanted = SIZE_MAX;
    clear(&w->value);
    before_name->read(w, &w->value);
    put(&w->name, " ");
    read_name(w, &w->name);
    w->at = from;
    w->wanted = wanted;
}

static void enter(walk *w, const list *l, uint64_t index)
{
    put(&w->where, "%s %" PRIu64, l->entry, index);
    clear(&w->name);
    if (l->before_name != NULL)
        look_for_name(w, l->before_name);
}

static void leave(walk *w, size_t before)
{
    w->where.len = before;
    w->where.text[before] = '\0';
    clear(&w->name);
}

/* A list inside an entry stands behind the name of that. */
static bool pass_list(walk *w, const list *l)
{
    if (!pass(w, &l->count))
        return false;
    uint64_t count = w->last;
    if (w->where.len != 0)
        put(&w->where, "%s, ", w->name.text);
    size_t before = w->where.len;
    for (uint64_t i = 0; i < count; i++) {
        enter(w, l, i);
        if (!l->pass_entry(w))
            return false;
        leave(w, before);
    }
    return true;
}

/* ---- members ---- */

static const field memid = {"its memid", read_memid};
static const field type_of = {"its type", read_type};
static const field name = {"its name", read_name};
static const field flags = {"its flags", read_word};

static bool pass_parameter(walk *w)
{
    static const field value = {"its default value", read_constant};
    return pass(w, &type_of) && pass(w, &name) && pass(w, &flags) && pass(w, &value);
}

static bool pass_function(walk *w)
{
    static const field result = {"its result", read_type};
    static const field rest[] = {{"its offset in the virtual table", read_offset},
                                 {"its kinds and calling convention", read_word},
                                 {"how many arguments it declares", read_count},
                                 {"how many of them it declares as optional", read_count}};
    static const list parameters = {{"how many parameters are read", read_count}, "parameter", &type_of,
                                    pass_parameter};
    return pass(w, &memid) && pass(w, &name) && pass(w, &result) && pass(w, &flags) && PASS_ALL(w, rest)
        && pass_list(w, &parameters);
}

static bool pass_variable(walk *w)
{
    static const field kind = {"its kind", read_variable_kind};
    static const field constant = {"its value", read_constant}, place = {"its offset", read_small_word};
    return pass(w, &memid) && pass(w, &name) && pass(w, &type_of) && pass(w, &flags) && pass(w, &kind)
        && pass(w, w->last == 2 ? &constant : &place);
}

/* ---- bodies ---- */

static bool pass_interface(walk *w)
{
    static const field type = {"its type", read_reference};
    return pass(w, &type) && pass(w, &flags);
}

static bool pass_base(walk *w, uint64_t kind)
{
    static const field base = {"its base", read_reference}, alias = {"what it stands for", read_type};
    static const list interfaces = {{"how many interfaces it implements", read_long_count}, "interface", NULL,
                                    pass_interface};
    switch (kind) {
    case 3:
    case 4: return pass(w, &base);
    case 5: return pass_list(w, &interfaces);
    case 6: return pass(w, &alias);
    default: return true;
    }
}

static bool pass_type(walk *w)
{
    static const field kind = {"its kind", read_type_kind};
    static const field rest[] = {{"its flags", read_word},
                                 {"its version", read_version},
                                 {"its GUID", read_guid},
                                 {"its name", read_name},
                                 {"how many functions it declares", read_count},
                                 {"how many variables it declares", read_count}};
    static const list functions = {{"how many functions are read", read_count}, "function", &memid,
                                   pass_function};
    static const list variables = {{"how many variables are read", read_count}, "variable", &memid,
                                   pass_variable};
    if (!pass(w, &kind))
        return false;
    uint64_t number_of_kind = w->last;
    return PASS_ALL(w, rest) && pass_base(w, number_of_kind) && pass_list(w, &functions)
        && pass_list(w, &variables);
}

static bool pass_library(walk *w)
{
    static const field fields[] = {{"its lcid", read_small_word},
                                   {"its version", read_version},
                                   {"its GUID", read_guid},
                                   {"its name", read_name}};
    return PASS_ALL(w, fields);
}

/* ---- two walks ---- */

static bool find(walk *w, const body *b, size_t wanted)
{
    memset(w, 0, sizeof *w);
    w->l = b->l;
    w->body = b->bytes;
    w->wanted = wanted;
    bool is_behind = b->is_type ? pass_type(w) : pass_library(w);
    return !is_behind && w->field != NULL;
}

/* The entry, its name, or both names where they are not the same; in the field that is its name they follow. */
static void print_where(const walk *one, const walk *two)
{
    bool is_name = one->field == name.what;
    printf("there: %s%s", one->where.text, is_name ? "" : one->name.text);
    if (!is_name && strcmp(one->name.text, two->name.text) != 0)
        printf(" and%s", two->name.text);
    if (one->where.len != 0)
        printf(", ");
}

void print_parting_field(const body *a, const body *b, size_t at)
{
    walk one, two;
    if (!find(&one, a, at) || !find(&two, b, at) || one.field != two.field)
        return;
    print_where(&one, &two);
    if (strcmp(one.value.text, two.value.text) != 0)
        printf("%s: %s and %s\n", one.field, one.value.text, two.value.text);
    else
        printf("%s: %s in both; %s: %s and %s\n", one.field, one.value.text, one.part, one.part_value.text,
               two.part_value.text);
}
