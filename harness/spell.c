#include "spell.h"

#include <math.h>
#include <stdarg.h>
#include <stdio.h>
#include <stdlib.h>
#include <string.h>

/* ---- cells ---- */

void clear(cell *c)
{
    c->len = 0;
    c->text[0] = '\0';
}

static void cut(cell *c)
{
    c->len = sizeof c->text - 1;
    memcpy(c->text + c->len - 3, "...", 4);
}

void put(cell *c, const char *format, ...)
{
    va_list more;
    size_t room = sizeof c->text - c->len;
    va_start(more, format);
    int n = vsnprintf(c->text + c->len, room, format, more);
    va_end(more);
    if (n < 0 || room <= (size_t)n)
        cut(c);
    else
        c->len += (size_t)n;
}

static bool full(const cell *c)
{
    return c->len == sizeof c->text - 1;
}

void put_text(cell *c, text t)
{
    for (size_t i = 0; i < t.len && !full(c); i++) {
        uint8_t b = t.bytes[i];
        if (b < 0x20 || 0x7e < b)
            put(c, "\\x%02x", b);
        else
            put(c, b == '\\' || b == '"' ? "\\%c" : "%c", b);
    }
}

void put_quoted(cell *c, text t)
{
    put(c, "\"");
    put_text(c, t);
    put(c, "\"");
}

void put_guid_text(cell *c, text guid)
{
    uint8_t words[38];
    int64_t n = msft_guid_text(guid.bytes, guid.len, 0, guid.len, words, sizeof words);
    if (0 < n)
        put(c, "%.*s", (int)n, (const char *)words);
}

void put_guid(cell *c, const library *l, int64_t offset)
{
    uint8_t out[16];
    if (0 <= offset && 0 <= msft_guid(BYTES(l), msft_i32(offset), out, sizeof out))
        put_guid_text(c, text_at(l, 0, out));
}

/* ---- words for codes ---- */

void put_kind(cell *c, int64_t kind)
{
    uint8_t words[16];
    int64_t n = msft_kind_word((uint8_t)kind, words, sizeof words);
    if (0 < n)
        put(c, "%.*s", (int)n, (const char *)words);
}

const char *variable_word(int64_t kind)
{
    switch (kind) {
    case 0: return "field";
    case 1: return "static";
    case 2: return "const";
    case 3: return "property";
    default: return "unknown";
    }
}

void put_version(cell *c, int64_t version)
{
    put(c, "%ld.%ld", (long)(version & 0xffff), (long)(version >> 16));
}

/* ---- references ---- */

static void put_file(cell *c, const library *l, const msft_reference *r)
{
    uint8_t out[16];
    int64_t reply = -MSFT_NOTHING_THERE;
    if (r->has_file)
        reply = msft_impfile_filename_bytes(BYTES(l), MSFT_PLACE(r->file), out, sizeof out);
    if (reply < 0)
        put(c, "(no file)");
    else
        put_text(c, text_at(l, reply, out));
}

/* The import file, and the GUID of the type or its index in that file. */
static void put_import(cell *c, const library *l, const msft_reference *r)
{
    int64_t flags = msft_impinfo_flags(BYTES(l), MSFT_PLACE(r->info));
    int64_t which = msft_impinfo_guid_offset(BYTES(l), MSFT_PLACE(r->info));
    put_file(c, l, r);
    put(c, ":");
    size_t before = c->len;
    if (0 <= flags && (flags & 0x10000) != 0)
        put_guid(c, l, which);
    else if (0 <= which)
        put(c, "#%ld", (long)msft_i32(which));
    if (c->len == before)
        put(c, "(nothing)");
}

void put_internal(cell *c, const library *l, size_t index)
{
    text name = type_name(l, index);
    if (name.bytes == NULL)
        put(c, "[%zu]", index);
    else
        put_text(c, name);
}

void put_misplaced(cell *c, int64_t offset)
{
    put(c, "(no typeinfo at %ld)", (long)offset);
}

static void put_resolved(cell *c, const library *l, int32_t hreftype)
{
    uint8_t out[40];
    if (msft_resolve_hreftype_full(BYTES(l), hreftype, out, sizeof out) < 0) {
        put(c, "(nothing)");
        return;
    }
    msft_reference r = msft_unpack_reference(out);
    if (r.code == MSFT_EXTERNAL)
        put_import(c, l, &r);
    else
        put_internal(c, l, r.index);
}

/* Whether there is a typeinfo at the offset is asked first: what resolves a reference rounds it down to one. */
void put_reference(cell *c, const library *l, int64_t hreftype)
{
    if (hreftype < 0) {
        put(c, "(nothing)");
        return;
    }
    int64_t misplaced = msft_misplaced_offset(msft_i32(hreftype));
    if (0 <= misplaced)
        put_misplaced(c, misplaced);
    else
        put_resolved(c, l, msft_i32(hreftype));
}

/* ---- types ---- */

void put_code(cell *c, uint16_t code)
{
    uint8_t words[32];
    int64_t n = msft_vt_name(code, words, sizeof words);
    if (0 < n)
        put(c, "%.*s", (int)n, (const char *)words);
    if (n == 7 && memcmp(words, "Unknown", 7) == 0)
        put(c, "(%u)", (unsigned)code);
}

void put_bounds(cell *c, msft_bound b)
{
    if (b.lower == 0)
        put(c, "[%lu]", (unsigned long)b.elements);
    else
        put(c, "[%ld..%lld]", (long)b.lower, (long long)b.lower + b.elements - 1);
}

static void put_bound(cell *c, const library *l, msft_place array, size_t index)
{
    uint8_t out[8];
    if (msft_arraydesc_bound(BYTES(l), MSFT_PLACE(array), index, out, sizeof out) < 0)
        return;
    put_bounds(c, msft_unpack_bound(out));
}

/* Whether the last dimension of an array is there. */
static bool whole_array(const library *l, msft_place array)
{
    uint8_t out[8];
    int64_t n = msft_arraydesc_num_dims(BYTES(l), MSFT_PLACE(array));
    if (n <= 0)
        return n == 0;
    return 0 <= msft_arraydesc_bound(BYTES(l), MSFT_PLACE(array), (size_t)n - 1, out, sizeof out);
}

static void put_tree(cell *c, const library *l, int64_t field, int levels);

/* The element type and the bounds; nothing where one of the bounds is not there. */
static void put_array(cell *c, const library *l, msft_place array, int levels)
{
    int64_t dimensions = msft_arraydesc_num_dims(BYTES(l), MSFT_PLACE(array));
    if (!whole_array(l, array)) {
        put(c, "(nothing)");
        return;
    }
    put_tree(c, l, msft_arraydesc_element_type(BYTES(l), MSFT_PLACE(array)), levels);
    for (int64_t i = 0; i < dimensions && !full(c); i++)
        put_bound(c, l, array, (size_t)i);
}

/* The pattern of a number that is an i32, as a reading replies it. */
static int64_t pattern(int32_t number)
{
    return (int64_t)(uint32_t)number;
}

static void put_described(cell *c, const library *l, const msft_description *d, int levels)
{
    switch (d->code) {
    case MSFT_BASE:
        put_code(c, (uint16_t)d->number);
        break;
    case MSFT_POINTER:
        put_tree(c, l, pattern(d->number), levels);
        put(c, "*");
        break;
    case MSFT_SAFE_ARRAY:
        put(c, "SAFEARRAY(");
        put_tree(c, l, pattern(d->number), levels);
        put(c, ")");
        break;
    case MSFT_C_ARRAY:
        put_array(c, l, d->array, levels);
        break;
    default:
        put_reference(c, l, pattern(d->number));
    }
}

bool describe(const library *l, int64_t field, msft_description *d)
{
    uint8_t out[24];
    if (field < 0 || msft_type_description(BYTES(l), msft_i32(field), out, sizeof out) < 0)
        return false;
    *d = msft_unpack_description(out);
    return true;
}

static void put_tree(cell *c, const library *l, int64_t field, int levels)
{
    msft_description d;
    if (levels == 0)
        put(c, "(too deep)");
    else if (!describe(l, field, &d))
        put(c, "(nothing)");
    else
        put_described(c, l, &d, levels - 1);
}

void put_type(cell *c, const library *l, int64_t field)
{
    put_tree(c, l, field, MOST_LEVELS);
}

int64_t described(const library *l, const msft_description *d)
{
    switch (d->code) {
    case MSFT_POINTER:
    case MSFT_SAFE_ARRAY:
        return pattern(d->number);
    case MSFT_C_ARRAY:
        if (whole_array(l, d->array))
            return msft_arraydesc_element_type(BYTES(l), MSFT_PLACE(d->array));
        return -1;
    default:
        return -1;
    }
}

int levels_of(const library *l, int64_t field)
{
    msft_description d;
    int levels = 1;
    while (levels <= MOST_LEVELS && describe(l, field, &d)) {
        field = described(l, &d);
        if (field < 0)
            break;
        levels++;
    }
    return levels;
}

/* ---- constants ---- */

static int64_t as_signed(const msft_constant *k)
{
    if (k->width == 0 || 8 < k->width)
        return 0;
    uint64_t top = UINT64_C(1) << (8 * k->width - 1);
    return (int64_t)((k->bits ^ top) - top);
}

/* The fewest digits that give the number back. */
static void put_float(cell *c, double x, uint64_t bits, bool is_single)
{
    char digits[40];
    if (isnan(x)) {
        put(c, "nan(0x%llx)", (unsigned long long)bits);
        return;
    }
    for (int n = 1; n <= 17; n++) {
        snprintf(digits, sizeof digits, "%.*g", n, x);
        if (is_single ? strtof(digits, NULL) == (float)x : strtod(digits, NULL) == x)
            break;
    }
    put(c, "%s", digits);
}

/* A currency counts ten-thousandths. */
static void put_currency(cell *c, uint64_t bits)
{
    bool below = bits >> 63 != 0;
    uint64_t size = below ? 0 - bits : bits;
    put(c, "%s%llu.%04u", below ? "-" : "", (unsigned long long)(size / 10000),
        (unsigned)(size % 10000));
}

static void put_decimal(cell *c, const uint8_t *bytes, msft_place p)
{
    put(c, "decimal(");
    for (size_t i = 0; i < p.len && i < 16; i++)
        put(c, "%02x", bytes[p.at + i]);
    put(c, ")");
}

static void put_string(cell *c, const uint8_t *bytes, const msft_constant *k)
{
    text t = {bytes + k->place.at, k->place.len};
    if (k->is_null)
        put(c, "(null string)");
    else
        put_quoted(c, t);
}

static void put_bits(cell *c, const msft_constant *k)
{
    if (k->vt == 10 || k->vt == 25)
        put(c, "0x%08llx", (unsigned long long)k->bits);
    else if (k->vt == 64)
        put(c, "0x%016llx", (unsigned long long)k->bits);
    else
        put(c, "raw(%u, 0x%08llx)", (unsigned)k->vt, (unsigned long long)k->bits);
}

void put_value(cell *c, const uint8_t *bytes, const msft_constant *k)
{
    switch (k->vt) {
    case 0: put(c, "(empty)"); break;
    case 1: put(c, "(null)"); break;
    case 24: put(c, "(void)"); break;
    case 2: case 3: case 16: case 20: case 22: put(c, "%lld", (long long)as_signed(k)); break;
    case 17: case 18: case 19: case 21: case 23:
        put(c, "%llu", (unsigned long long)k->bits);
        break;
    case 4: put_float(c, (double)msft_f32(k->bits), k->bits, true); break;
    case 5: put_float(c, msft_f64(k->bits), k->bits, false); break;
    case 7:
        put(c, "date(");
        put_float(c, msft_f64(k->bits), k->bits, false);
        put(c, ")");
        break;
    case 6: put_currency(c, k->bits); break;
    case 8: put_string(c, bytes, k); break;
    case 11: put(c, k->bits != 0 ? "true" : "false"); break;
    case 14: put_decimal(c, bytes, k->place); break;
    default: put_bits(c, k);
    }
}

void put_constant(cell *c, const library *l, int64_t word)
{
    uint8_t out[24];
    int64_t reply = word;
    if (0 <= word)
        reply = msft_const_value(BYTES(l), msft_i32(word), out, sizeof out);
    if (reply < 0) {
        put(c, "(nothing)");
        return;
    }
    msft_constant k = msft_unpack_constant(out, reply);
    put_value(c, l->bytes, &k);
}
