#include "library.h"

#include <errno.h>
#include <stdio.h>
#include <stdlib.h>
#include <string.h>

/* ---- files ---- */

/* Twice the room, up to one byte more than a library may have. */
static bool grow(library *l, size_t *room)
{
    size_t more = *room == 0 ? 65536 : 2 * *room;
    if (MOST_BYTES < more)
        more = (size_t)MOST_BYTES + 1;
    uint8_t *bytes = realloc(l->bytes, more);
    if (bytes == NULL)
        return false;
    l->bytes = bytes;
    *room = more;
    return true;
}

static bool read_all(library *l, FILE *file)
{
    size_t room = 0;
    for (;;) {
        if (l->len == room && !grow(l, &room))
            return false;
        size_t n = fread(l->bytes + l->len, 1, room - l->len, file);
        l->len += n;
        if (n == 0 || MOST_BYTES < l->len)
            return !ferror(file);
    }
}

/* Gives back the room behind the last byte, so that a memory checker sees where the library ends. */
static void fit(library *l)
{
    uint8_t *bytes = realloc(l->bytes, l->len == 0 ? 1 : l->len);
    if (bytes != NULL)
        l->bytes = bytes;
}

bool load(library *l, const char *path)
{
    l->path = path;
    l->bytes = NULL;
    l->len = 0;
    errno = 0;
    FILE *file = fopen(path, "rb");
    bool whole = file != NULL && read_all(l, file);
    if (!whole) {
        fprintf(stderr, "tlb: %s: cannot be read: %s\n", path, strerror(errno));
        unload(l);
    } else {
        fit(l);
    }
    if (file != NULL)
        fclose(file);
    return whole;
}

void unload(library *l)
{
    free(l->bytes);
    l->bytes = NULL;
    l->len = 0;
}

/* ---- sheets and refusals ---- */

int64_t take_figures(const library *l, msft_figures *f)
{
    uint8_t out[MSFT_FIGURES_BYTES];
    int64_t reply = msft_sheet_figures(BYTES(l), out, sizeof out);
    if (reply < 0)
        return reply;
    *f = msft_unpack_figures(out);
    return MSFT_MOST_FIGURE < f->length ? -MSFT_NO_SPACE : (int64_t)f->length;
}

static const char *reason(int64_t reply)
{
    switch (-reply) {
    case MSFT_OVER_LONG: return "it has more than 16,777,216 bytes";
    case MSFT_SHORT_HEADER: return "it has fewer than 84 bytes";
    case MSFT_WRONG_MAGIC: return "its first four bytes are not \"MSFT\"";
    case MSFT_BAD_COUNT: return "its count of types is negative";
    case MSFT_SHORT_DIRECTORY: return "it ends before its last segment entry does";
    case MSFT_NO_SUCH_TYPEINFO: return "the offset of a type is negative";
    case MSFT_NO_TYPEINFO_TABLE: return "it counts types but has no table of them";
    case MSFT_SHORT_TYPEINFO: return "fewer than 100 bytes are left for a type in its table or in the file";
    case MSFT_NOTHING_THERE: return "something that must be there is not";
    case MSFT_CIRCLE: return "a chain of implemented interfaces comes round";
    case MSFT_TOO_DEEP: return "a type nests more than 32 descriptions";
    case MSFT_NO_SPACE: return "its sheet has more than 16,777,216 bytes";
    case MSFT_TOO_MANY_TYPES: return "it has more than 65,535 types";
    default: return "for no known reason";
    }
}

void say_refused(const library *l, int64_t reply)
{
    fprintf(stderr, "tlb: %s: refused %d (%s): %s\n", l->path, (int)-reply,
            msft_refusal_word(reply), reason(reply));
}

int need_figures(const library *l, msft_figures *f)
{
    int64_t reply = take_figures(l, f);
    if (0 <= reply)
        return DONE;
    say_refused(l, reply);
    return REFUSED;
}

int need_sheet(const library *l, sheet *s)
{
    msft_figures f;
    s->bytes = NULL;
    s->len = 0;
    int status = need_figures(l, &f);
    if (status != DONE)
        return status;
    s->bytes = malloc(f.length);
    if (s->bytes == NULL) {
        fputs("tlb: no memory for a sheet\n", stderr);
        return TROUBLE;
    }
    int64_t reply = msft_sheet(BYTES(l), s->bytes, f.length);
    if (reply < 0) {
        say_refused(l, reply);
        free_sheet(s);
        return REFUSED;
    }
    s->len = (size_t)reply;
    return DONE;
}

void free_sheet(sheet *s)
{
    free(s->bytes);
    s->bytes = NULL;
    s->len = 0;
}

/* ---- texts ---- */

text text_at(const library *l, int64_t reply, const uint8_t *out)
{
    text t = {NULL, 0};
    if (reply < 0)
        return t;
    msft_place p = msft_unpack_place(out);
    t.bytes = l->bytes + p.at;
    t.len = p.len;
    return t;
}

text name_at(const library *l, int64_t offset)
{
    uint8_t out[16];
    int64_t reply = offset;
    if (0 <= offset)
        reply = msft_name_bytes(BYTES(l), msft_i32(offset), out, sizeof out);
    return text_at(l, reply, out);
}

bool type_at(const library *l, size_t index, msft_place *type)
{
    uint8_t out[16];
    if (msft_typeinfo(BYTES(l), index, out, sizeof out) < 0)
        return false;
    *type = msft_unpack_place(out);
    return true;
}

text type_name(const library *l, size_t index)
{
    msft_place type;
    if (!type_at(l, index, &type))
        return text_at(l, -MSFT_NOTHING_THERE, NULL);
    return name_at(l, msft_typeinfo_name_offset(BYTES(l), MSFT_PLACE(type)));
}

text function_name(const library *l, msft_place type, uint64_t number)
{
    return name_at(l, msft_func_name_offset(BYTES(l), MSFT_PLACE(type), number));
}

text variable_name(const library *l, msft_place type, uint64_t number)
{
    return name_at(l, msft_var_name_offset(BYTES(l), MSFT_PLACE(type), number));
}

/* ---- cursors ---- */

static msft_cursor cursor_from(int64_t reply, const uint8_t *out)
{
    msft_cursor none = {0, 0, 0, 0};
    return reply < 0 ? none : msft_unpack_cursor(out);
}

msft_cursor functions_of(const library *l, msft_place type)
{
    uint8_t out[MSFT_CURSOR_BYTES];
    return cursor_from(msft_funcs(BYTES(l), MSFT_PLACE(type), out, sizeof out), out);
}

msft_cursor variables_of(const library *l, msft_place type)
{
    uint8_t out[MSFT_CURSOR_BYTES];
    return cursor_from(msft_vars(BYTES(l), MSFT_PLACE(type), out, sizeof out), out);
}

msft_cursor parameters_of(const library *l, msft_place function)
{
    uint8_t out[MSFT_CURSOR_BYTES];
    return cursor_from(msft_params(BYTES(l), MSFT_PLACE(function), out, sizeof out), out);
}

static bool stepped(int64_t reply, const uint8_t *out, msft_cursor *c, record *r)
{
    if (reply < 0)
        return false;
    msft_yield y = msft_unpack_yield(out);
    r->place = y.record;
    r->number = y.number;
    *c = y.next;
    return true;
}

bool next_function(const library *l, msft_cursor *c, record *r)
{
    uint8_t out[MSFT_YIELD_BYTES];
    return stepped(msft_func_step(BYTES(l), MSFT_CURSOR(*c), out, sizeof out), out, c, r);
}

bool next_variable(const library *l, msft_cursor *c, record *r)
{
    uint8_t out[MSFT_YIELD_BYTES];
    return stepped(msft_var_step(BYTES(l), MSFT_CURSOR(*c), out, sizeof out), out, c, r);
}

bool next_parameter(const library *l, msft_cursor *c, record *r)
{
    uint8_t out[MSFT_YIELD_BYTES];
    return stepped(msft_param_step(BYTES(l), MSFT_CURSOR(*c), out, sizeof out), out, c, r);
}
