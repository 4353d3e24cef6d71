/* tlb check: whether a library is read, with its figures, what it names outside its tables, its references that hit
   no typeinfo and what is not UTF-8, and if not, what is refused and where. */
#include "commands.h"
#include "findings.h"
#include "spell.h"

#include <inttypes.h>
#include <stdio.h>

/* ---- figures ---- */

/* How many there are of a thing, such as `1 type`, `1,024 types` or `more than 16,777,216 types`. */
static void put_count(cell *c, uint32_t n, const char *thing)
{
    if (MSFT_MOST_FIGURE < n) {
        put(c, "more than ");
        n = MSFT_MOST_FIGURE;
    }
    if (1000000 <= n)
        put(c, "%" PRIu32 ",%03" PRIu32 ",%03" PRIu32, n / 1000000, n / 1000 % 1000, n % 1000);
    else if (1000 <= n)
        put(c, "%" PRIu32 ",%03" PRIu32, n / 1000, n % 1000);
    else
        put(c, "%" PRIu32, n);
    put(c, n == 1 ? " %s" : " %ss", thing);
}

/* The five figures, and the count of types, in a line. */
static void print_figures(const library *l, const msft_figures *f)
{
    cell c;
    clear(&c);
    put_count(&c, (uint32_t)msft_typeinfo_count(BYTES(l)), "type");
    put(&c, ", ");
    put_count(&c, f->functions, "function");
    put(&c, ", ");
    put_count(&c, f->parameters, "parameter");
    put(&c, ", ");
    put_count(&c, f->variables, "variable");
    put(&c, ", ");
    put_count(&c, f->references, "reference");
    put(&c, "; sheet of ");
    put_count(&c, f->length, "byte");
    puts(c.text);
}

/* ---- the place of a refusal, in the order in which the sheet comes upon them ---- */

/* In a hostile library members by the hundred million may stand before the one that is refused: so many are looked at.
   (The largest library known has some 37,000.) */
enum { MOST_LOOKED_AT = 500000 };

static bool too_deep(const library *l, int64_t field)
{
    return MOST_LEVELS < levels_of(l, field);
}

/* The first parameter that is too deep, if there is one among so many members. */
static bool deep_parameter(const library *l, msft_place function, uint32_t *left, record *parameter)
{
    msft_cursor at = parameters_of(l, function);
    while (0 < *left && next_parameter(l, &at, parameter)) {
        --*left;
        if (too_deep(l, msft_param_datatype(BYTES(l), MSFT_PLACE(parameter->place))))
            return true;
    }
    return false;
}

static void put_member(cell *c, const char *what, uint64_t number, text name)
{
    put(c, ", %s %" PRIu64 " ", what, number);
    put_quoted(c, name);
}

static bool deep_function(const library *l, msft_place type, uint32_t *left, cell *where)
{
    msft_cursor at = functions_of(l, type);
    record function, parameter;
    while (0 < *left && next_function(l, &at, &function)) {
        --*left;
        bool result = too_deep(l, msft_func_datatype(BYTES(l), MSFT_PLACE(function.place)));
        if (!result && !deep_parameter(l, function.place, left, &parameter))
            continue;
        put_member(where, "function", function.number, function_name(l, type, function.number));
        if (result)
            put(where, ", its result");
        else
            put(where, ", parameter %" PRIu64, parameter.number);
        return true;
    }
    return false;
}

static bool deep_variable(const library *l, msft_place type, uint32_t *left, cell *where)
{
    msft_cursor at = variables_of(l, type);
    record variable;
    while (0 < *left && next_variable(l, &at, &variable)) {
        --*left;
        if (!too_deep(l, msft_var_datatype(BYTES(l), MSFT_PLACE(variable.place))))
            continue;
        put_member(where, "variable", variable.number, variable_name(l, type, variable.number));
        return true;
    }
    return false;
}

static bool deep_alias(const library *l, msft_place type, cell *where)
{
    if (msft_typeinfo_typekind(BYTES(l), MSFT_PLACE(type)) != 6
        || !too_deep(l, msft_typeinfo_datatype1(BYTES(l), MSFT_PLACE(type))))
        return false;
    put(where, ", what it stands for");
    return true;
}

static bool round_chain(const library *l, msft_place type, cell *where)
{
    uint8_t out[MSFT_CHAIN_CURSOR_BYTES];
    if (msft_typeinfo_typekind(BYTES(l), MSFT_PLACE(type)) != 5
        || msft_impl_types(BYTES(l), MSFT_PLACE(type), out, sizeof out) < 0)
        return false;
    msft_chain_cursor at = msft_unpack_chain_cursor(out);
    if (msft_walk(BYTES(l), MSFT_CHAIN_CURSOR(at), out, sizeof out) != -MSFT_CIRCLE)
        return false;
    put(where, ", the interfaces that it implements");
    return true;
}

/* Whether the refusal is of this type; `where` then says at what of it. */
static bool refused_in(const library *l, size_t index, int64_t reply, uint32_t *left, cell *where)
{
    uint8_t out[16];
    int64_t found = msft_typeinfo(BYTES(l), index, out, sizeof out);
    if (found < 0)
        return found == reply;
    msft_place type = msft_unpack_place(out);
    if (reply == -MSFT_CIRCLE)
        return round_chain(l, type, where);
    return reply == -MSFT_TOO_DEEP
        && (deep_alias(l, type, where) || deep_function(l, type, left, where)
            || deep_variable(l, type, left, where));
}

static void say_where(const library *l, int64_t reply)
{
    int64_t types = msft_typeinfo_count(BYTES(l));
    uint32_t left = MOST_LOOKED_AT;
    cell where;
    if (reply == -MSFT_TOO_MANY_TYPES || reply == -MSFT_NO_SPACE)
        return;
    for (int64_t i = 0; i < types; i++) {
        clear(&where);
        put(&where, "type %ld ", (long)i);
        put_quoted(&where, type_name(l, (size_t)i));
        if (refused_in(l, (size_t)i, reply, &left, &where)) {
            fprintf(stderr, "tlb: %s: at %s\n", l->path, where.text);
            return;
        }
        if (left == 0) {
            clear(&where);
            put_count(&where, MOST_LOOKED_AT, "member");
            fprintf(stderr, "tlb: %s: behind its first %s\n", l->path, where.text);
            return;
        }
    }
}

int check_command(const char *path)
{
    library l;
    msft_figures f;
    if (!load(&l, path))
        return TROUBLE;
    int64_t reply = take_figures(&l, &f);
    if (0 <= reply) {
        printf("%s: read: ", l.path);
        print_figures(&l, &f);
        print_findings(&l);
    } else {
        say_refused(&l, reply);
        say_where(&l, reply);
    }
    /* A library whose sheet is too long is refused, but has figures. */
    if (reply == -MSFT_NO_SPACE) {
        printf("%s: counted: ", l.path);
        print_figures(&l, &f);
    }
    unload(&l);
    return reply < 0 ? REFUSED : DONE;
}
