/* tlb same: whether two libraries have the same description, and where their sheets part. */
#include "commands.h"
#include "fields.h"
#include "spell.h"

#include <stdio.h>

/* A sheet's contents: the count of types, then the length of each body, the library's first. */
enum { WORD = 4 };

typedef struct side {
    library lib;
    sheet sheet;
} side;

/* A part of a sheet; empty where it is not wholly inside. */
static text part(const sheet *s, size_t at, size_t len)
{
    text t = {s->bytes, 0};
    if (at <= s->len && len <= s->len - at) {
        t.bytes = s->bytes + at;
        t.len = len;
    }
    return t;
}

static size_t word_at(const sheet *s, size_t index)
{
    text t = part(s, WORD * index, WORD);
    return t.len == WORD ? (size_t)msft_le(t.bytes, WORD) : 0;
}

static size_t types_in(const sheet *s)
{
    return word_at(s, 0);
}

/* Where the bodies begin. */
static size_t contents_length(const sheet *s)
{
    return WORD * (2 + types_in(s));
}

/* The first place where two texts part, their common length where one begins the other. */
static size_t parting(text a, text b)
{
    size_t i = 0;
    while (i < a.len && i < b.len && a.bytes[i] == b.bytes[i])
        i++;
    return i;
}

static void put_byte(cell *c, text t, size_t at)
{
    if (at < t.len)
        put(c, "0x%02x", t.bytes[at]);
    else
        put(c, "the end");
}

/* What the contents hold at a byte. */
static void put_entry(cell *c, size_t at)
{
    if (at < WORD)
        put(c, "the count of types");
    else if (at < 2 * WORD)
        put(c, "the length of the library's body");
    else
        put(c, "the length of type %zu's body", at / WORD - 2);
}

static void put_body(cell *c, const side *a, const side *b, size_t number)
{
    if (number == 0) {
        put(c, "the library's body");
        return;
    }
    put(c, "the body of type %zu, ", number - 1);
    put_quoted(c, type_name(&a->lib, number - 1));
    put(c, " and ");
    put_quoted(c, type_name(&b->lib, number - 1));
}

static void print_bytes(text a, text b, size_t at)
{
    cell c;
    clear(&c);
    put_byte(&c, a, at);
    put(&c, " and ");
    put_byte(&c, b, at);
    puts(c.text);
}

/* The body of that number, the library's being 0, and where it parts. */
static void print_body(const side *a, const side *b, size_t number, text one, text two)
{
    const body first = {&a->lib, one, number != 0}, second = {&b->lib, two, number != 0};
    size_t at = parting(one, two);
    cell c;
    clear(&c);
    put_body(&c, a, b, number);
    printf("first in %s, at byte %zu of it: ", c.text, at);
    print_bytes(one, two, at);
    print_parting_field(&first, &second, at);
}

/* The first body that is not the same in both. */
static void print_first_body(const side *a, const side *b)
{
    size_t from = contents_length(&a->sheet), other = contents_length(&b->sheet);
    size_t types = types_in(&a->sheet);
    if (types_in(&b->sheet) < types)
        types = types_in(&b->sheet);
    for (size_t number = 0; number <= types; number++) {
        text one = part(&a->sheet, from, word_at(&a->sheet, number + 1));
        text two = part(&b->sheet, other, word_at(&b->sheet, number + 1));
        size_t at = parting(one, two);
        if (at < one.len || at < two.len) {
            print_body(a, b, number, one, two);
            return;
        }
        from += one.len;
        other += two.len;
    }
    puts("every type that both have is the same");
}

static void print_parting(const side *a, const side *b)
{
    text one = part(&a->sheet, 0, a->sheet.len), two = part(&b->sheet, 0, b->sheet.len);
    size_t at = parting(one, two);
    cell c;
    clear(&c);
    if (at < contents_length(&a->sheet))
        put_entry(&c, at);
    else
        put(&c, "a body");
    printf("different descriptions\nsheets part at byte %zu, in %s: ", at, c.text);
    print_bytes(one, two, at);
    print_first_body(a, b);
}

static bool equal(const sheet *a, const sheet *b)
{
    text one = part(a, 0, a->len), two = part(b, 0, b->len);
    return a->len == b->len && parting(one, two) == a->len;
}

static int compare(side *a, side *b)
{
    if (need_sheet(&a->lib, &a->sheet) != DONE || need_sheet(&b->lib, &b->sheet) != DONE)
        return TROUBLE;
    if (equal(&a->sheet, &b->sheet)) {
        puts("same description");
        return DONE;
    }
    print_parting(a, b);
    return DIFFERENT;
}

int same_command(const char *first, const char *second)
{
    side a = {{NULL, NULL, 0}, {NULL, 0}}, b = a;
    int status = TROUBLE;
    if (load(&a.lib, first) && load(&b.lib, second))
        status = compare(&a, &b);
    free_sheet(&a.sheet);
    free_sheet(&b.sheet);
    unload(&a.lib);
    unload(&b.lib);
    return status;
}
