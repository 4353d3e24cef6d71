/* Types, references and constants in words, one cell at a time. */
#ifndef SPELL_H
#define SPELL_H

#include "library.h"

/* A tree nests at most 32 descriptions. */
enum { MOST_LEVELS = 32 };

/* A cell of the listing. What does not fit is cut, and the cell then ends in "...". */
typedef struct cell {
    size_t len;
    char text[4096];
} cell;

void clear(cell *c);
void put(cell *c, const char *format, ...);

/* A text of the library between quotes or without, with every byte that is no printable ASCII as \xNN. */
void put_text(cell *c, text t);
void put_quoted(cell *c, text t);

/* A GUID by its offset in the library's table, or by its sixteen bytes. */
void put_guid(cell *c, const library *l, int64_t offset);
void put_guid_text(cell *c, text guid);

/* Words for a type's kind and a variable's, and a version, the major one in the low half. */
void put_kind(cell *c, int64_t kind);
const char *variable_word(int64_t kind);
void put_version(cell *c, int64_t version);

void put_type(cell *c, const library *l, int64_t field);
void put_reference(cell *c, const library *l, int64_t hreftype);

/* What these are made of: the name of a VARTYPE code, and the code itself where it has none; a dimension of an
   array; a type of this library; a reference to where no typeinfo is. */
void put_code(cell *c, uint16_t code);
void put_bounds(cell *c, msft_bound b);
void put_internal(cell *c, const library *l, size_t index);
void put_misplaced(cell *c, int64_t offset);

/* The constant that a word of a record gives, and one that was read, its place being one in `bytes`. */
void put_constant(cell *c, const library *l, int64_t word);
void put_value(cell *c, const uint8_t *bytes, const msft_constant *k);

/* One level of a type field, if there is one; the field is a reply. */
bool describe(const library *l, int64_t field, msft_description *d);

/* The type field inside a description, or minus 1. */
int64_t described(const library *l, const msft_description *d);

/* How many descriptions a type field nests, counted up to one more than allowed. */
int levels_of(const library *l, int64_t field);

#endif
