/* A library in memory, and the readings that the commands share. */
#ifndef LIBRARY_H
#define LIBRARY_H

#include <stdbool.h>
#include <stddef.h>
#include <stdint.h>

#include <msft_typelib.h>

/* The most bytes that a library may have. */
enum { MOST_BYTES = 16777216 };

/* How a command ends. */
enum { DONE = 0, DIFFERENT = 1, REFUSED = 1, TROUBLE = 2 };

typedef struct library {
    const char *path;
    uint8_t *bytes;
    size_t len;
} library;

/* The library's bytes as arguments of a reading. */
#define BYTES(l) (l)->bytes, (l)->len

/* A text inside the library; `bytes` is NULL where there is none. */
typedef struct text {
    const uint8_t *bytes;
    size_t len;
} text;

typedef struct sheet {
    uint8_t *bytes;
    size_t len;
} sheet;

/* Reads a file whole; of an over-long one, one byte more than is allowed, so that it is refused.
   Says what went wrong where it cannot. */
bool load(library *l, const char *path);
void unload(library *l);

/* The figures of the library's sheet. Replies as a sheet call that has all the space it needs, but makes no sheet:
   the sheet's length, or minus a refusal's number; the figures are there also where that is 12, of a sheet that is
   longer than allowed. */
int64_t take_figures(const library *l, msft_figures *f);

/* Says that the library is refused, by number and word, and why; `reply` is minus the number. */
void say_refused(const library *l, int64_t reply);

/* Takes the figures, or says why there is no sheet; replies how the command then ends. */
int need_figures(const library *l, msft_figures *f);

/* Makes the sheet, in just as many bytes as it has, or says why there is none; replies how the command then ends. */
int need_sheet(const library *l, sheet *s);
void free_sheet(sheet *s);

/* The text of a place; none where the reply that goes with it is a refusal. */
text text_at(const library *l, int64_t reply, const uint8_t *out);

text name_at(const library *l, int64_t offset);
bool type_at(const library *l, size_t index, msft_place *type);
text type_name(const library *l, size_t index);
text function_name(const library *l, msft_place type, uint64_t number);
text variable_name(const library *l, msft_place type, uint64_t number);

/* A function, a variable or a parameter with the number that its step gave it, from 0: the words of a
   member, which lie apart from its record, are found by that number. */
typedef struct record {
    msft_place place;
    uint64_t number;
} record;

/* Cursors. The first call sets one up, at its end where there is none; each further call takes a
   record, or says that there is no more and leaves the cursor as it is: its `yielded` is then how many
   there were. */
msft_cursor functions_of(const library *l, msft_place type);
msft_cursor variables_of(const library *l, msft_place type);
msft_cursor parameters_of(const library *l, msft_place function);
bool next_function(const library *l, msft_cursor *c, record *r);
bool next_variable(const library *l, msft_cursor *c, record *r);
bool next_parameter(const library *l, msft_cursor *c, record *r);

#endif
