/* The fields of a sheet's bodies. */
#ifndef FIELDS_H
#define FIELDS_H

#include "library.h"

/* A body of a library's sheet: the library's own, or a type's. */
typedef struct body {
    const library *l;
    text bytes;
    bool is_type;
} body;

/* Prints in which field two bodies part that are the same up to the byte `at`, and what each has there. Prints
   nothing where one of them does not follow the sheet's layout so far. */
void print_parting_field(const body *a, const body *b, size_t at);

#endif
