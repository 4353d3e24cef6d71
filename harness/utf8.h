/* Texts that are not UTF-8. */
#ifndef UTF8_H
#define UTF8_H

#include "spell.h"

bool is_utf8(text t);

/* At which byte a text of the library that is not UTF-8 stops being it, counted from 0. */
void put_fault(cell *c, const library *l, text t);

#endif
