/* What there is to tell of a library that is read. */
#ifndef FINDINGS_H
#define FINDINGS_H

#include "library.h"

/* Prints how many readings of the library's sheet lead out of their tables, and a line for each; then the same of
   its references that hit no typeinfo, and of its texts that are not UTF-8. Nothing where there are none. The library must have a sheet: its chains then end,
   and its types nest no deeper than is allowed. */
void print_findings(const library *l);

#endif
