/* The slides of an older instrument, as two columns of text: a slide a line, its key and its value.
 *
 * Numbers are decimal. Between the two stand blanks, tabs, or one comma or semicolon with or without them. Empty lines, and lines that begin
 * with #, are passed over. A line ends by a newline, with or without a carriage return before it; the last one may have neither. */
#ifndef COLUMNS_H
#define COLUMNS_H

#include "donzhikar.h"
#include <stddef.h>
#include <stdint.h>
#include <stdio.h>

/* One more than fit a register: of so many the register itself says that they do not fit. */
enum { COLUMNS_ROOM = DONZHIKAR_MOST_LOADED + 1 };

struct slide_columns {
    const char *name; /* of the text */
    size_t slides;
    uint32_t keys[COLUMNS_ROOM], values[COLUMNS_ROOM];
    size_t lines[COLUMNS_ROOM]; /* where each slide stands, counted from 1 */
};

/* Reads a text of this name, as far as there is room. Returns 0 where it cannot be read or a line is no slide, and says so on standard
 * error. */
int columns_read(struct slide_columns *to, FILE *from, const char *name);

#endif
