/* Lines of text, and the numbers in them. */
#ifndef LINES_H
#define LINES_H

#include <stdint.h>
#include <stdio.h>

enum { LINE_BYTES = 256 };

/* Reads a line without its end. One that is too long is read to its end, and what is given of it ends in a question mark; one stands for a
 * byte 0, too. So neither is taken for a line that it is not. Returns 0 where there is none. */
int line_read(FILE *from, char line[LINE_BYTES]);

enum numeral { NO_NUMBER, NUMBER, LARGE_NUMBER };

/* Reads one number of digits alone, and moves on behind it. A large one has more than 32 bits. */
enum numeral number_read(const char **at, uint32_t *number);

#endif
