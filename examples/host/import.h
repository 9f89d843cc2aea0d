/* An import: a new register made of the slides of an older instrument. */
#ifndef IMPORT_H
#define IMPORT_H

#include <stddef.h>

/* Reads the columns in the text, and makes a drive of this path with a register of so many pages and slots that holds them. Prints what load
 * answers and, where it is done, how many slides there are; says on standard error what is wrong, and on which line, and of a long text that
 * it is read. Returns the program's status. */
int import_slides(const char *text, const char *path, size_t pages, size_t slots);

#endif
