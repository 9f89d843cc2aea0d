/* What was found at the places of a drive, in words. */
#ifndef DAMAGE_H
#define DAMAGE_H

#include "image.h"
#include <stdio.h>

/* Prints a line for each copy that is damaged, behind or ahead: its place, which of the two it is, and what was done about it. */
void damage_print(FILE *to, const struct image *im);

/* Ends the program, with status 2 and those lines on standard error, where a place has no whole copy. */
void damage_ends(const struct image *im);

#endif
