/* Reading the columns, line by line. */
#include "columns.h"
#include "lines.h"
#include <errno.h>
#include <string.h>

static const char *const blanks = " \t";

static void pass_blanks(const char **at)
{
    *at += strspn(*at, blanks);
}

/* What stands between the two numbers. Returns 0 where nothing does. */
static int pass_gap(const char **at)
{
    const char *start = *at;
    pass_blanks(at);
    if (**at == ',' || **at == ';')
        ++*at;
    pass_blanks(at);
    return *at > start;
}

/* Reads the slide of a line. Returns what is wrong with it, or NULL. */
static const char *slide_read(const char *at, uint32_t *key, uint32_t *value)
{
    enum numeral first = number_read(&at, key);
    int has_gap = pass_gap(&at);
    enum numeral second = number_read(&at, value);
    pass_blanks(&at);
    if (first == NO_NUMBER || !has_gap || second == NO_NUMBER || *at != '\0')
        return "not two numbers";
    return first == LARGE_NUMBER || second == LARGE_NUMBER ? "a number is above 4294967295" : NULL;
}

/* Where a line's slide begins, or NULL where it is to have none. Its carriage return is taken off. */
static const char *slide_in(char *line)
{
    const char *at = line;
    size_t length = strlen(line);
    if (length > 0 && line[length - 1] == '\r')
        line[length - 1] = '\0';
    pass_blanks(&at);
    return *at == '\0' || *at == '#' ? NULL : at;
}

/* One more slide, of the line of this number. Returns 0 where it is none. */
static int take_slide(struct slide_columns *to, const char *at, size_t number)
{
    const char *wrong = slide_read(at, &to->keys[to->slides], &to->values[to->slides]);
    if (wrong != NULL) {
        fprintf(stderr, "%s:%zu: %s\n", to->name, number, wrong);
        return 0;
    }
    to->lines[to->slides++] = number;
    return 1;
}

int columns_read(struct slide_columns *to, FILE *from, const char *name)
{
    char line[LINE_BYTES];
    to->name = name;
    to->slides = 0;
    for (size_t number = 1; to->slides < COLUMNS_ROOM && line_read(from, line); number++) {
        const char *at = slide_in(line);
        if (at != NULL && !take_slide(to, at, number))
            return 0;
    }
    if (!ferror(from))
        return 1;
    fprintf(stderr, "%s: %s\n", name, strerror(errno));
    return 0;
}
