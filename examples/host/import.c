/* From the text to the register, and what is said of a refusal. */
#define _POSIX_C_SOURCE 200809L /* fileno */
#include "import.h"
#include "columns.h"
#include "host.h"
#include <errno.h>
#include <string.h>

/* From so many slides on the host says that it is at work. */
enum { LONG_IMPORT = 1000 };

/* The first slide for which these columns are refused. */
static size_t slide_at_fault(const struct slide_columns *of, uint32_t reason, size_t fitting)
{
    size_t slide = 0;
    if (reason == DONZHIKAR_ERROR_PAGES_SHORT)
        return fitting;
    if (reason == DONZHIKAR_ERROR_UNREAD_LABEL)
        while (of->keys[slide] != 0)
            slide++;
    if (reason == DONZHIKAR_ERROR_KEYS_NOT_RISING)
        for (slide = 1; of->keys[slide] > of->keys[slide - 1];)
            slide++;
    return slide;
}

/* The register's own words, and after them the numbers that they are about. */
static void say_why(const struct slide_columns *of, const struct host *h, uint32_t reason)
{
    if (reason == DONZHIKAR_ERROR_LENGTHS) {
        fprintf(stderr, "a register has %d to %d pages and %d to %d slots\n", DONZHIKAR_FEWEST_PAGES, DONZHIKAR_MOST_PAGES,
            DONZHIKAR_FEWEST_SLOTS, DONZHIKAR_MOST_SLOTS);
        return;
    }
    size_t slide = slide_at_fault(of, reason, h->fitting);
    fprintf(stderr, "%s:%zu: %s", of->name, of->lines[slide], donzhikar_text(reason));
    if (reason == DONZHIKAR_ERROR_KEYS_NOT_RISING)
        fprintf(stderr, ": %u after %u", (unsigned)of->keys[slide], (unsigned)of->keys[slide - 1]);
    if (reason == DONZHIKAR_ERROR_PAGES_SHORT)
        fprintf(stderr, ": at most %zu slides fit %zu pages", h->fitting, h->image.pages);
    if (reason == DONZHIKAR_ERROR_PAGES_SHORT && h->image.pages < DONZHIKAR_MOST_PAGES)
        fprintf(stderr, ", and %d fit %d", DONZHIKAR_MOST_LOADED, DONZHIKAR_MOST_PAGES);
    fprintf(stderr, "\n");
}

/* Opens the text. A start on this path writes to a file of its own, which must not be the text. */
static FILE *opened(const char *text, const char *path)
{
    FILE *from = fopen(text, "r");
    if (from == NULL) {
        fprintf(stderr, "%s: %s\n", text, strerror(errno));
        return NULL;
    }
    if (!drive_writes_over(path, fileno(from)))
        return from;
    fprintf(stderr, "%s: making %s would write over it: give one of them another name\n", text, path);
    fclose(from);
    return NULL;
}

static int read_text(struct slide_columns *to, const char *text, const char *path)
{
    FILE *from = opened(text, path);
    if (from == NULL)
        return 0;
    int is_read = columns_read(to, from, text);
    fclose(from);
    return is_read;
}

int import_slides(const char *text, const char *path, size_t pages, size_t slots)
{
    static struct slide_columns columns;
    static struct host host;
    if (!read_text(&columns, text, path))
        return 1;
    if (columns.slides >= LONG_IMPORT)
        fprintf(stderr, "%s: %zu slides are read; %s is being made\n", text, columns.slides, path);
    uint32_t reason = host_import(&host, path, pages, slots, &columns);
    if (reason != DONZHIKAR_DONE) {
        say_why(&columns, &host, reason);
        printf("import: %u\n", (unsigned)reason);
        return 1;
    }
    printf("import: %u %zu\n", (unsigned)reason, columns.slides);
    host_stop(&host);
    return 0;
}
