/* A register on a drive, worked by commands on standard input, one a line:
 *
 *   open CASE  file CASE KEY VALUE  remove CASE KEY  find CASE KEY  next CASE KEY  previous CASE KEY
 *   tray CASE  take-back CASE  commit CASE  cancel CASE  write-out PAGE  list  list-back  check
 *
 * Numbers are decimal and chosen by the user, those of cases too. Each command is answered by itself, a colon, 0 and any answer, or the
 * refusal's number. `list` prints a line `slide KEY VALUE` for each slide first, by rising key, and `list-back` by falling key. `check` first
 * prints a line for each copy on the drive that the start found damaged or behind, and what restart answered, in words. A line that is no
 * command, or opens an open case, prints `?`.
 * An answer is printed when everything that it tells is on the drive, so it may be relied on.
 *
 * A case opens with its tray 1. `tray` begins its next one, and answers the tray's number. `take-back` takes the last tray back, which is all
 * that the case filed and removed since that tray began, and answers its number. The case stays open with the trays before, and this one is
 * filed again, or left out.
 *
 * Usage: host FILE PAGES SLOTS. A new FILE gets so many pages and slots, and one that has fewer grows. A start writes all of it anew, as
 * FILE.new, and needs the room for that. Each copy that it so repaired is named on standard error.
 *
 * Or: host --read-only FILE. Nothing on the drive is changed, no permission to write is needed, and the restart is made in memory. `list`,
 * `list-back` and `check` are the only commands, and may follow where the restart is refused too. PAGES and SLOTS may be given, to lend more
 * after 17 or 18.
 *
 * Or: host --import TEXT FILE PAGES SLOTS. A new FILE gets so many pages and slots, and the slides in TEXT, which are two columns of numbers by
 * rising key (columns.h). The answer is `import: 0` and how many slides there are, or `import: ` and the refusal's number, and no command
 * follows. What is wrong is said on standard error, with the line of TEXT. A FILE that is there stays as it was.
 *
 * Status: 0; 1 where the start or the import was refused, or TEXT is not two columns; 2 where the drive failed, has a place with both copies
 * damaged, is another program's, or is there already and was to be made by an import. */
#include "damage.h"
#include "host.h"
#include "import.h"
#include "lines.h"
#include <stdio.h>
#include <stdlib.h>
#include <string.h>

enum { CASES = 8, MOST_NUMBERS = 3, MOST_ANSWERS = 2 };

/* The open cases: each has a batch of the register, 0 is no batch; and its last tray, counted from 1, with the mark from before it. */
struct desk_case {
    uint32_t name, batch, tray, mark;
};

struct bench {
    struct host host;
    struct desk_case cases[CASES];
    uint32_t answers[MOST_ANSWERS]; /* of the last command */
};

/* ---- cases */

/* The open case of this name, or one of no batch, which the register refuses (12). */
static struct desk_case *case_named(struct bench *b, uint32_t name)
{
    static struct desk_case none;
    for (int i = 0; i < CASES; i++)
        if (b->cases[i].batch != 0 && b->cases[i].name == name)
            return &b->cases[i];
    return &none;
}

static uint32_t batch_of(struct bench *b, uint32_t name)
{
    return case_named(b, name)->batch;
}

static void close_case(struct bench *b, uint32_t name, uint32_t reason)
{
    if (reason == DONZHIKAR_DONE)
        case_named(b, name)->batch = 0;
}

/* ---- commands: each returns the register's answer */

/* A batch's own number is the mark from before all that it does. */
static uint32_t open_case(struct bench *b, const uint32_t *n)
{
    uint32_t reason = host_begin(&b->host), batch = donzhikar_value(b->host.values, 0);
    for (int i = 0; i < CASES && reason == DONZHIKAR_DONE; i++)
        if (b->cases[i].batch == 0) {
            b->cases[i] = (struct desk_case){ .name = n[0], .batch = batch, .tray = 1, .mark = batch };
            break;
        }
    return reason;
}

static uint32_t file_slide(struct bench *b, const uint32_t *n)
{
    return host_insert(&b->host, batch_of(b, n[0]), n[1], n[2]);
}

static uint32_t remove_slide(struct bench *b, const uint32_t *n)
{
    return host_delete(&b->host, batch_of(b, n[0]), n[1]);
}

static uint32_t find_slide(struct bench *b, const uint32_t *n)
{
    uint32_t reason = host_fetch(&b->host, batch_of(b, n[0]), n[1]);
    b->answers[0] = donzhikar_value(b->host.values, 0);
    return reason;
}

/* A step to a slide, which is answered by its key and its value. */
static uint32_t stepped(struct bench *b, uint32_t reason)
{
    b->answers[0] = donzhikar_value(b->host.values, 0);
    b->answers[1] = donzhikar_value(b->host.values, 1);
    return reason;
}

static uint32_t next_slide(struct bench *b, const uint32_t *n)
{
    return stepped(b, host_next(&b->host, batch_of(b, n[0]), n[1]));
}

static uint32_t previous_slide(struct bench *b, const uint32_t *n)
{
    return stepped(b, host_previous(&b->host, batch_of(b, n[0]), n[1]));
}

static uint32_t begin_tray(struct bench *b, const uint32_t *n)
{
    struct desk_case *of = case_named(b, n[0]);
    uint32_t reason = host_mark(&b->host, of->batch);
    if (reason == DONZHIKAR_DONE) {
        of->mark = donzhikar_value(b->host.values, 0);
        b->answers[0] = ++of->tray;
    }
    return reason;
}

static uint32_t take_tray_back(struct bench *b, const uint32_t *n)
{
    const struct desk_case *of = case_named(b, n[0]);
    b->answers[0] = of->tray;
    return host_return(&b->host, of->batch, of->mark);
}

static uint32_t commit_case(struct bench *b, const uint32_t *n)
{
    uint32_t reason = host_commit(&b->host, batch_of(b, n[0]));
    close_case(b, n[0], reason);
    return reason;
}

static uint32_t cancel_case(struct bench *b, const uint32_t *n)
{
    uint32_t reason = host_abort(&b->host, batch_of(b, n[0]));
    close_case(b, n[0], reason);
    return reason;
}

static uint32_t write_out_page(struct bench *b, const uint32_t *n)
{
    return host_write_out(&b->host, n[0]);
}

static void print_slide(uint32_t key, uint32_t value)
{
    printf("slide %u %u\n", (unsigned)key, (unsigned)value);
}

typedef uint32_t (*step)(struct host *h, uint32_t batch, uint32_t key);

/* All slides from one end of the keys on. A slide at that end is fetched, as no step leads to it. */
static uint32_t print_slides(struct host *h, uint32_t batch, uint32_t end, step step)
{
    uint32_t reason = host_fetch(h, batch, end);
    if (reason == DONZHIKAR_DONE)
        print_slide(end, donzhikar_value(h->values, 0));
    if (reason == DONZHIKAR_DONE || reason == DONZHIKAR_ERROR_ABSENT)
        reason = step(h, batch, end);
    while (reason == DONZHIKAR_DONE) {
        uint32_t key = donzhikar_value(h->values, 0);
        print_slide(key, donzhikar_value(h->values, 1));
        reason = step(h, batch, key);
    }
    return reason == DONZHIKAR_ERROR_ABSENT ? DONZHIKAR_DONE : reason;
}

/* The slides are seen by a batch of their own. Where restart was refused there is nothing to list, for that reason. */
static uint32_t list_from(struct bench *b, uint32_t end, step step)
{
    uint32_t reason = b->host.restart == DONZHIKAR_DONE ? host_begin(&b->host) : b->host.restart;
    if (reason != DONZHIKAR_DONE)
        return reason;
    uint32_t batch = donzhikar_value(b->host.values, 0);
    reason = print_slides(&b->host, batch, end, step);
    host_abort(&b->host, batch);
    return reason;
}

static uint32_t list_slides(struct bench *b, const uint32_t *n)
{
    (void)n;
    return list_from(b, 0, host_next);
}

static uint32_t list_slides_back(struct bench *b, const uint32_t *n)
{
    (void)n;
    return list_from(b, UINT32_MAX, host_previous);
}

/* What the start found and did. */
static uint32_t check_drive(struct bench *b, const uint32_t *n)
{
    (void)n;
    const struct host *h = &b->host;
    damage_print(stdout, &h->image);
    printf("restart: %u, %s", (unsigned)h->restart, donzhikar_text(h->restart));
    if (h->restart == DONZHIKAR_DONE)
        printf("; open batches taken back: %u; page changes redone: %u", (unsigned)h->ended, (unsigned)h->redone);
    printf("\n");
    return h->restart;
}

/* ---- lines */

static const struct command {
    const char *name;
    int numbers, answers;
    uint32_t (*run)(struct bench *b, const uint32_t *n);
} commands[] = {
    { "open", 1, 0, open_case },     { "file", 3, 0, file_slide },     { "remove", 2, 0, remove_slide },
    { "find", 2, 1, find_slide },    { "next", 2, 2, next_slide },     { "previous", 2, 2, previous_slide },
    { "tray", 1, 1, begin_tray },    { "take-back", 1, 1, take_tray_back },
    { "commit", 1, 0, commit_case }, { "cancel", 1, 0, cancel_case },  { "write-out", 1, 0, write_out_page },
    { "list", 0, 0, list_slides },   { "list-back", 0, 0, list_slides_back }, { "check", 0, 0, check_drive },
};

/* The command of a line, and its numbers, or NULL. */
static const struct command *read_command(const char *line, uint32_t numbers[MOST_NUMBERS])
{
    size_t length = strcspn(line, " ");
    const char *at = line + length;
    for (size_t i = 0; i < sizeof commands / sizeof commands[0]; i++) {
        const struct command *command = &commands[i];
        if (strlen(command->name) != length || memcmp(command->name, line, length) != 0)
            continue;
        for (int n = 0; n < command->numbers; n++)
            if (*at++ != ' ' || number_read(&at, &numbers[n]) != NUMBER)
                return NULL;
        return *at == '\0' ? command : NULL;
    }
    return NULL;
}

static void answer(const struct bench *b, const char *line, uint32_t reason, int answers)
{
    printf("%s: %u", line, (unsigned)reason);
    for (int i = 0; i < answers && reason == DONZHIKAR_DONE; i++)
        printf(" %u", (unsigned)b->answers[i]);
    printf("\n");
    fflush(stdout);
}

/* Whether a host that only reads obeys the command. */
static int only_looks(const struct command *command)
{
    return command->run == list_slides || command->run == list_slides_back || command->run == check_drive;
}

/* Why a line is not obeyed, or NULL. */
static const char *objection(struct bench *b, const struct command *command, const uint32_t *numbers)
{
    if (command == NULL || (command->run == open_case && batch_of(b, numbers[0]) != 0))
        return "?";
    if (b->host.only_reads && !only_looks(command))
        return "? read-only: list, list-back and check are the only commands";
    return NULL;
}

static void obey(struct bench *b, const char *line)
{
    uint32_t numbers[MOST_NUMBERS];
    const struct command *command = read_command(line, numbers);
    const char *why_not = objection(b, command, numbers);
    if (why_not != NULL) {
        printf("%s\n", why_not);
        fflush(stdout);
        return;
    }
    uint32_t reason = command->run(b, numbers);
    answer(b, line, reason, command->answers);
}

static size_t size_in(const char *word)
{
    return strtoul(word, NULL, 10);
}

/* Starts on FILE, with PAGES and SLOTS where they are given. Returns 0 where no command may follow. */
static int start(struct bench *b, char **words, int count, int only_reads)
{
    size_t pages = count == 3 ? size_in(words[1]) : 0, slots = count == 3 ? size_in(words[2]) : 0;
    uint32_t reason = only_reads ? host_look(&b->host, words[0], pages, slots) : host_start(&b->host, words[0], pages, slots);
    b->answers[0] = b->host.ended;
    b->answers[1] = b->host.redone;
    answer(b, "start", reason, MOST_ANSWERS);
    return reason == DONZHIKAR_DONE || (only_reads && reason != DONZHIKAR_ERROR_LENGTHS);
}

static int usage(const char *name)
{
    fprintf(stderr, "usage: %s FILE PAGES SLOTS\n       %s --read-only FILE [PAGES SLOTS]\n", name, name);
    fprintf(stderr, "       %s --import TEXT FILE PAGES SLOTS\n", name);
    return 1;
}

int main(int count, char **words)
{
    static struct bench bench;
    char line[LINE_BYTES];
    if (count == 6 && strcmp(words[1], "--import") == 0)
        return import_slides(words[2], words[3], size_in(words[4]), size_in(words[5]));
    int only_reads = count > 1 && strcmp(words[1], "--read-only") == 0, before = 1 + only_reads;
    if (count - before != 3 && !(only_reads && count - before == 1))
        return usage(words[0]);
    if (!start(&bench, words + before, count - before, only_reads))
        return 1;
    while (line_read(stdin, line))
        obey(&bench, line);
    host_stop(&bench.host);
    return bench.host.restart == DONZHIKAR_DONE ? 0 : 1;
}
