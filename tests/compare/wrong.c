/* A library that is wrong in one way: the right one, whose functions are renamed right_*, and one fault over it. The environment variable
 * DONZHIKAR_WRONG names the fault; without it the library is right. Compiled without the header, whose const these functions do not keep. */
#include <stddef.h>
#include <stdint.h>
#include <stdlib.h>
#include <string.h>

enum { WORK_PAGES, STABLE_PAGES, WORK_LOG, STABLE_LOG, DESK, VALUES, PARTS };
enum { DESK_BYTES = 136, ROW_BYTES = 16, ROWS = 8, WRITTEN_AT = 128, LARGE = 800 * 128, LARGEST = 896 * 128, MUCH_STACK = 120 * 1024, OFTEN = 9 };
enum { LONGEST = 16384 * 144 };

/* Kinds of pages, and of records. */
enum { LEAF = 1, INDEX = 2 };
enum { INSERT = 2, DELETE = 3, UNDO_INSERT = 4, UNDO_DELETE = 5, ABORT_MARK = 7, SPLIT = 9, MERGE = 12, REDISTRIBUTE = 13, RAISE = 14 };

struct part {
    uint8_t *bytes;
    size_t length;
};

/* What a fault does once the right call has returned. */
enum deed {
    ANSWERS,     /* returns another number: `with` */
    TURNS,       /* turns a bit of the last byte of part `with` */
    GOES_BEYOND, /* turns a bit of the byte after part `with` */
    ACCEPTS,     /* takes a desk of any length for one of 136 bytes */
    READS_AFTER, /* reads the byte after part `with` */
    READS_BEFORE,
    PUTS_BACK,   /* turns a bit of part `with`, and turns it back */
    CUTS,        /* leaves 14 bits of the second value */
    GIVES_BATCH, /* gives the batch's number as the first value */
    TAKES_BACK,  /* leaves the working areas and the desk as they were */
    ENDS,        /* aborts the batch besides */
    RESHAPES,    /* gives the loaded tree the shape `with` */
    FINDS_ASKED, /* answers the asked key, where it is there */
    STEPS_ON,    /* answers what next answers */
    STEPS_OVER,  /* answers what the batch that holds the keys on the way is answered */
    UNLINKS,     /* leaves no left link in the working pages */
    STORES_LINK, /* stores the page with its left link */
    STAMPS,      /* gives pages whose left link has changed a log number for it */
    LEAVES_LINK, /* leaves the left link of the page after those that a record of kind `with` changes as it was */
    OVERLOOKS,   /* answers as if the bits of left links were right in pages of kind `with` */
    /* And what it does before: */
    DIGS,        /* takes much more stack */
    SHARES,      /* works on pages of its own, which all calls share */
    REPEATS,     /* makes the call many times */
    LOWERS,      /* returns to the batch's record before the mark */
    COUNTS       /* undoes as many updates as the batch has made since the mark, also where some are undone already */
};

struct fault {
    const char *name;
    char letter;        /* the call, as in vectors/README.md */
    uint32_t when;      /* what it returns when it is right */
    enum deed deed;
    uint32_t with;
    /* Only where the pages have so many bytes, the root has this level, so many updates are pending, so many records are written. */
    size_t least_pages;
    uint32_t least_level, least_pending, least_written;
    /* Only where the call has just found room: no slot, or no free page, more than it asks for. */
    enum { ANY_ROOM, EXACT_SLOTS, EXACT_PAGES } room;
    /* Only where the last record of the stable log is to be redone, and refusal 5 goes by entries that are out of order, or by none. */
    enum { ANY_RECORD, KEY_PASSED_BY, MOVED_OUT_OF_ORDER, MERGE_OF_NONE } last;
    /* Only where the call is given key 0; only where a fetch of it answers `with` besides, which so is asked first; only where the log takes
     * a deletion of key 0 back; only where another open batch has taken back an update of the key. */
    enum { ANY_KEY, KEY_0, KEY_0_LATE, KEY_0_PUT_BACK, KEY_FREED } key;
    /* Only where a return is given the number of such a record: the batch's own begin, an undo of the batch, a record of another batch, a
     * change of the tree, none in the log; any that is not the batch's. */
    enum { ANY_MARK, ITS_BEGIN, ITS_UNDO, OTHER_BATCH, OF_THE_TREE, NO_RECORD, NOT_ITS } mark;
    /* Only where the call has written nothing; only where the batch has its abort mark. */
    enum { ANY_WRITING, NOTHING_WRITTEN } writing;
    enum { ANY_BATCH, ABORT_MARKED } batch;
    /* Only where a stable page has a left link. */
    enum { ANY_LINKS, STABLE_LINK } links;
    /* Only where a load's keys have a 0, do not rise, do not rise but nowhere fall, take more pages than there are, one more, or just these. */
    enum { ANY_COLUMNS, WITH_0, NOT_RISING, ONLY_EQUAL, TOO_MANY, ONE_TOO_MANY, JUST_FITTING } columns;
};

/* What a loaded tree is like in the wrong ways. */
enum shape {
    LAST_OF_3,     /* a last leaf of fewer than 4 entries does not share with the one before */
    INDEX_OF_14,   /* index pages are filled to 14 */
    BOTTOM_UP,     /* the leaves are numbered first */
    LAST_NOT_TOP,  /* the last leaf's high key is its last key */
    LEFT_SMALLER   /* of two leaves that share, the right one takes the larger half */
};

#define ALWAYS .least_pages = 0

static const struct fault faults[] = {
    {"fetch-gives-another-value", 'F', 0, TURNS, VALUES, ALWAYS},
    {"next-gives-another-value", 'N', 0, TURNS, VALUES, ALWAYS},
    {"begin-leaves-another-desk", 'B', 0, TURNS, DESK, ALWAYS},
    {"insert-writes-another-page", 'I', 0, TURNS, WORK_PAGES, ALWAYS},
    {"insert-refuses-with-18-for-17", 'I', 17, ANSWERS, 18, ALWAYS},
    {"delete-writes-another-record", 'D', 0, TURNS, WORK_LOG, ALWAYS},
    {"commit-stores-another-record", 'C', 0, TURNS, STABLE_LOG, ALWAYS},
    {"abort-goes-beyond-the-pages", 'A', 0, GOES_BEYOND, WORK_PAGES, ALWAYS},
    {"write-out-stores-another-page", 'W', 0, TURNS, STABLE_PAGES, ALWAYS},
    {"restart-counts-another-number", 'R', 0, TURNS, VALUES, ALWAYS},
    {"fetch-writes-a-stable-page", 'F', 16, TURNS, STABLE_PAGES, ALWAYS},
    {"insert-without-batch-answers-11", 'I', 12, ANSWERS, 11, ALWAYS},
    {"ninth-begin-answers-17", 'B', 13, ANSWERS, 17, ALWAYS},
    {"large-insert-writes-another-page", 'I', 0, TURNS, WORK_PAGES, .least_pages = LARGE},
    {"redo-refuses-with-6-for-5", 'R', 5, ANSWERS, 6, ALWAYS},
    {"layout-refuses-with-4-for-3", 'R', 3, ANSWERS, 4, ALWAYS},
    {"unsound-fetch-answers-16", 'F', 11, ANSWERS, 16, ALWAYS},
    {"unsound-commit-leaves-another-desk", 'C', 11, TURNS, DESK, ALWAYS},
    {"refused-restart-keeps-a-page", 'R', 4, TURNS, WORK_PAGES, ALWAYS},
    {"refused-restart-keeps-a-record", 'R', 4, TURNS, WORK_LOG, ALWAYS},
    {"refused-restart-changes-the-stable-log", 'R', 4, TURNS, STABLE_LOG, ALWAYS},
    {"restart-writes-another-page", 'R', 0, TURNS, WORK_PAGES, ALWAYS},
    {"restart-leaves-another-desk", 'R', 0, TURNS, DESK, ALWAYS},
    {"format-leaves-a-record", 'Z', 0, TURNS, STABLE_LOG, ALWAYS},
    {"wrong-lengths-answer-2", 'W', 1, ANSWERS, 2, ALWAYS},
    {"refused-format-leaves-a-desk", 'Z', 1, TURNS, DESK, ALWAYS},
    {"desk-of-any-length", 'B', 0, ACCEPTS, 0, ALWAYS},
    {"rules-refuse-with-5-for-6", 'R', 6, ANSWERS, 5, ALWAYS},
    {"restart-refuses-with-17-for-18", 'R', 18, ANSWERS, 17, ALWAYS},
    {"insert-wrong-at-five-levels", 'I', 0, TURNS, WORK_PAGES, .least_level = 4},
    {"fetch-wrong-at-six-levels", 'F', 0, TURNS, VALUES, .least_level = 5},
    {"held-ignored-above-40-pending", 'F', 14, ANSWERS, 16, .least_pending = 41},
    {"held-ignored-above-64-pending", 'I', 14, ANSWERS, 15, .least_pending = 65},
    {"begin-wrong-in-the-last-slots", 'B', 0, TURNS, DESK, .least_written = 16380},
    {"begin-refused-in-exact-room", 'B', 0, ANSWERS, 17, .room = EXACT_SLOTS},
    {"insert-refused-in-exact-room", 'I', 0, ANSWERS, 17, .room = EXACT_SLOTS},
    {"delete-refused-in-exact-room", 'D', 0, ANSWERS, 17, .room = EXACT_SLOTS},
    {"insert-refused-with-exact-pages", 'I', 0, ANSWERS, 18, .room = EXACT_PAGES},
    {"key-passed-by-is-inserted", 'R', 5, ANSWERS, 6, .last = KEY_PASSED_BY},
    {"entries-moved-out-of-order", 'R', 5, ANSWERS, 6, .last = MOVED_OUT_OF_ORDER},
    {"merge-of-none-is-refused", 'R', 0, ANSWERS, 5, .last = MERGE_OF_NONE},
    {"redo-counted-by-14-bits", 'R', 0, CUTS, 0, ALWAYS},
    {"fetch-reads-after-the-log", 'F', 0, READS_AFTER, WORK_LOG, ALWAYS},
    {"restart-reads-before-the-pages", 'R', 0, READS_BEFORE, STABLE_PAGES, ALWAYS},
    {"begin-reads-after-the-desk", 'B', 0, READS_AFTER, DESK, ALWAYS},
    {"fetch-writes-a-page-and-puts-it-back", 'F', 0, PUTS_BACK, WORK_PAGES, ALWAYS},
    {"commit-writes-a-page-and-puts-it-back", 'C', 0, PUTS_BACK, STABLE_PAGES, ALWAYS},
    {"large-insert-takes-more-stack", 'I', 0, DIGS, 0, .least_pages = LARGE},
    {"one-buffer-for-all-calls", 'I', 0, SHARES, 0, ALWAYS},
    {"key-0-refused-after-11", 'I', 7, ANSWERS, 11, .key = KEY_0_LATE},
    {"key-0-refused-after-12", 'I', 7, ANSWERS, 12, .key = KEY_0_LATE},
    {"key-0-refused-before-1", 'I', 1, ANSWERS, 7, .key = KEY_0},
    {"key-0-inserted", 'I', 7, ANSWERS, 0, ALWAYS},
    {"key-0-not-fetched", 'F', 0, ANSWERS, 7, .key = KEY_0},
    {"key-0-not-deleted", 'D', 0, ANSWERS, 7, .key = KEY_0},
    {"key-0-not-put-back-by-restart", 'R', 0, ANSWERS, 4, .key = KEY_0_PUT_BACK},
    {"key-0-not-put-back-by-abort", 'A', 0, ANSWERS, 19, .key = KEY_0_PUT_BACK},
    {"mark-answers-the-batch", 'M', 0, GIVES_BATCH, 0, ALWAYS},
    {"mark-writes-a-page-and-puts-it-back", 'M', 0, PUTS_BACK, WORK_PAGES, ALWAYS},
    {"mark-leaves-another-desk", 'M', 0, TURNS, DESK, ALWAYS},
    {"mark-without-batch-answers-20", 'M', 12, ANSWERS, 20, ALWAYS},
    {"mark-refused-after-a-7", 'M', 0, ANSWERS, 12, .batch = ABORT_MARKED},
    {"return-undoes-nothing", 'T', 0, TAKES_BACK, 0, ALWAYS},
    {"return-undoes-the-mark-too", 'T', 0, LOWERS, 0, ALWAYS},
    {"return-undoes-by-count", 'T', 0, COUNTS, 0, ALWAYS},
    {"return-ends-the-batch", 'T', 0, ENDS, 0, ALWAYS},
    {"return-changes-the-stable-log", 'T', 0, TURNS, STABLE_LOG, ALWAYS},
    {"return-of-nothing-writes-the-log", 'T', 0, TURNS, WORK_LOG, .writing = NOTHING_WRITTEN},
    {"return-of-nothing-leaves-another-desk", 'T', 0, TURNS, DESK, .writing = NOTHING_WRITTEN},
    {"return-refused-after-a-7", 'T', 0, ANSWERS, 12, .batch = ABORT_MARKED},
    {"return-refused-to-the-begin", 'T', 0, ANSWERS, 20, .mark = ITS_BEGIN},
    {"return-refused-to-an-undo", 'T', 0, ANSWERS, 20, .mark = ITS_UNDO},
    {"return-to-another-batchs-record", 'T', 20, ANSWERS, 0, .mark = OTHER_BATCH},
    {"return-to-a-change-of-the-tree", 'T', 20, ANSWERS, 0, .mark = OF_THE_TREE},
    {"return-to-no-record", 'T', 20, ANSWERS, 0, .mark = NO_RECORD},
    {"no-mark-asked-before-12", 'T', 12, ANSWERS, 20, .mark = NOT_ITS},
    {"no-mark-asked-before-11", 'T', 11, ANSWERS, 20, .mark = NOT_ITS},
    {"freed-key-still-held", 'F', 16, ANSWERS, 14, .key = KEY_FREED},
    {"load-leaves-a-last-page-of-3", 'O', 0, RESHAPES, LAST_OF_3, ALWAYS},
    {"load-gives-the-right-page-more", 'O', 0, RESHAPES, LEFT_SMALLER, ALWAYS},
    {"load-fills-index-pages-to-14", 'O', 0, RESHAPES, INDEX_OF_14, ALWAYS},
    {"load-numbers-bottom-up", 'O', 0, RESHAPES, BOTTOM_UP, ALWAYS},
    {"load-ends-below-top", 'O', 0, RESHAPES, LAST_NOT_TOP, ALWAYS},
    {"load-takes-equal-keys", 'O', 9, ANSWERS, 0, .columns = ONLY_EQUAL},
    {"load-asks-7-after-9", 'O', 7, ANSWERS, 9, .columns = NOT_RISING},
    {"load-asks-8-after-7", 'O', 8, ANSWERS, 7, .columns = WITH_0},
    {"load-asks-8-after-9", 'O', 8, ANSWERS, 9, .columns = NOT_RISING},
    {"load-asks-9-after-18", 'O', 9, ANSWERS, 18, .columns = TOO_MANY},
    {"load-asks-1-after-7", 'O', 1, ANSWERS, 7, .columns = WITH_0},
    {"load-is-a-page-too-late", 'O', 18, ANSWERS, 0, .columns = ONE_TOO_MANY},
    {"load-is-a-page-too-early", 'O', 0, ANSWERS, 18, .columns = JUST_FITTING},
    {"load-leaves-a-record", 'O', 0, TURNS, STABLE_LOG, ALWAYS},
    {"load-reads-after-the-desk", 'O', 0, READS_AFTER, DESK, ALWAYS},
    {"refused-load-keeps-the-desk", 'O', 9, TAKES_BACK, 0, ALWAYS},
    {"refused-load-changes-a-page", 'O', 18, TURNS, WORK_PAGES, ALWAYS},
    {"refused-load-changes-the-stable-log", 'O', 8, TURNS, STABLE_LOG, ALWAYS},
    {"previous-gives-another-value", 'V', 0, TURNS, VALUES, ALWAYS},
    {"previous-finds-the-asked-key", 'V', 0, FINDS_ASKED, 0, ALWAYS},
    {"previous-of-a-held-key-answers-16", 'V', 14, ANSWERS, 16, ALWAYS},
    {"previous-without-batch-answers-16", 'V', 12, ANSWERS, 16, ALWAYS},
    {"previous-writes-a-page-and-puts-it-back", 'V', 0, PUTS_BACK, WORK_PAGES, ALWAYS},
    {"previous-answers-what-next-answers", 'V', 0, STEPS_ON, 0, ALWAYS},
    {"previous-steps-over-a-held-key", 'V', 14, STEPS_OVER, 0, ALWAYS},
    {"insert-sets-no-left-link", 'I', 0, UNLINKS, 0, ALWAYS},
    {"delete-sets-no-left-link", 'D', 0, UNLINKS, 0, ALWAYS},
    {"abort-sets-no-left-link", 'A', 0, UNLINKS, 0, ALWAYS},
    {"return-sets-no-left-link", 'T', 0, UNLINKS, 0, ALWAYS},
    {"restart-sets-no-left-link", 'R', 0, UNLINKS, 0, ALWAYS},
    {"load-sets-no-left-link", 'O', 0, UNLINKS, 0, ALWAYS},
    {"write-out-stores-the-left-link", 'W', 0, STORES_LINK, 0, ALWAYS},
    {"left-link-changes-the-log-number", 'I', 0, STAMPS, 0, ALWAYS},
    {"split-leaves-the-link-after-the-new-page", 'I', 0, LEAVES_LINK, SPLIT, ALWAYS},
    {"merge-leaves-the-link-after-the-freed-page", 'D', 0, LEAVES_LINK, MERGE, ALWAYS},
    {"raise-leaves-the-link-of-the-right-page", 'I', 0, LEAVES_LINK, RAISE, ALWAYS},
    {"fetch-judges-no-left-link", 'F', 11, OVERLOOKS, LEAF, ALWAYS},
    {"fetch-judges-no-link-bits-of-an-index", 'F', 11, OVERLOOKS, INDEX, ALWAYS},
    {"stable-left-link-answers-6", 'R', 3, ANSWERS, 6, .links = STABLE_LINK},
    {"stable-left-link-answers-0", 'R', 3, ANSWERS, 0, .links = STABLE_LINK},
    {"largest-fetch-is-slow", 'F', 0, REPEATS, 0, .least_pages = LARGEST},
};

/* The fault that is asked for, or null. */
static const struct fault *fault(void)
{
    static const struct fault *found;
    const char *name = getenv("DONZHIKAR_WRONG");
    for (size_t i = 0; found == NULL && name != NULL && i < sizeof faults / sizeof *faults; i++)
        if (strcmp(faults[i].name, name) == 0)
            found = &faults[i];
    return found;
}

static uint32_t number_at(const uint8_t *bytes)
{
    return (uint32_t)bytes[0] << 24 | (uint32_t)bytes[1] << 16 | (uint32_t)bytes[2] << 8 | (uint32_t)bytes[3];
}

static uint32_t pending_in(const struct part *desk)
{
    uint32_t pending = 0;
    for (size_t row = 0; row < ROWS && desk->length == DESK_BYTES; row++)
        pending += number_at(desk->bytes + row * ROW_BYTES + 12);
    return pending;
}

static uint32_t open_in(const struct part *desk)
{
    uint32_t open = 0;
    while (open < ROWS && number_at(desk->bytes + open * ROW_BYTES) != 0)
        open++;
    return open;
}

static uint32_t free_pages(const struct part *pages)
{
    uint32_t used = 0;
    for (size_t bit = 0; bit < 896; bit++)
        used += pages->bytes[16 + bit / 8] >> (7 - bit % 8) & 1;
    return (uint32_t)(pages->length / 128) - used;
}

/* By what the call has left, where an update wrote one record and took no page: 01's formulas hold as equations. */
static int room_is(const struct fault *f, const struct part parts[PARTS])
{
    const struct part *desk = &parts[DESK];
    uint32_t pending = pending_in(desk), slots = (uint32_t)(parts[WORK_LOG].length / 144);
    uint32_t before = number_at(desk->bytes + WRITTEN_AT) - 1, reserved = 32 * pending + 2 * open_in(desk);
    if (f->room == EXACT_SLOTS)
        return before + (f->letter == 'B' ? 1 : 32) + reserved == slots;
    return f->room == ANY_ROOM || free_pages(&parts[WORK_PAGES]) == 7 + 7 * pending;
}

enum { PAGE_BYTES = 128, PAGE_ENTRIES = 16, RECORD_BYTES = 144, RECORD_ENTRIES = 32, ENTRY_BYTES = 8, MOST_ENTRIES = 14 };

/* The keys of a page's or a record's entries, as far as the count says. */
struct keys {
    const uint8_t *entries;
    uint32_t count;
};

static uint32_t key_at(struct keys keys, uint32_t place)
{
    return number_at(keys.entries + place * ENTRY_BYTES);
}

static struct keys keys_of_page(const uint8_t *page)
{
    return (struct keys){page + PAGE_ENTRIES, (uint32_t)((page[0] & 3) << 2 | page[1] >> 6)};
}

/* Whether the key is there, and the first entry that is not below it is another one. */
static int passed_by(struct keys keys, uint32_t key)
{
    uint32_t place = 0, met;
    while (place < keys.count && key_at(keys, place) < key)
        place++;
    met = place;
    while (place < keys.count && key_at(keys, place) != key)
        place++;
    return place < keys.count && place != met;
}

/* Whether the left entries end above the first of the right ones, or with its key, and one page has room for all. */
static int out_of_order(struct keys left, struct keys right)
{
    return left.count > 0 && right.count > 0 && left.count + right.count <= MOST_ENTRIES
        && key_at(left, left.count - 1) >= key_at(right, 0);
}

static const uint8_t *last_record(const struct part *log)
{
    const uint8_t *last = NULL;
    for (size_t at = 0; at < log->length && log->bytes[at] >> 4 != 0; at += RECORD_BYTES)
        last = log->bytes + at;
    return last;
}

/* By the page that the last record changes: A, or B where a redistribution moves entries above its key. */
static int last_is(const struct fault *f, const struct part parts[PARTS])
{
    const uint8_t *record = f->last == ANY_RECORD ? NULL : last_record(&parts[STABLE_LOG]);
    if (record == NULL)
        return f->last == ANY_RECORD;
    uint32_t kind = record[0] >> 4, key = number_at(record + 20), named = number_at(record + 16);
    struct keys moved = {record + RECORD_ENTRIES, record[0] & 15};
    int into_b = kind == REDISTRIBUTE && moved.count > 0 && key_at(moved, 0) > key;
    const uint8_t *page = parts[STABLE_PAGES].bytes + (into_b ? named >> 12 & 1023 : named >> 22) * PAGE_BYTES;
    struct keys keys = keys_of_page(page);
    if (number_at(page + 8) >= number_at(record + 4))
        return 0;
    if (f->last == KEY_PASSED_BY)
        return (kind == INSERT || kind == UNDO_DELETE) && keys.count < MOST_ENTRIES && passed_by(keys, key);
    if (f->last == MOVED_OUT_OF_ORDER)
        return kind == REDISTRIBUTE && (into_b ? out_of_order(moved, keys) : out_of_order(keys, moved));
    return kind == MERGE && moved.count == 0 && keys.count > 0;
}

/* Whether the register is one that the fault is about. A page's level is in the third to sixth bit of its first byte; the root is page 1. */
static int concerns(const struct fault *f, char letter, const struct part parts[PARTS])
{
    const struct part *pages = &parts[WORK_PAGES], *desk = &parts[DESK];
    return f != NULL && f->letter == letter && pages->length >= f->least_pages
        && (f->least_level == 0 || (uint32_t)(pages->bytes[128] >> 2 & 15) >= f->least_level)
        && (f->least_pending == 0 || pending_in(desk) >= f->least_pending)
        && (f->least_written == 0 || number_at(desk->bytes + WRITTEN_AT) >= f->least_written);
}

static size_t desk_length(char letter, size_t length)
{
    const struct fault *f = fault();
    return f != NULL && f->deed == ACCEPTS && f->letter == letter && length >= DESK_BYTES ? DESK_BYTES : length;
}

/* What a fault does before the right call. */

static uint8_t shared[LARGEST];

static int shares(char letter, const struct part *pages)
{
    const struct fault *f = fault();
    return f != NULL && f->deed == SHARES && f->letter == letter && pages->length <= LARGEST;
}

/* The pages that the right call gets. */
static uint8_t *pages_for(char letter, const struct part *pages)
{
    return shares(letter, pages) ? memcpy(shared, pages->bytes, pages->length) : pages->bytes;
}

static void dig(void)
{
    volatile uint8_t much[MUCH_STACK];
    for (size_t i = 0; i < sizeof much; i += 1024)
        much[i] = 0;
}

static int times_before(char letter, const struct part parts[PARTS])
{
    const struct fault *f = fault();
    if (!concerns(f, letter, parts))
        return 0;
    if (f->deed == DIGS)
        dig();
    return f->deed == REPEATS ? OFTEN : 0;
}

#define LENT                                                                                                                             \
    uint8_t *work_pages, size_t work_pages_length, uint8_t *stable_pages, size_t stable_pages_length, uint8_t *work_log,                  \
        size_t work_log_length, uint8_t *stable_log, size_t stable_log_length, uint8_t *desk, size_t desk_given, uint8_t *values,         \
        size_t values_length

#define LENT_ON p[0].bytes, p[0].length, p[1].bytes, p[1].length, p[2].bytes, p[2].length, p[3].bytes, p[3].length, p[4].bytes, p[4].length

uint32_t right_fetch(LENT, uint32_t batch, uint32_t key);
uint32_t right_next(LENT, uint32_t batch, uint32_t key);
uint32_t right_previous(LENT, uint32_t batch, uint32_t key);
uint32_t right_abort(LENT, uint32_t batch);

/* What a fetch on these parts answers, which changes none of them. */
static uint32_t fetched(const struct part p[PARTS], uint32_t batch, uint32_t key)
{
    uint8_t values[8];
    return right_fetch(LENT_ON, values, sizeof values, batch, key);
}

/* Gives the asked key with its value, where it is there; else the answer stays. */
static uint32_t found(const struct part p[PARTS], uint32_t batch, uint32_t key)
{
    uint8_t values[8];
    if (right_fetch(LENT_ON, values, sizeof values, batch, key) == 0) {
        for (size_t i = 0; i < 4; i++)
            p[VALUES].bytes[i] = (uint8_t)(key >> (24 - 8 * i));
        memcpy(p[VALUES].bytes + 4, values, 4);
    }
    return 0;
}

static uint32_t stepped_on(const struct part p[PARTS], uint32_t batch, uint32_t key)
{
    return right_next(LENT_ON, p[VALUES].bytes, p[VALUES].length, batch, key);
}

/* What one of the open batches finds below the key, where none but that one holds a key on the way. */
static uint32_t stepped_over(const struct part p[PARTS], uint32_t key)
{
    uint32_t reason = 14;
    for (size_t row = 0; row < ROWS && reason == 14; row++)
        if (number_at(p[DESK].bytes + row * ROW_BYTES) != 0)
            reason = right_previous(LENT_ON, p[VALUES].bytes, p[VALUES].length, number_at(p[DESK].bytes + row * ROW_BYTES), key);
    return reason;
}

static uint32_t ended(const struct part p[PARTS], uint32_t batch)
{
    uint8_t values[8];
    return right_abort(LENT_ON, values, sizeof values, batch);
}

/* A record's kind, batch, previous and key. */
struct told {
    uint32_t kind, batch, previous, key;
};

/* What the record with this number tells, zeros where there is none. */
static struct told told_by(const struct part *log, uint32_t number)
{
    const uint8_t *record = log->bytes + (size_t)(number - 1) * RECORD_BYTES;
    if (number == 0 || (size_t)number * RECORD_BYTES > log->length)
        return (struct told){0, 0, 0, 0};
    return (struct told){record[0] >> 4, number_at(record + 8), number_at(record + 12), number_at(record + 20)};
}

static int is_undo(struct told record)
{
    return record.kind == UNDO_INSERT || record.kind == UNDO_DELETE;
}

static int is_update(struct told record)
{
    return record.kind == INSERT || record.kind == DELETE;
}

static int puts_back_0(const struct part *log)
{
    for (uint32_t number = 1; told_by(log, number).kind != 0; number++)
        if (told_by(log, number).kind == UNDO_DELETE && told_by(log, number).key == 0)
            return 1;
    return 0;
}

static int is_open(const struct part *desk, uint32_t batch)
{
    for (size_t row = 0; row < ROWS && desk->length == DESK_BYTES; row++)
        if (batch != 0 && number_at(desk->bytes + row * ROW_BYTES) == batch)
            return 1;
    return 0;
}

static int freed_by_another(const struct part parts[PARTS], uint32_t batch, uint32_t key)
{
    for (uint32_t number = 1; told_by(&parts[WORK_LOG], number).kind != 0; number++) {
        struct told record = told_by(&parts[WORK_LOG], number);
        if (is_undo(record) && record.key == key && record.batch != batch && is_open(&parts[DESK], record.batch))
            return 1;
    }
    return 0;
}

/* By the numbers that the call was given: the batch is the first, the key or the mark the second. */
static int key_is(const struct fault *f, const struct part parts[PARTS], const uint32_t numbers[])
{
    if (f->key == KEY_0_PUT_BACK)
        return puts_back_0(&parts[WORK_LOG]);
    if (f->key == KEY_FREED)
        return freed_by_another(parts, numbers[1], numbers[2]);
    return f->key == ANY_KEY || (numbers[2] == 0 && (f->key == KEY_0 || fetched(parts, numbers[1], 0) == f->with));
}

static int mark_is(const struct fault *f, const struct part parts[PARTS], const uint32_t numbers[])
{
    uint32_t batch = numbers[1], mark = numbers[2];
    struct told record = told_by(&parts[WORK_LOG], mark);
    switch (f->mark) {
    case ITS_BEGIN: return mark == batch;
    case ITS_UNDO: return is_undo(record) && record.batch == batch;
    case OTHER_BATCH: return record.batch != 0 && record.batch != batch;
    case OF_THE_TREE: return record.kind != 0 && record.batch == 0;
    case NO_RECORD: return record.kind == 0;
    case NOT_ITS: return record.kind == 0 || record.batch != batch;
    default: return 1;
    }
}

static int batch_is(const struct fault *f, const struct part parts[PARTS], uint32_t batch)
{
    for (uint32_t number = 1; f->batch == ABORT_MARKED && told_by(&parts[WORK_LOG], number).kind != 0; number++) {
        struct told record = told_by(&parts[WORK_LOG], number);
        if (record.kind == ABORT_MARK && record.batch == batch)
            return 1;
    }
    return f->batch == ANY_BATCH;
}

/* The working areas and the desk as they were before the call, for a fault that needs them: the others do not look at the areas before the call
 * does. */
static uint8_t pages_before[LARGEST], log_before[LONGEST], desk_before[DESK_BYTES];

static int fits_before(const struct part parts[PARTS])
{
    return parts[WORK_PAGES].length <= LARGEST && parts[WORK_LOG].length <= LONGEST && parts[DESK].length == DESK_BYTES;
}

static void keep(const struct part parts[PARTS])
{
    const struct fault *f = fault();
    int needs = f != NULL && (f->deed == TAKES_BACK || f->deed == STAMPS || f->deed == LEAVES_LINK || f->writing != ANY_WRITING);
    if (!needs || !fits_before(parts))
        return;
    memcpy(pages_before, parts[WORK_PAGES].bytes, parts[WORK_PAGES].length);
    memcpy(log_before, parts[WORK_LOG].bytes, parts[WORK_LOG].length);
    memcpy(desk_before, parts[DESK].bytes, parts[DESK].length);
}

static void take_back(const struct part parts[PARTS])
{
    memcpy(parts[WORK_PAGES].bytes, pages_before, parts[WORK_PAGES].length);
    memcpy(parts[WORK_LOG].bytes, log_before, parts[WORK_LOG].length);
    memcpy(parts[DESK].bytes, desk_before, parts[DESK].length);
}

static int writing_is(const struct fault *f, const struct part parts[PARTS])
{
    return f->writing == ANY_WRITING || memcmp(parts[DESK].bytes, desk_before, DESK_BYTES) == 0;
}

/* The update that is next to undo once this one is undone. */
static uint32_t pending_before(const struct part *log, uint32_t update)
{
    uint32_t previous = told_by(log, update).previous;
    struct told record = told_by(log, previous);
    return is_update(record) ? previous : is_undo(record) ? record.previous : 0;
}

static uint32_t mark_by_count(const struct part parts[PARTS], uint32_t batch, uint32_t mark)
{
    const struct part *log = &parts[WORK_LOG], *desk = &parts[DESK];
    uint32_t update = 0;
    for (size_t row = 0; row < ROWS && desk->length == DESK_BYTES; row++)
        if (number_at(desk->bytes + row * ROW_BYTES) == batch)
            update = number_at(desk->bytes + row * ROW_BYTES + 8);
    for (uint32_t number = mark + 1; told_by(log, number).kind != 0; number++)
        if (told_by(log, number).batch == batch && is_update(told_by(log, number)))
            update = pending_before(log, update);
    return update == 0 ? batch : update;
}

/* The mark that the right return gets, so that it undoes what the wrong one would. */
static uint32_t mark_for(const struct part parts[PARTS], uint32_t batch, uint32_t mark)
{
    struct told record = told_by(&parts[WORK_LOG], mark);
    enum deed deed = fault() == NULL || record.batch != batch || batch == 0 ? ANSWERS : fault()->deed;
    if (deed == LOWERS && is_update(record))
        return record.previous;
    return deed == COUNTS ? mark_by_count(parts, batch, mark) : mark;
}

/* The columns of the load that is made. Two registers may be loaded at once. */
struct columns {
    const uint32_t *keys;
    size_t keys_length;
};

static _Thread_local struct columns loaded;

static size_t pages_of_level(size_t entries)
{
    return entries <= MOST_ENTRIES ? 1 : (entries + 9) / 10;
}

/* How many pages a load of so many records takes, with the map. */
static size_t pages_needed(size_t records)
{
    size_t pages = 1, entries = records, level;
    do {
        level = pages_of_level(entries);
        pages += level;
        entries = level;
    } while (level > 1);
    return pages;
}

static int columns_are(const struct fault *f, const struct part parts[PARTS])
{
    int zero = 0, equal = 0, falling = 0;
    size_t needed = pages_needed(loaded.keys_length), pages = parts[WORK_PAGES].length / PAGE_BYTES;
    for (size_t i = 0; i < loaded.keys_length && f->columns != ANY_COLUMNS; i++) {
        zero |= loaded.keys[i] == 0;
        equal |= i > 0 && loaded.keys[i] == loaded.keys[i - 1];
        falling |= i > 0 && loaded.keys[i] < loaded.keys[i - 1];
    }
    switch (f->columns) {
    case WITH_0: return zero;
    case NOT_RISING: return equal || falling;
    case ONLY_EQUAL: return equal && !falling;
    case TOO_MANY: return needed > pages;
    case ONE_TOO_MANY: return needed == pages + 1;
    case JUST_FITTING: return needed == pages;
    default: return 1;
    }
}

static void set_number(uint8_t *bytes, uint32_t number)
{
    for (int i = 0; i < 4; i++)
        bytes[i] = (uint8_t)(number >> (24 - 8 * i));
}

static void set_count(uint8_t *page, uint32_t count)
{
    page[0] = (uint8_t)((page[0] & 0xFC) | count >> 2);
    page[1] = (uint8_t)((page[1] & 0x3F) | (count & 3) << 6);
}

static uint8_t *page_at(uint8_t *pages, size_t number)
{
    return pages + number * PAGE_BYTES;
}

static uint32_t level_of(const uint8_t *page)
{
    return page[0] >> 2 & 15;
}

/* Moves entries between a page and the next one until the left one has so many, and writes its new high key where its parent has the old. */
static void share(uint8_t *pages, size_t left, uint32_t wanted)
{
    uint8_t *a = page_at(pages, left), *b = page_at(pages, left + 1), both[2 * MOST_ENTRIES * ENTRY_BYTES] = {0};
    uint32_t of_a = keys_of_page(a).count, all = of_a + keys_of_page(b).count, old = number_at(a + 4);
    memcpy(both, a + PAGE_ENTRIES, of_a * ENTRY_BYTES);
    memcpy(both + of_a * ENTRY_BYTES, b + PAGE_ENTRIES, (all - of_a) * ENTRY_BYTES);
    memset(a + PAGE_ENTRIES, 0, MOST_ENTRIES * ENTRY_BYTES);
    memset(b + PAGE_ENTRIES, 0, MOST_ENTRIES * ENTRY_BYTES);
    memcpy(a + PAGE_ENTRIES, both, wanted * ENTRY_BYTES);
    memcpy(b + PAGE_ENTRIES, both + wanted * ENTRY_BYTES, (all - wanted) * ENTRY_BYTES);
    set_count(a, wanted);
    set_count(b, all - wanted);
    set_number(a + 4, key_at(keys_of_page(a), wanted - 1));
    for (size_t parent = 1; parent < left; parent++)
        for (uint32_t i = 0; i < keys_of_page(page_at(pages, parent)).count; i++)
            if (key_at(keys_of_page(page_at(pages, parent)), i) == old)
                set_number(page_at(pages, parent) + PAGE_ENTRIES + i * ENTRY_BYTES, number_at(a + 4));
}

/* The number that a page has where the leaves are numbered before the index pages that stand from 2 on, or 0 and 1. */
static uint32_t bottom_up(uint32_t page, uint32_t indexes, uint32_t leaves)
{
    if (page < 2)
        return page;
    return page < 2 + indexes ? page + leaves : page - indexes;
}

static void renumber(uint8_t *pages, uint32_t indexes, uint32_t leaves)
{
    static _Thread_local uint8_t before[LARGEST];
    memcpy(before, pages, (2 + indexes + leaves) * PAGE_BYTES);
    for (uint32_t number = 1; number < 2 + indexes + leaves; number++) {
        uint32_t own = bottom_up(number, indexes, leaves);
        uint8_t *page = memcpy(page_at(pages, own), page_at(before, number), PAGE_BYTES);
        uint32_t right = bottom_up(number_at(page) >> 12 & 1023, indexes, leaves);
        set_number(page, (number_at(page) & ~(1023u << 12)) | right << 12);
        set_number(page + 12, own << 22);
        for (uint32_t i = 0; level_of(page) > 0 && i < keys_of_page(page).count; i++) {
            uint8_t *child = page + PAGE_ENTRIES + i * ENTRY_BYTES + 4;
            set_number(child, bottom_up(number_at(child), indexes, leaves));
        }
    }
}

/* The loaded tree in another shape, in one of the page areas. The root is page 1, and the leaves have the last numbers. */
static void reshape(uint8_t *pages, enum shape shape)
{
    uint32_t last = (uint32_t)pages_needed(loaded.keys_length) - 1, leaf = last;
    while (leaf > 2 && level_of(page_at(pages, leaf - 1)) == 0)
        leaf--;
    uint32_t leaves = last - leaf + 1, indexes = last > 1 ? last - 1 - leaves : 0, rest = (uint32_t)(loaded.keys_length % 10);
    uint8_t *end = page_at(pages, last);
    if (shape == LAST_OF_3 && leaves > 1 && rest > 0 && rest < 4)
        share(pages, last - 1, 10);
    if (shape == LEFT_SMALLER && leaves > 1 && (rest == 1 || rest == 3))
        share(pages, last - 1, (10 + rest) / 2);
    if (shape == INDEX_OF_14 && indexes > 1)
        share(pages, 2, 8);
    if (shape == BOTTOM_UP && indexes > 0)
        renumber(pages, indexes, leaves);
    if (shape == LAST_NOT_TOP && loaded.keys_length > 0)
        set_number(end + 4, key_at(keys_of_page(end), keys_of_page(end).count - 1));
}

/* A leaf's left link; other pages have none. */
static uint32_t link_of(const uint8_t *page)
{
    return page[0] >> 6 == LEAF ? number_at(page) >> 2 & 1023 : 0;
}

static void set_link(uint8_t *page, uint32_t link)
{
    set_number(page, (number_at(page) & ~(1023u << 2)) | link << 2);
}

/* Works the left links out along the leaves, as far as there are any. */
static void relink(uint8_t *pages, uint32_t count)
{
    uint32_t number = 1, before = 0;
    for (uint32_t level = level_of(page_at(pages, 1)); level > 0 && number < count; level--)
        number = number_at(page_at(pages, number) + PAGE_ENTRIES + 4);
    for (uint32_t steps = 0; number != 0 && number < count && steps < count; steps++) {
        uint8_t *page = page_at(pages, number);
        set_link(page, before);
        before = number;
        number = number_at(page) >> 12 & 1023;
    }
}

/* Index pages have no left link: its bits are spare there. */
static void unlink_indexes(uint8_t *pages, uint32_t count)
{
    for (uint32_t number = 0; number < count; number++)
        if (page_at(pages, number)[0] >> 6 == INDEX)
            set_link(page_at(pages, number), 0);
}

/* What a fetch answers on pages whose left links, or whose index pages' bits there, are put right first. */
static uint32_t fetched_relinked(const struct part parts[PARTS], uint32_t batch, uint32_t key, uint32_t kind)
{
    struct part linked[PARTS];
    if (!fits_before(parts))
        return 11;
    memcpy(linked, parts, sizeof linked);
    linked[WORK_PAGES].bytes = memcpy(pages_before, parts[WORK_PAGES].bytes, parts[WORK_PAGES].length);
    (kind == INDEX ? unlink_indexes : relink)(pages_before, (uint32_t)(parts[WORK_PAGES].length / PAGE_BYTES));
    return fetched(linked, batch, key);
}

static int links_are(const struct fault *f, const struct part parts[PARTS])
{
    const struct part *pages = &parts[STABLE_PAGES];
    for (size_t at = 0; f->links == STABLE_LINK && at < pages->length; at += PAGE_BYTES)
        if (link_of(pages->bytes + at) != 0)
            return 1;
    return f->links == ANY_LINKS;
}

/* For each record of this kind that the call wrote: a leaf that came to stand after another one is still linked to the one before. After a
 * split and a merge it is the one at the record's right link; a raise puts page C before B, in the place of the root. */
static void leave_link(const struct part parts[PARTS], uint32_t kind)
{
    const struct part *log = &parts[WORK_LOG];
    for (uint32_t number = number_at(desk_before + WRITTEN_AT) + 1; told_by(log, number).kind != 0; number++) {
        const uint8_t *record = log->bytes + (number - 1) * RECORD_BYTES;
        uint32_t named = number_at(record + 16), a = named >> 22, b = named >> 12 & 1023, right = number_at(record + 28) >> 22;
        uint8_t *page = page_at(parts[WORK_PAGES].bytes, kind == RAISE ? b : right);
        if (record[0] >> 4 == (int)kind && link_of(page) != 0)
            set_link(page, kind == MERGE ? b : a);
    }
}

/* What is wrong with the left links after the call. */
static void mislink(enum deed deed, const struct part parts[PARTS], uint32_t stored)
{
    const struct part *pages = &parts[WORK_PAGES];
    uint32_t written = number_at(parts[DESK].bytes + WRITTEN_AT);
    if (deed == STORES_LINK)
        memcpy(page_at(parts[STABLE_PAGES].bytes, stored), page_at(pages->bytes, stored), PAGE_BYTES);
    for (size_t at = 0; at < pages->length; at += PAGE_BYTES) {
        uint8_t *page = pages->bytes + at;
        if (deed == UNLINKS && link_of(page) != 0)
            set_link(page, 0);
        if (deed == STAMPS && link_of(page) != link_of(pages_before + at))
            set_number(page + 8, written);
    }
}

/* What the wrong call returns where the right one has returned `reason` and left these parts. */
static uint32_t spoiled(char letter, uint32_t reason, const struct part parts[PARTS], const uint32_t numbers[])
{
    const struct fault *f = fault();
    if (shares(letter, &parts[WORK_PAGES]))
        memcpy(parts[WORK_PAGES].bytes, shared, parts[WORK_PAGES].length);
    if (!concerns(f, letter, parts) || f->when != reason || !room_is(f, parts) || !last_is(f, parts)
        || !key_is(f, parts, numbers) || !mark_is(f, parts, numbers) || !writing_is(f, parts) || !batch_is(f, parts, numbers[1])
        || !columns_are(f, parts) || !links_are(f, parts))
        return reason;
    if (f->deed == ANSWERS)
        return f->with;
    if (f->deed == TAKES_BACK)
        take_back(parts);
    if (f->deed == ENDS)
        return ended(parts, numbers[1]);
    if (f->deed == OVERLOOKS)
        return fetched_relinked(parts, numbers[1], numbers[2], f->with);
    if (f->deed == FINDS_ASKED)
        return found(parts, numbers[1], numbers[2]);
    if (f->deed == STEPS_ON)
        return stepped_on(parts, numbers[1], numbers[2]);
    if (f->deed == STEPS_OVER)
        return stepped_over(parts, numbers[2]);
    if (f->deed == LEAVES_LINK) {
        leave_link(parts, f->with);
        return reason;
    }
    if (f->deed == UNLINKS || f->deed == STORES_LINK || f->deed == STAMPS) {
        mislink(f->deed, parts, numbers[1]);
        return reason;
    }
    if (f->deed == RESHAPES) {
        reshape(parts[WORK_PAGES].bytes, f->with);
        reshape(parts[STABLE_PAGES].bytes, f->with);
        return reason;
    }
    const struct part *part = &parts[f->with];
    volatile uint8_t *bytes = part->bytes;
    if (f->deed == TURNS && part->length > 0)
        bytes[part->length - 1] ^= 1;
    if (f->deed == GOES_BEYOND)
        bytes[part->length] ^= 1;
    if (f->deed == READS_AFTER)
        (void)bytes[part->length];
    if (f->deed == READS_BEFORE)
        (void)bytes[-1];
    for (int i = 0; i < 2 && f->deed == PUTS_BACK; i++)
        bytes[0] ^= 1;
    for (size_t i = 0; i < 4 && f->deed == GIVES_BATCH; i++)
        parts[VALUES].bytes[i] = (uint8_t)(numbers[1] >> (24 - 8 * i));
    if (f->deed == CUTS)
        parts[VALUES].bytes[4] = parts[VALUES].bytes[5] = 0, parts[VALUES].bytes[6] &= 0x3F;
    return reason;
}

#define PASSED(letter)                                                                                                                   \
    pages_for(letter, &parts[WORK_PAGES]), work_pages_length, stable_pages, stable_pages_length, work_log, work_log_length, stable_log,   \
        stable_log_length, desk, desk_length(letter, desk_given), values, values_length

#define LENT_PARTS                                                                                                                       \
    {{work_pages, work_pages_length}, {stable_pages, stable_pages_length}, {work_log, work_log_length}, {stable_log, stable_log_length},   \
        {desk, desk_given}, {values, values_length}}

#define WRONG(letter, name, taken, given)                                                                                                \
    uint32_t right_##name(LENT taken);                                                                                                   \
    uint32_t donzhikar_##name(LENT taken)                                                                                                \
    {                                                                                                                                    \
        const struct part parts[PARTS] = LENT_PARTS;                                                                                     \
        const uint32_t numbers[] = {0 given, 0, 0};                                                                                      \
        keep(parts);                                                                                                                     \
        for (int times = times_before(letter, parts); times > 0; times--)                                                                \
            right_##name(PASSED(letter) given);                                                                                          \
        return spoiled(letter, right_##name(PASSED(letter) given), parts, numbers);                                                      \
    }

#define NONE
#define COMMA ,
#define TAKES_1 COMMA uint32_t a
#define TAKES_2 TAKES_1 COMMA uint32_t b
#define TAKES_3 TAKES_2 COMMA uint32_t c
#define GIVES_1 COMMA a
#define GIVES_2 GIVES_1 COMMA b
#define GIVES_3 GIVES_2 COMMA c

WRONG('Z', format, NONE, NONE)

uint32_t right_load(LENT, const uint32_t *keys, size_t keys_length, const uint32_t *slide_values, size_t slide_values_length);

uint32_t donzhikar_load(LENT, const uint32_t *keys, size_t keys_length, const uint32_t *slide_values, size_t slide_values_length)
{
    const struct part parts[PARTS] = LENT_PARTS;
    const uint32_t numbers[] = {0, 0, 0};
    loaded = (struct columns){keys, keys_length};
    keep(parts);
    uint32_t reason = right_load(PASSED('O'), keys, keys_length, slide_values, slide_values_length);
    return spoiled('O', reason, parts, numbers);
}

WRONG('B', begin, NONE, NONE)
WRONG('F', fetch, TAKES_2, GIVES_2)
WRONG('N', next, TAKES_2, GIVES_2)
WRONG('V', previous, TAKES_2, GIVES_2)
WRONG('I', insert, TAKES_3, GIVES_3)
WRONG('D', delete, TAKES_2, GIVES_2)
WRONG('C', commit, TAKES_1, GIVES_1)
WRONG('A', abort, TAKES_1, GIVES_1)
WRONG('M', mark, TAKES_1, GIVES_1)
WRONG('T', return, TAKES_2, GIVES_1 COMMA mark_for(parts, a, b))
WRONG('W', write_out, TAKES_1, GIVES_1)
WRONG('R', restart, NONE, NONE)
