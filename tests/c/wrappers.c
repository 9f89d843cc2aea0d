/* The header's struct and inline functions, beside the plain functions on a register of its own: every answer and byte is the same. And what
 * the loops do where something is refused. Prints what went wrong; C and C++. */
#include "donzhikar.h"
#include <stdio.h>
#include <string.h>

#define PAGES 64
#define SLOTS 400

struct areas {
    uint8_t work_pages[PAGES * DONZHIKAR_PAGE_BYTES], stable_pages[PAGES * DONZHIKAR_PAGE_BYTES];
    uint8_t work_log[SLOTS * DONZHIKAR_SLOT_BYTES], stable_log[SLOTS * DONZHIKAR_SLOT_BYTES];
};

static struct areas plain, lent;
static uint8_t desk[DONZHIKAR_DESK_BYTES], values[DONZHIKAR_VALUES_BYTES];
static struct donzhikar r;
static int failures;

#define PLAIN                                                                                                          \
    plain.work_pages, sizeof plain.work_pages, plain.stable_pages, sizeof plain.stable_pages, plain.work_log,          \
        sizeof plain.work_log, plain.stable_log, sizeof plain.stable_log, desk, sizeof desk, values, sizeof values

static void hold(int holds, const char *what)
{
    if (!holds) {
        printf("%s\n", what);
        failures++;
    }
}

static void same(const char *what, uint32_t by_plain, uint32_t by_struct)
{
    hold(by_plain == by_struct && memcmp(&plain, &lent, sizeof plain) == 0 && memcmp(desk, r.desk, sizeof desk) == 0 &&
             memcmp(values, r.values, sizeof values) == 0,
         what);
}

static void try_loading(void)
{
    const uint32_t keys[] = { 400, 410, 405 }, chosen[] = { 4, 5, 6 };
    same("load", donzhikar_load(PLAIN, keys, 2, chosen, 2), donzhikar_load_in(&r, keys, chosen, 2));
    same("load of falling keys", donzhikar_load(PLAIN, keys, 3, chosen, 3), donzhikar_load_in(&r, keys, chosen, 3));
    same("restart after it", donzhikar_restart(PLAIN), donzhikar_restart_in(&r, NULL, NULL));
    same("begin", donzhikar_begin(PLAIN), donzhikar_begin_in(&r, NULL));
    same("fetch what was loaded", donzhikar_fetch(PLAIN, 1, 410), donzhikar_fetch_in(&r, 1, 410, NULL));
    hold(donzhikar_value(values, 0) == 5, "what was loaded");
}

static void try_wrappers(void)
{
    uint32_t batch, value, key, mark, ended, redone;
    same("format", donzhikar_format(PLAIN), donzhikar_format_in(&r));
    same("begin", donzhikar_begin(PLAIN), donzhikar_begin_in(&r, &batch));
    same("insert", donzhikar_insert(PLAIN, batch, 500, 7), donzhikar_insert_in(&r, batch, 500, 7));
    same("insert again", donzhikar_insert(PLAIN, batch, 500, 7), donzhikar_insert_in(&r, batch, 500, 7));
    same("fetch", donzhikar_fetch(PLAIN, batch, 500), donzhikar_fetch_in(&r, batch, 500, &value));
    same("next", donzhikar_next(PLAIN, batch, 0), donzhikar_next_in(&r, batch, 0, &key, &value));
    same("previous", donzhikar_previous(PLAIN, batch, 501), donzhikar_previous_in(&r, batch, 501, &key, &value));
    same("mark", donzhikar_mark(PLAIN, batch), donzhikar_mark_in(&r, batch, &mark));
    hold(batch == 1 && key == 500 && value == 7 && mark == 2, "answers");
    same("insert after the mark", donzhikar_insert(PLAIN, batch, 501, 8), donzhikar_insert_in(&r, batch, 501, 8));
    same("return", donzhikar_return(PLAIN, batch, mark), donzhikar_return_in(&r, batch, mark));
    same("return to no mark", donzhikar_return(PLAIN, batch, 0), donzhikar_return_in(&r, batch, 0));
    same("fetch what was taken back", donzhikar_fetch(PLAIN, batch, 501), donzhikar_fetch_in(&r, batch, 501, NULL));
    same("commit", donzhikar_commit(PLAIN, batch), donzhikar_commit_in(&r, batch));
    same("begin", donzhikar_begin(PLAIN), donzhikar_begin_in(&r, NULL));
    same("delete", donzhikar_delete(PLAIN, 6, 500), donzhikar_delete_in(&r, 6, 500));
    same("write-out", donzhikar_write_out(PLAIN, 1), donzhikar_write_out_in(&r, 1));
    same("restart", donzhikar_restart(PLAIN), donzhikar_restart_in(&r, &ended, &redone));
    hold(ended == 1 && redone == 0, "restart's answers");
    same("begin", donzhikar_begin(PLAIN), donzhikar_begin_in(&r, &batch));
    same("abort", donzhikar_abort(PLAIN, batch), donzhikar_abort_in(&r, batch));
}

struct seen {
    uint32_t keys[8];
    size_t count, most;
};

static int see(void *with, uint32_t key, uint32_t value)
{
#ifdef __cplusplus
    struct seen *seen = static_cast<struct seen *>(with);
#else
    struct seen *seen = with;
#endif
    (void)value;
    seen->keys[seen->count++] = key;
    return seen->count == seen->most;
}

/* Ends the batch that is in the way, once. */
static int end_other(void *with)
{
#ifdef __cplusplus
    uint32_t *batch = static_cast<uint32_t *>(with);
#else
    uint32_t *batch = with;
#endif
    return donzhikar_commit_in(&r, *batch) != DONZHIKAR_DONE;
}

static int lend_all(void *with, struct donzhikar *to)
{
    (void)with;
    to->slots = SLOTS;
    return 0;
}

static void try_loops(void)
{
    const struct donzhikar_slide chosen[] = { { 1, 1 }, { 500, 7 }, { DONZHIKAR_MOST_SLOTS, 2 } };
    const struct donzhikar_slide unread = { 0, 1 };
    struct seen seen = { { 0 }, 0, 8 };
    uint32_t batch, other;
    donzhikar_format_in(&r);
    hold(donzhikar_slots_left(&r) == SLOTS && donzhikar_pages_left(&r) == PAGES - 2 && donzhikar_updates_left(&r) == 4, "left of a new one");
    hold(donzhikar_file_in(&r, chosen, 3, NULL, NULL) == DONZHIKAR_DONE, "file");
    hold(donzhikar_file_in(&r, chosen + 2, 1, NULL, NULL) == DONZHIKAR_ERROR_ALREADY_PRESENT, "file again");
    hold(donzhikar_file_in(&r, &unread, 1, NULL, NULL) == DONZHIKAR_ERROR_UNREAD_LABEL, "file under 0");
    donzhikar_begin_in(&r, &batch);
    hold(donzhikar_list_in(&r, batch, see, &seen) == DONZHIKAR_DONE && seen.count == 3 && seen.keys[0] == 1 && seen.keys[2] == 16384, "list");
    seen.count = 0;
    hold(donzhikar_list_back_in(&r, batch, see, &seen) == DONZHIKAR_DONE && seen.count == 3 && seen.keys[0] == 16384 && seen.keys[2] == 1, "list back");
    seen.count = 0;
    seen.most = 2;
    hold(donzhikar_list_in(&r, batch, see, &seen) == DONZHIKAR_DONE && seen.count == 2, "list up to two");
    donzhikar_begin_in(&r, &other);
    donzhikar_delete_in(&r, other, 500);
    seen.count = 0;
    hold(donzhikar_list_in(&r, batch, see, &seen) == DONZHIKAR_ERROR_HELD_BY_ANOTHER && seen.count == 1, "list, and another holds");
    seen.count = 0;
    hold(donzhikar_list_back_in(&r, batch, see, &seen) == DONZHIKAR_ERROR_HELD_BY_ANOTHER && seen.count == 1, "list back, and another holds");
    hold(donzhikar_pending(&r) == 1, "pending");
    hold(donzhikar_file_in(&r, chosen + 1, 1, NULL, NULL) == DONZHIKAR_ERROR_HELD_BY_ANOTHER, "file what another holds");
    hold(donzhikar_file_in(&r, chosen + 1, 1, end_other, &other) == DONZHIKAR_DONE, "file when the other has ended");
}

/* Trays of a case: one is refused on the way, one is taken back when it is filed, and then all of them. Another batch may have what was taken
 * back. */
static void try_trays(void)
{
    const struct donzhikar_slide first[] = { { 10, 1 }, { 11, 1 } }, second[] = { { 20, 2 }, { 10, 2 } }, third[] = { { 30, 3 }, { 31, 3 } };
    uint32_t batch, other, mark;
    donzhikar_format_in(&r);
    donzhikar_begin_in(&r, &batch);
    hold(donzhikar_file_tray_in(&r, batch, first, 2, NULL) == DONZHIKAR_DONE && donzhikar_pending(&r) == 2, "file a tray");
    hold(donzhikar_file_tray_in(&r, batch, second, 2, &mark) == DONZHIKAR_ERROR_ALREADY_PRESENT && donzhikar_pending(&r) == 2, "a tray is refused");
    hold(donzhikar_return_in(&r, batch, mark) == DONZHIKAR_DONE && donzhikar_pending(&r) == 2, "it was taken back");
    hold(donzhikar_file_tray_in(&r, batch, third, 2, &mark) == DONZHIKAR_DONE && donzhikar_pending(&r) == 4, "file another");
    hold(donzhikar_return_in(&r, batch, mark) == DONZHIKAR_DONE && donzhikar_pending(&r) == 2, "take it back");
    hold(donzhikar_file_in(&r, third, 1, NULL, NULL) == DONZHIKAR_DONE, "another case files from it");
    donzhikar_begin_in(&r, &other);
    hold(donzhikar_return_in(&r, other, mark) == DONZHIKAR_ERROR_NO_SUCH_MARK, "another batch's mark");
    hold(donzhikar_file_tray_in(&r, 0, third, 2, &mark) == DONZHIKAR_ERROR_NO_SUCH_BATCH && mark == 0, "a tray of no batch");
    hold(donzhikar_return_in(&r, batch, batch) == DONZHIKAR_DONE && donzhikar_pending(&r) == 0, "take all back");
    hold(donzhikar_file_tray_in(&r, batch, second, 2, NULL) == DONZHIKAR_DONE && donzhikar_commit_in(&r, batch) == DONZHIKAR_DONE, "file and commit");
    hold(donzhikar_fetch_in(&r, other, 11, NULL) == DONZHIKAR_ERROR_ABSENT && donzhikar_fetch_in(&r, other, 20, NULL) == DONZHIKAR_DONE, "what was kept");
}

/* A restart that runs short in the logs that are lent, and not in longer ones: half of the slots are held back. */
static void try_coming_back(void)
{
    struct donzhikar_slide slide = { 1, 1 };
    uint32_t batch;
    donzhikar_format_in(&r);
    while (donzhikar_value(r.desk, 32) < SLOTS / 2 - 3) {
        hold(donzhikar_file_in(&r, &slide, 1, NULL, NULL) == DONZHIKAR_DONE, "file on");
        slide.key++;
    }
    donzhikar_begin_in(&r, &batch);
    donzhikar_insert_in(&r, batch, slide.key, 0);
    donzhikar_write_out_in(&r, 1);
    r.slots = donzhikar_value(r.desk, 33);
    hold(donzhikar_come_back_in(&r, NULL, NULL) == DONZHIKAR_ERROR_SLOTS_SHORT, "come back in too few slots");
    hold(donzhikar_come_back_in(&r, lend_all, NULL) == DONZHIKAR_DONE && r.slots == SLOTS, "come back in more");
    hold(donzhikar_pending(&r) == 0, "nothing is pending");
}

static void try_texts(void)
{
    const char *none = donzhikar_text(10);
    for (uint32_t reason = 0; reason <= 21; reason++) {
        const int known = reason <= 9 || (reason >= 11 && reason <= 20);
        hold((strcmp(donzhikar_text(reason), none) != 0) == known, "text");
    }
    hold(strcmp(DONZHIKAR_VERSION, "") != 0, "version");
}

int main(void)
{
    r.work_pages = lent.work_pages;
    r.stable_pages = lent.stable_pages;
    r.pages = PAGES;
    r.work_log = lent.work_log;
    r.stable_log = lent.stable_log;
    r.slots = SLOTS;
    try_loading();
    try_wrappers();
    try_loops();
    try_trays();
    try_coming_back();
    try_texts();
    return failures != 0;
}
