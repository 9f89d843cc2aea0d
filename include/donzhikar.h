/* The slide register, for C.
 *
 * The register keeps slides, each a key and a value of 32 bits, in areas of memory that the caller lends at each call. A batch holds
 * the slides of one case: what it inserts and deletes stays once it is committed, and is taken back if it is aborted, or if the power
 * fails before its commit is stored. After a power failure one call, donzhikar_restart, brings the register back.
 *
 * Link with the library that `./library` makes, target/staticlib/libdonzhikar.a; `./install PREFIX` puts it, as libdonzhikar.a, this
 * header and a pkg-config file below PREFIX, and then `cc program.c $(pkg-config --cflags --libs donzhikar)` is all. It needs no other
 * library but the C library.
 *
 * PLATFORMS. This header is C99 and later, and C++11 and later. Nothing is asked of alignment: every area may stand at any address. (Only
 * load's columns are arrays of uint32_t.) All numbers in the areas are bytes, most significant first, so an image that one machine wrote is
 * read by any other. The library is made for the machine that makes it; x86-64 Linux is what is tried.
 *
 * IN A HURRY: fill in a struct donzhikar and call the functions whose names end in _in, which stand at the end. They are the fourteen
 * functions with one leading argument in place of six pointers and their lengths. There too: what is left (donzhikar_slots_left,
 * donzhikar_pages_left), what a refusal means in words (donzhikar_text), and the loops that everyone writes (donzhikar_list_in,
 * donzhikar_list_back_in, donzhikar_file_in, donzhikar_file_tray_in, donzhikar_come_back_in).
 *
 *
 * WHAT THE CALLER LENDS
 *
 * Every function takes the same things first, in this order, each as a pointer and a length in bytes:
 *
 *   work_pages     the working pages. Memory; lost when the power fails.
 *   stable_pages   the stable pages. The host keeps a copy of them that outlasts a power failure.
 *   work_log       the working log. Memory; lost when the power fails.
 *   stable_log     the stable log. The host keeps a copy of it that outlasts a power failure.
 *   desk           136 bytes that the register fills and the caller keeps from call to call. Memory; lost when the power fails.
 *   values         8 bytes for the answer's two values.
 *
 * Pages are 128 bytes, and 16 to 896 of them are lent; log slots are 144 bytes, and 64 to 16,384 are lent. The working and the stable
 * pages have one length, and so have the working and the stable log. Nothing is kept elsewhere: the library has no memory of its own,
 * so one program can run any number of registers, each with its own areas and desk.
 *
 * A pointer is never null, also where its length is 0. No two of the six overlap, and nothing else reads or writes them while a call
 * runs. Where the header says const, the call does not write. Calls on different registers may run at the same time.
 *
 * Between calls the caller leaves the areas and the desk as the last call left them. If it does not, nothing worse happens than a
 * refusal (11, or one of 3 to 6 by restart) or answers about whatever register the bytes then show: every function is defined for all
 * lengths and all bytes, and writes only within what it was lent.
 *
 *
 * WHAT A CALL RETURNS
 *
 * 0, or the number of the reason for which it is refused. `values` then holds two numbers of 32 bits, most significant byte first; each
 * is 0 where the call has no such answer, and both are 0 after a refusal. donzhikar_value reads them.
 *
 * A desk that is not 136 bytes long, or values that are not 8 bytes long: 1, whatever else is wrong. The four areas stay, and so does the
 * one of wrong length. The other is left as by any refusal: values of 8 bytes become zeros, a desk of 136 bytes stays, or becomes empty
 * by format, load and restart.
 *
 *
 * THE REASONS, AND WHAT EACH LEAVES
 *
 * The reasons are tried in the order of their numbers, but for load's 8, which is tried before 7, for return's 20, which is tried before
 * 19, and for restart's 17 and 18, of which the first that is met is given, 17 if both are met at once. Unless the table says otherwise a
 * refused call leaves the four areas and the desk exactly as they were.
 *
 *    1  The areas' lengths are wrong, or those of a kind are unequal. Every call.
 *       Nothing changes in the areas; format, load and restart leave an empty desk (136 zeros), the others leave the desk.
 *    2  The page's number is not below the number of pages. Write-out. Nothing changes.
 *    3  A stable page breaks the layout of pages. Restart.
 *    4  A slot of the stable log breaks the layout of records, its number or its batch's chain, or names a page that is not lent; or
 *       more than eight batches are open, a full slot follows an empty one, or a page was changed by a record that is not there. Restart.
 *    5  A change that is to be redone meets a page that it does not start from. Restart.
 *    6  The pages, once redone, break the rules of the tree, or do not agree with the open batches' changes. Restart.
 *       3 to 6: both working areas become zeros, the desk becomes empty, the stable areas stay as they were. If a power failure cut a
 *       format or a load, do it again. Otherwise the stable areas were damaged: keep them as they are; docs/SERVICE.md says what can be
 *       brought back.
 *    7  The key is 0, which stands for a label that could not be read. Insert, whatever the areas hold. Nothing changes. Slides that an
 *       earlier version filed under 0 are still fetched and deleted, and previous finds them; next never does, as it looks above the key
 *       that it is given. Load, if any of the keys is 0: the areas stay, the desk becomes empty.
 *    8  The two columns differ in length. Load: the areas stay, the desk becomes empty.
 *    9  The keys do not rise: one is not above the one before it. Load: as 8.
 *   11  The working areas or the desk are not sound: not what calls leave. Every call but format, load and restart. Nothing changes.
 *       After a power failure this is the usual answer until restart has run, and not one to rely on: see COMING BACK.
 *   12  There is no such open batch. Fetch, next, previous, insert, delete, mark, return, commit, abort. Nothing changes.
 *   13  Eight batches are open. Begin. Nothing changes.
 *   14  The key is held by another open batch, which has inserted or deleted it. Fetch, insert, delete; and next, if another batch holds
 *       any key above the asked one up to the one found, or any key above it if none is found; and previous, if another batch holds any
 *       key below the asked one down to the one found, or any key below it if none is found. For next and previous it does not matter who
 *       holds the asked key itself. Nothing changes.
 *   15  The key is present. Insert. Nothing changes.
 *   16  The key is absent; or, for next, no key is above the asked one; or, for previous, none is below it. Fetch, next, previous, delete.
 *       Above key 4294967295 and below key 0 there is nothing to hold: next and previous answer 16 there, never 14. Nothing changes.
 *   17  Log slots are short. Begin, insert, delete: nothing changes.
 *       Restart: both working areas become zeros, the desk becomes empty, the stable areas stay as they were.
 *   18  Pages are short. Insert, delete: nothing changes. Restart: as 17. Load: as 8.
 *   19  An abort or a return ran out of slots or pages. The slots and pages that insert and delete insist on are those that both need, so no
 *       register that the calls themselves have built gives it. Abort, return. Nothing changes.
 *   20  The mark is not the number of a record of that batch. Return. Nothing changes.
 *
 * What is short, exactly: with u slots used, p changes pending in open batches and b batches open, begin needs u + 1 + 32p + 2(b + 1) at
 * most the number of slots; insert and delete need u + 32 + 32(p + 1) + 2b at most the number of slots, else 17, and 7 + 7(p + 1) free
 * pages, else 18. Slots are never given back: when the log is full, the slides have to be read out and brought into a fresh register,
 * loaded if they are at most 8,040 and none has key 0, else filed. The caller may lend longer areas (the added part all zero, working and
 * stable alike) after any call, and before a restart.
 *
 *
 * HOW MUCH FITS
 *
 * Reserves are kept for undoing what is not committed, so far less may be uncommitted at a time than a register holds in all. Slides are
 * filed by rising keys here; tests/c/capacity.c measures the table, and a test holds it to this text. "full" counts the slides that are in
 * when the first begin or insert is refused.
 *
 *   pages x slots     uncommitted at a time    full, cases of 1    full, cases of 10    loaded once
 *      16 x 64                           0                   0                    0            140
 *      16 x 128                          1                  15                    0            140
 *      64 x 160                          3                  30                    0            560
 *     256 x 1024                        29                 290                  440           2280
 *     896 x 16384                      124                4900                 4920           8040
 *
 * With 64 slots a register takes no insert at all: 67 are the fewest for one. A case larger than what may be uncommitted cannot be filed as
 * one: some 124 slides are the most, and fewer in a register that is filled. Reading needs a batch too, and a batch costs slots: its begin,
 * and its commit or its abort mark and end. A program that reads often keeps one reading batch open, or ends it by abort, which stores
 * nothing. Read all slides out, and bring them into a fresh register, at the first 17 that no commit cures: a begin then still
 * passes. A 17 of restart at 16,384 slots is an end: no longer areas can be lent.
 *
 *
 * IMPORTING
 *
 * A register starts empty (donzhikar_format) or with the slides of an older instrument (donzhikar_load): two columns, the keys by rising
 * number and their values. What the areas held before is gone in both. At most 8,040 slides fit 896 pages (the table has other sizes), else
 * 18. A load to the last page leaves none for an insert, which needs 14 free ones at least. Two loads of the same columns into areas of
 * one size leave the same bytes. What was loaded stands in the pages and in no log record, so keep the columns: a damaged page of an imported
 * register cannot be made anew from the log alone (docs/SERVICE.md).
 *
 * Load into areas that are in no use. A power failure during a load, as during a format, may leave pages of the new register beside the log
 * of the old one, and a restart may then return 0 for slides that are neither's: load or format again, before any restart. A load that is
 * refused changes no area, but leaves an empty desk: a register that was running in these areas answers 11 from then on, and a restart
 * brings it back without its open batches.
 *
 *
 * TRAYS
 *
 * A case may fill several trays, and a tray may jam. Ask for a mark before each tray (donzhikar_mark): it is the number of the batch's latest
 * log record, and the register keeps nothing of it. To take the tray back, return to its mark (donzhikar_return): what the batch inserted and
 * deleted since then is undone, newest first. The batch stays open with the trays before, and its commit counts with what it kept. (A mark is
 * a savepoint, and a return the rollback to it.)
 *
 * A mark is good while its batch is open, and for any number of returns: every record of the batch is a mark, those that were taken back too.
 * The batch's own number is one: the return to it takes back all that the batch did. A return stores nothing. A power failure takes the
 * whole case, as any that is not committed, and its marks.
 *
 * A key whose changes are all taken back is no longer held, so another batch may file it, and the tray may then meet 14 or 15. A return
 * writes records as an abort does, in slots that are kept for it. They are not given back: a slide filed, taken back and filed again costs
 * at least three slots in place of one.
 *
 *
 * WHAT THE HOST MUST GUARANTEE ABOUT STORES
 *
 * Only format, load, commit, write-out and restart write to the stable areas. One store is one page of 128 bytes at a multiple of 128 in
 * stable_pages, or one slot of 144 bytes at a multiple of 144 in stable_log. A call's stores are a list, in this order:
 *
 *   format      every page by rising number, then every slot by rising number
 *   load        the same
 *   commit      every record that is not yet stored, by rising number, the commit's own last
 *   write-out   the same, then the one page
 *   restart     at its end, the new records by rising number
 *
 * The working pages are not what is stored. In memory each leaf of the tree also has the number of the leaf before it, its left link. A
 * page is stored without it, whatever stores it, and restart works the links out again. So what the host carries out comes from the stable
 * areas, and from nowhere else. A host that copies working pages, onto the stable ones or into its copy of them, makes a register that restart
 * refuses with 3 as soon as there are two leaves, and that is from 15 slides on: a trial with a few slides does not show it.
 *
 * A power failure may come between two stores, and the register recovers from it. The host must see to it that
 *
 *   - each store is there whole or not at all;
 *   - of a call's stores, those that are there are a first part of them: none is there while an earlier one is not;
 *   - all of them are there when the call returns, as far as anyone acts on its answer.
 *
 * A slot of 144 bytes starts at no multiple of 512 but every 32nd, so slots straddle sectors of a disk or a flash page: where the stable
 * areas are copied to such a device, a slot across two sectors is two writes, and the device alone does not give "whole or not at all".
 * The host then keeps a journal, or a checksum by which it takes back half a slot.
 *
 * The stable areas are ordinary memory, of which the host keeps a copy where it outlasts a power failure. What they show while a call
 * runs is not promised: the compiler and the processor may order and join writes to memory. So memory with a battery is not lent itself;
 * it holds the copy. It is enough to carry the changed parts of the stable areas out to the copy after each of the five calls, in the order
 * above, before going on. examples/host does so, in a file, and docs/DRIVE.md says how.
 *
 *
 * MEMORY AND TIME
 *
 * The library allocates nothing and has no state. A call takes less than 64 KiB of stack. Every call but format, load and restart first
 * judges whether the areas are sound, which reads all of both logs and all working pages.
 *
 *
 * COMING BACK
 *
 * After a power failure, or at every start: bring the stable areas into memory, and restart. 0: go on. 17 or 18: lend longer areas, the
 * added part zero, and restart again. 3 to 6: stop, keep the stable areas as they are, and see docs/SERVICE.md. After 0 no batch is open,
 * whatever was: the cases that had not been committed are filed again from their beginning.
 *
 * The caller owes this restart before any other call. Memory that outlives the failure may show the working areas and the desk of an earlier
 * moment, sound by themselves: a commit then returns 0, and its slides may be gone after the next restart. No call can tell.
 *
 *
 * AN EXAMPLE: files two cases of a slide each in a register of 16 pages and 128 slots, loses the power, comes back and lists the slides.
 *
 *   #include "donzhikar.h"
 *   #include <stdio.h>
 *   #include <string.h>
 *
 *   static uint8_t work_pages[16 * DONZHIKAR_PAGE_BYTES], stable_pages[16 * DONZHIKAR_PAGE_BYTES];
 *   static uint8_t work_log[128 * DONZHIKAR_SLOT_BYTES], stable_log[128 * DONZHIKAR_SLOT_BYTES];
 *   static struct donzhikar slides;
 *
 *   static int print(void *with, uint32_t key, uint32_t value)
 *   {
 *       (void)with;
 *       printf("slide %u: %u\n", (unsigned)key, (unsigned)value);
 *       return 0;
 *   }
 *
 *   static int failed(const char *what, uint32_t reason)
 *   {
 *       printf("%s: %u, %s\n", what, (unsigned)reason, donzhikar_text(reason));
 *       return 1;
 *   }
 *
 *   int main(void)
 *   {
 *       const struct donzhikar_slide chosen[] = { { 500, 7 }, { 501, 8 } };
 *       slides.work_pages = work_pages;
 *       slides.stable_pages = stable_pages;
 *       slides.pages = 16;
 *       slides.work_log = work_log;
 *       slides.stable_log = stable_log;
 *       slides.slots = 128;
 *       uint32_t reason = donzhikar_format_in(&slides);
 *       if (reason == DONZHIKAR_DONE)
 *           reason = donzhikar_file_in(&slides, chosen, 1, NULL, NULL);
 *       if (reason == DONZHIKAR_DONE)
 *           reason = donzhikar_file_in(&slides, chosen + 1, 1, NULL, NULL);
 *       if (reason != DONZHIKAR_DONE)
 *           return failed("file", reason);
 *       memset(work_pages, 0, sizeof work_pages);
 *       memset(work_log, 0, sizeof work_log);
 *       memset(slides.desk, 0, sizeof slides.desk);
 *       reason = donzhikar_come_back_in(&slides, NULL, NULL);
 *       if (reason != DONZHIKAR_DONE)
 *           return failed("come back", reason);
 *       uint32_t batch;
 *       reason = donzhikar_begin_in(&slides, &batch);
 *       if (reason == DONZHIKAR_DONE)
 *           reason = donzhikar_list_in(&slides, batch, print, NULL);
 *       if (reason == DONZHIKAR_DONE)
 *           reason = donzhikar_abort_in(&slides, batch);
 *       return reason == DONZHIKAR_DONE ? 0 : failed("list", reason);
 *   }
 */
#ifndef DONZHIKAR_H
#define DONZHIKAR_H

#include <stddef.h>
#include <stdint.h>

#ifdef __cplusplus
extern "C" {
#endif

#define DONZHIKAR_VERSION "1.4.0"

#define DONZHIKAR_PAGE_BYTES 128
#define DONZHIKAR_SLOT_BYTES 144
#define DONZHIKAR_DESK_BYTES 136
#define DONZHIKAR_VALUES_BYTES 8
#define DONZHIKAR_FEWEST_PAGES 16
#define DONZHIKAR_MOST_PAGES 896
#define DONZHIKAR_FEWEST_SLOTS 64
#define DONZHIKAR_MOST_SLOTS 16384
#define DONZHIKAR_MOST_LOADED 8040

/* What a call returns. */
#define DONZHIKAR_DONE 0
#define DONZHIKAR_ERROR_LENGTHS 1
#define DONZHIKAR_ERROR_PAGE_NUMBER 2
#define DONZHIKAR_ERROR_DAMAGED_PAGE 3
#define DONZHIKAR_ERROR_DAMAGED_LOG 4
#define DONZHIKAR_ERROR_PAGE_AND_LOG_DISAGREE 5
#define DONZHIKAR_ERROR_DAMAGED_TREE 6
#define DONZHIKAR_ERROR_UNREAD_LABEL 7
#define DONZHIKAR_ERROR_COLUMNS_DIFFER 8
#define DONZHIKAR_ERROR_KEYS_NOT_RISING 9
#define DONZHIKAR_ERROR_NOT_SOUND 11
#define DONZHIKAR_ERROR_NO_SUCH_BATCH 12
#define DONZHIKAR_ERROR_EIGHT_BATCHES_OPEN 13
#define DONZHIKAR_ERROR_HELD_BY_ANOTHER 14
#define DONZHIKAR_ERROR_ALREADY_PRESENT 15
#define DONZHIKAR_ERROR_ABSENT 16
#define DONZHIKAR_ERROR_SLOTS_SHORT 17
#define DONZHIKAR_ERROR_PAGES_SHORT 18
#define DONZHIKAR_ERROR_ABORT_STOPPED 19
#define DONZHIKAR_ERROR_NO_SUCH_MARK 20

/* What an insert or delete needs of what is left, and what a begin needs (donzhikar_slots_left, donzhikar_pages_left). */
#define DONZHIKAR_UPDATE_NEEDS_SLOTS 64
#define DONZHIKAR_UPDATE_NEEDS_PAGES 14
#define DONZHIKAR_BEGIN_NEEDS_SLOTS 3

/* The answer's first value (which is 0) or second one (which is 1), out of `values`. */
static inline uint32_t donzhikar_value(const uint8_t *values, int which)
{
    const uint8_t *at = values + 4 * which;
    const uint32_t first = at[0], second = at[1], third = at[2], fourth = at[3];
    return first << 24 | second << 16 | third << 8 | fourth;
}

/* A reason in words. */
static inline const char *donzhikar_text(uint32_t reason)
{
    switch (reason) {
    case DONZHIKAR_DONE: return "done";
    case DONZHIKAR_ERROR_LENGTHS: return "the lengths of what was lent are wrong or unequal";
    case DONZHIKAR_ERROR_PAGE_NUMBER: return "there is no page of this number";
    case DONZHIKAR_ERROR_DAMAGED_PAGE: return "a stored page is damaged";
    case DONZHIKAR_ERROR_DAMAGED_LOG: return "the stored log is damaged, or a page is ahead of it";
    case DONZHIKAR_ERROR_PAGE_AND_LOG_DISAGREE: return "a stored page and the log do not agree";
    case DONZHIKAR_ERROR_DAMAGED_TREE: return "the stored pages make no tree, or do not agree with the open batches";
    case DONZHIKAR_ERROR_UNREAD_LABEL: return "key 0 stands for an unread label";
    case DONZHIKAR_ERROR_COLUMNS_DIFFER: return "the two columns differ in length";
    case DONZHIKAR_ERROR_KEYS_NOT_RISING: return "the keys do not rise";
    case DONZHIKAR_ERROR_NOT_SOUND: return "the working areas or the desk are not what calls leave; after a power failure, restart";
    case DONZHIKAR_ERROR_NO_SUCH_BATCH: return "no such batch is open";
    case DONZHIKAR_ERROR_EIGHT_BATCHES_OPEN: return "eight batches are open";
    case DONZHIKAR_ERROR_HELD_BY_ANOTHER: return "another open batch has changed this slide, or one on the way to it";
    case DONZHIKAR_ERROR_ALREADY_PRESENT: return "the slide is there already";
    case DONZHIKAR_ERROR_ABSENT: return "there is no such slide, or none above or below";
    case DONZHIKAR_ERROR_SLOTS_SHORT: return "log slots are short";
    case DONZHIKAR_ERROR_PAGES_SHORT: return "pages are short";
    case DONZHIKAR_ERROR_ABORT_STOPPED: return "an abort or a return ran out of slots or pages";
    case DONZHIKAR_ERROR_NO_SUCH_MARK: return "the mark is not the number of a record of that batch";
    default: return "no reason of the register";
    }
}

/* Empties all four areas to a register without slides, and gives an empty desk. What the areas and the desk held before does not matter.
 * A power failure during a format leaves stable areas of which nothing is promised: format again.
 * Refused: 1. Stores. */
uint32_t donzhikar_format(
    uint8_t *work_pages, size_t work_pages_length, uint8_t *stable_pages, size_t stable_pages_length,
    uint8_t *work_log, size_t work_log_length, uint8_t *stable_log, size_t stable_log_length,
    uint8_t *desk, size_t desk_length, uint8_t *values, size_t values_length);

/* Makes a register of the slides in two columns, and gives an empty desk: key i of `keys`, by rising number, has value i of `slide_values`. The
 * lengths count numbers, not bytes. The columns are only read; they overlap none of the areas, and are not null where they are empty. What the
 * areas and the desk held before does not matter. Empty columns give what format gives. See IMPORTING.
 * Refused: 1, 8, 7, 9, 18, in this order. Stores. */
uint32_t donzhikar_load(
    uint8_t *work_pages, size_t work_pages_length, uint8_t *stable_pages, size_t stable_pages_length,
    uint8_t *work_log, size_t work_log_length, uint8_t *stable_log, size_t stable_log_length,
    uint8_t *desk, size_t desk_length, uint8_t *values, size_t values_length,
    const uint32_t *keys, size_t keys_length, const uint32_t *slide_values, size_t slide_values_length);

/* Opens a batch. First value: its number, which is never 0. At most eight are open at a time.
 * Refused: 1, 11, 13, 17. */
uint32_t donzhikar_begin(
    const uint8_t *work_pages, size_t work_pages_length, const uint8_t *stable_pages, size_t stable_pages_length,
    uint8_t *work_log, size_t work_log_length, const uint8_t *stable_log, size_t stable_log_length,
    uint8_t *desk, size_t desk_length, uint8_t *values, size_t values_length);

/* Looks a key up, for an open batch. First value: the key's value.
 * Refused: 1, 11, 12, 14, 16. */
uint32_t donzhikar_fetch(
    const uint8_t *work_pages, size_t work_pages_length, const uint8_t *stable_pages, size_t stable_pages_length,
    const uint8_t *work_log, size_t work_log_length, const uint8_t *stable_log, size_t stable_log_length,
    uint8_t *desk, size_t desk_length, uint8_t *values, size_t values_length,
    uint32_t batch, uint32_t key);

/* Finds the first slide whose key is above `key`, for an open batch. First value: its key; second value: its value. So it never finds key 0,
 * which is above none: fetch does.
 * Refused: 1, 11, 12, 14, 16. */
uint32_t donzhikar_next(
    const uint8_t *work_pages, size_t work_pages_length, const uint8_t *stable_pages, size_t stable_pages_length,
    const uint8_t *work_log, size_t work_log_length, const uint8_t *stable_log, size_t stable_log_length,
    uint8_t *desk, size_t desk_length, uint8_t *values, size_t values_length,
    uint32_t batch, uint32_t key);

/* Finds the last slide whose key is below `key`, for an open batch: next, the other way. First value: its key; second value: its value. It finds
 * a slide that an earlier version filed under key 0, and never key 4294967295, which is below none: fetch does.
 * Refused: 1, 11, 12, 14, 16, in this order; below key 0 never 14. */
uint32_t donzhikar_previous(
    const uint8_t *work_pages, size_t work_pages_length, const uint8_t *stable_pages, size_t stable_pages_length,
    const uint8_t *work_log, size_t work_log_length, const uint8_t *stable_log, size_t stable_log_length,
    uint8_t *desk, size_t desk_length, uint8_t *values, size_t values_length,
    uint32_t batch, uint32_t key);

/* Files a slide, in an open batch. Every key but 0, and every value, is allowed.
 * Refused: 1, 7, 11, 12, 14, 15, 17, 18. */
uint32_t donzhikar_insert(
    uint8_t *work_pages, size_t work_pages_length, const uint8_t *stable_pages, size_t stable_pages_length,
    uint8_t *work_log, size_t work_log_length, const uint8_t *stable_log, size_t stable_log_length,
    uint8_t *desk, size_t desk_length, uint8_t *values, size_t values_length,
    uint32_t batch, uint32_t key, uint32_t value);

/* Takes a slide out, in an open batch.
 * Refused: 1, 11, 12, 14, 16, 17, 18. */
uint32_t donzhikar_delete(
    uint8_t *work_pages, size_t work_pages_length, const uint8_t *stable_pages, size_t stable_pages_length,
    uint8_t *work_log, size_t work_log_length, const uint8_t *stable_log, size_t stable_log_length,
    uint8_t *desk, size_t desk_length, uint8_t *values, size_t values_length,
    uint32_t batch, uint32_t key);

/* Asks an open batch for a mark (TRAYS). First value: the number of the batch's latest log record, which is never 0.
 * Refused: 1, 11, 12. */
uint32_t donzhikar_mark(
    const uint8_t *work_pages, size_t work_pages_length, const uint8_t *stable_pages, size_t stable_pages_length,
    const uint8_t *work_log, size_t work_log_length, const uint8_t *stable_log, size_t stable_log_length,
    uint8_t *desk, size_t desk_length, uint8_t *values, size_t values_length,
    uint32_t batch);

/* Takes back what an open batch changed after a mark, newest first. The batch stays open. Where it changed nothing since, nothing is written.
 * Refused: 1, 11, 12, 20, 19. */
uint32_t donzhikar_return(
    uint8_t *work_pages, size_t work_pages_length, const uint8_t *stable_pages, size_t stable_pages_length,
    uint8_t *work_log, size_t work_log_length, const uint8_t *stable_log, size_t stable_log_length,
    uint8_t *desk, size_t desk_length, uint8_t *values, size_t values_length,
    uint32_t batch, uint32_t mark);

/* Ends a batch whose changes stay. Once the call has returned 0 and its stores are there, no power failure takes them back.
 * Refused: 1, 11, 12. Stores. */
uint32_t donzhikar_commit(
    const uint8_t *work_pages, size_t work_pages_length, const uint8_t *stable_pages, size_t stable_pages_length,
    uint8_t *work_log, size_t work_log_length, uint8_t *stable_log, size_t stable_log_length,
    uint8_t *desk, size_t desk_length, uint8_t *values, size_t values_length,
    uint32_t batch);

/* Ends a batch whose changes are taken back, newest first.
 * Refused: 1, 11, 12, 19. */
uint32_t donzhikar_abort(
    uint8_t *work_pages, size_t work_pages_length, const uint8_t *stable_pages, size_t stable_pages_length,
    uint8_t *work_log, size_t work_log_length, const uint8_t *stable_log, size_t stable_log_length,
    uint8_t *desk, size_t desk_length, uint8_t *values, size_t values_length,
    uint32_t batch);

/* Stores the log and then one working page, counted from 0. No slide's safety rests on it: it saves a later restart the redoing.
 * Refused: 1, 2, 11. Stores. */
uint32_t donzhikar_write_out(
    const uint8_t *work_pages, size_t work_pages_length, uint8_t *stable_pages, size_t stable_pages_length,
    const uint8_t *work_log, size_t work_log_length, uint8_t *stable_log, size_t stable_log_length,
    uint8_t *desk, size_t desk_length, uint8_t *values, size_t values_length,
    uint32_t page);

/* Brings the register back after a power failure, from the stable areas alone: what the working areas and the desk held does not matter.
 * The slides of every batch whose commit was stored are there, in full, and those of no other. No batch is open afterwards.
 * First value: the number of batches that were open and that it ended; second value: the number of page changes that it redid.
 * A restart that a power failure cuts is made again. After 17 or 18 it may be made again with longer areas, the added part zero.
 * Refused: 1, 3, 4, 5, 6, 17, 18. Stores. */
uint32_t donzhikar_restart(
    uint8_t *work_pages, size_t work_pages_length, const uint8_t *stable_pages, size_t stable_pages_length,
    uint8_t *work_log, size_t work_log_length, uint8_t *stable_log, size_t stable_log_length,
    uint8_t *desk, size_t desk_length, uint8_t *values, size_t values_length);


/* ---- one register as one argument
 *
 * Fill in the four areas and the two counts, and leave the rest zero (as a static variable is). A register is moved or copied as the struct
 * and its areas together. */
struct donzhikar {
    uint8_t *work_pages, *stable_pages; /* each of 128 bytes for each of the pages */
    size_t pages;
    uint8_t *work_log, *stable_log; /* each of 144 bytes for each of the slots */
    size_t slots;
    uint8_t desk[DONZHIKAR_DESK_BYTES];     /* the register's own; leave it alone between calls */
    uint8_t values[DONZHIKAR_VALUES_BYTES]; /* the last answer */
};

/* The twelve arguments of the functions above. */
#define DONZHIKAR_LENT(r)                                                                                          \
    (r)->work_pages, (r)->pages * DONZHIKAR_PAGE_BYTES, (r)->stable_pages, (r)->pages * DONZHIKAR_PAGE_BYTES,      \
        (r)->work_log, (r)->slots * DONZHIKAR_SLOT_BYTES, (r)->stable_log, (r)->slots * DONZHIKAR_SLOT_BYTES,      \
        (r)->desk, sizeof (r)->desk, (r)->values, sizeof (r)->values

/* An answer's value, where one is asked for: after a refusal it is 0. */
static inline void donzhikar_give(const struct donzhikar *r, int which, uint32_t *to)
{
    if (to != NULL)
        *to = donzhikar_value(r->values, which);
}

static inline uint32_t donzhikar_format_in(struct donzhikar *r)
{
    return donzhikar_format(DONZHIKAR_LENT(r));
}

/* As many slides in both columns. */
static inline uint32_t donzhikar_load_in(struct donzhikar *r, const uint32_t *keys, const uint32_t *slide_values, size_t slides)
{
    return donzhikar_load(DONZHIKAR_LENT(r), keys, slides, slide_values, slides);
}

/* Pointers to answers may be NULL here and below. */
static inline uint32_t donzhikar_begin_in(struct donzhikar *r, uint32_t *batch)
{
    const uint32_t reason = donzhikar_begin(DONZHIKAR_LENT(r));
    donzhikar_give(r, 0, batch);
    return reason;
}

static inline uint32_t donzhikar_fetch_in(struct donzhikar *r, uint32_t batch, uint32_t key, uint32_t *value)
{
    const uint32_t reason = donzhikar_fetch(DONZHIKAR_LENT(r), batch, key);
    donzhikar_give(r, 0, value);
    return reason;
}

static inline uint32_t donzhikar_next_in(struct donzhikar *r, uint32_t batch, uint32_t key, uint32_t *next_key, uint32_t *value)
{
    const uint32_t reason = donzhikar_next(DONZHIKAR_LENT(r), batch, key);
    donzhikar_give(r, 0, next_key);
    donzhikar_give(r, 1, value);
    return reason;
}

static inline uint32_t donzhikar_previous_in(struct donzhikar *r, uint32_t batch, uint32_t key, uint32_t *previous_key, uint32_t *value)
{
    const uint32_t reason = donzhikar_previous(DONZHIKAR_LENT(r), batch, key);
    donzhikar_give(r, 0, previous_key);
    donzhikar_give(r, 1, value);
    return reason;
}

static inline uint32_t donzhikar_insert_in(struct donzhikar *r, uint32_t batch, uint32_t key, uint32_t value)
{
    return donzhikar_insert(DONZHIKAR_LENT(r), batch, key, value);
}

static inline uint32_t donzhikar_delete_in(struct donzhikar *r, uint32_t batch, uint32_t key)
{
    return donzhikar_delete(DONZHIKAR_LENT(r), batch, key);
}

static inline uint32_t donzhikar_mark_in(struct donzhikar *r, uint32_t batch, uint32_t *mark)
{
    const uint32_t reason = donzhikar_mark(DONZHIKAR_LENT(r), batch);
    donzhikar_give(r, 0, mark);
    return reason;
}

static inline uint32_t donzhikar_return_in(struct donzhikar *r, uint32_t batch, uint32_t mark)
{
    return donzhikar_return(DONZHIKAR_LENT(r), batch, mark);
}

static inline uint32_t donzhikar_commit_in(struct donzhikar *r, uint32_t batch)
{
    return donzhikar_commit(DONZHIKAR_LENT(r), batch);
}

static inline uint32_t donzhikar_abort_in(struct donzhikar *r, uint32_t batch)
{
    return donzhikar_abort(DONZHIKAR_LENT(r), batch);
}

static inline uint32_t donzhikar_write_out_in(struct donzhikar *r, uint32_t page)
{
    return donzhikar_write_out(DONZHIKAR_LENT(r), page);
}

static inline uint32_t donzhikar_restart_in(struct donzhikar *r, uint32_t *ended, uint32_t *redone)
{
    const uint32_t reason = donzhikar_restart(DONZHIKAR_LENT(r));
    donzhikar_give(r, 0, ended);
    donzhikar_give(r, 1, redone);
    return reason;
}

/* ---- what is left, from the desk and the map, after any call that returned 0 */

/* The desk has eight rows of four numbers (batch, last record, next to undo, pending), then the number of slots used. */
static inline size_t donzhikar_pending(const struct donzhikar *r)
{
    size_t pending = 0;
    for (int row = 0; row < 8; row++)
        pending += donzhikar_value(r->desk, 4 * row + 3);
    return pending;
}

/* Slots beyond those used and those kept for open batches. An insert or delete needs 64 of them and takes 33 to 64, of which it gives 32
 * back when its batch ends or takes it back, less the 1 to 32 that an undo writes; a begin needs and takes 3. So at least slots / 64 more
 * updates of open batches are taken, and at most (slots - 31) / 33. */
static inline size_t donzhikar_slots_left(const struct donzhikar *r)
{
    size_t taken = donzhikar_value(r->desk, 32) + 32 * donzhikar_pending(r);
    for (int row = 0; row < 8; row++)
        taken += donzhikar_value(r->desk, 4 * row) != 0 ? 2 : 0;
    return taken < r->slots ? r->slots - taken : 0;
}

/* Free pages beyond those kept for open batches. An insert or delete needs 14 of them and takes 7 to 14, of which it gives 7 back when its
 * batch ends or takes it back, less those that an undo takes. */
static inline size_t donzhikar_pages_left(const struct donzhikar *r)
{
    size_t taken = 7 * donzhikar_pending(r);
    for (size_t page = 0; page < r->pages; page++)
        taken += r->work_pages[16 + page / 8] >> (7 - page % 8) & 1;
    return taken < r->pages ? r->pages - taken : 0;
}

/* How many more inserts and deletes the open batches are sure to take, whatever their keys. Usually it is nearly twice as many. */
static inline size_t donzhikar_updates_left(const struct donzhikar *r)
{
    const size_t by_slots = donzhikar_slots_left(r) / DONZHIKAR_UPDATE_NEEDS_SLOTS;
    const size_t by_pages = donzhikar_pages_left(r) / DONZHIKAR_UPDATE_NEEDS_PAGES;
    return by_slots < by_pages ? by_slots : by_pages;
}

/* ---- the loops that everyone writes */

/* Gives all slides to `take`, by rising key, as an open batch sees them, until it returns other than 0. Key 0, of an earlier version, is
 * looked up by fetch, as no key is below it; the others come by next. Returns 0 at the end, or the refusal: at 14 another open batch has
 * changed a slide further on.
 * Wait until that batch has ended, and list again from the start. A program with one batch at a time does not meet it. */
static inline uint32_t donzhikar_list_in(
    struct donzhikar *r, uint32_t batch, int (*take)(void *with, uint32_t key, uint32_t value), void *with)
{
    uint32_t key = 0, value = 0;
    uint32_t reason = donzhikar_fetch_in(r, batch, key, &value);
    if (reason == DONZHIKAR_ERROR_ABSENT)
        reason = donzhikar_next_in(r, batch, 0, &key, &value);
    while (reason == DONZHIKAR_DONE) {
        if (take(with, key, value) != 0)
            return DONZHIKAR_DONE;
        reason = donzhikar_next_in(r, batch, key, &key, &value);
    }
    return reason == DONZHIKAR_ERROR_ABSENT ? DONZHIKAR_DONE : reason;
}

/* The same by falling key, from the other end of the rack. Key 4294967295 is looked up by fetch, as no key is above it. At 14 another open
 * batch has changed a slide further down. */
static inline uint32_t donzhikar_list_back_in(
    struct donzhikar *r, uint32_t batch, int (*take)(void *with, uint32_t key, uint32_t value), void *with)
{
    uint32_t key = UINT32_MAX, value = 0;
    uint32_t reason = donzhikar_fetch_in(r, batch, key, &value);
    if (reason == DONZHIKAR_ERROR_ABSENT)
        reason = donzhikar_previous_in(r, batch, key, &key, &value);
    while (reason == DONZHIKAR_DONE) {
        if (take(with, key, value) != 0)
            return DONZHIKAR_DONE;
        reason = donzhikar_previous_in(r, batch, key, &key, &value);
    }
    return reason == DONZHIKAR_ERROR_ABSENT ? DONZHIKAR_DONE : reason;
}

struct donzhikar_slide {
    uint32_t key, value;
};

/* Inserts slides in an open batch, until one is refused. */
static inline uint32_t donzhikar_insert_each_in(struct donzhikar *r, uint32_t batch, const struct donzhikar_slide *slides, size_t count)
{
    uint32_t reason = DONZHIKAR_DONE;
    for (size_t slide = 0; slide < count && reason == DONZHIKAR_DONE; slide++)
        reason = donzhikar_insert_in(r, batch, slides[slide].key, slides[slide].value);
    return reason;
}

/* One try to file a case, all of its slides or none, in a batch of its own. */
static inline uint32_t donzhikar_try_to_file_in(struct donzhikar *r, const struct donzhikar_slide *slides, size_t count)
{
    uint32_t batch = 0;
    uint32_t reason = donzhikar_begin_in(r, &batch);
    if (reason != DONZHIKAR_DONE)
        return reason;
    reason = donzhikar_insert_each_in(r, batch, slides, count);
    if (reason == DONZHIKAR_DONE)
        return donzhikar_commit_in(r, batch);
    donzhikar_abort_in(r, batch);
    return reason;
}

/* Files a case, all of its slides or none. Returns 0 when it is committed; else the refusal, and nothing of it is filed.
 * 13 and 14 pass when other batches end: `wait` is to let them, and while it returns 0 the case is tried again. With NULL it is tried once.
 * Each try costs slots, so wait for something. 7: a slide's label was not read. 15: a slide of the case is there already. 17 and 18: commit
 * or abort other batches; else the register is full, or the case is too large (HOW MUCH FITS). The host has yet to see to it that the stores
 * are there (WHAT THE HOST MUST GUARANTEE). */
static inline uint32_t donzhikar_file_in(
    struct donzhikar *r, const struct donzhikar_slide *slides, size_t count, int (*wait)(void *with), void *with)
{
    uint32_t reason;
    do
        reason = donzhikar_try_to_file_in(r, slides, count);
    while ((reason == DONZHIKAR_ERROR_EIGHT_BATCHES_OPEN || reason == DONZHIKAR_ERROR_HELD_BY_ANOTHER) && wait != NULL && wait(with) == 0);
    return reason;
}

/* Files a tray in an open batch, all of its slides or none. Returns 0, or the refusal: then what was filed of the tray is taken back, and the
 * batch is open with the trays before. `mark` gets the mark from before the tray, so that it can still be taken back when it is filed
 * (donzhikar_return_in). 14 passes when the other batch ends; then, or with another tray, the call may be made again. Each try costs slots. 17
 * and 18: as for donzhikar_file_in; the batch with the trays before may still be committed. */
static inline uint32_t donzhikar_file_tray_in(
    struct donzhikar *r, uint32_t batch, const struct donzhikar_slide *slides, size_t count, uint32_t *mark)
{
    uint32_t before = 0;
    uint32_t reason = donzhikar_mark_in(r, batch, &before);
    if (mark != NULL)
        *mark = before;
    if (reason != DONZHIKAR_DONE)
        return reason;
    reason = donzhikar_insert_each_in(r, batch, slides, count);
    if (reason != DONZHIKAR_DONE)
        donzhikar_return_in(r, batch, before);
    return reason;
}

/* Comes back after a power failure (COMING BACK), or starts. At 17 and 18 `lend_more` is to lend longer areas, the added part zero, by changing
 * the struct, and while it returns 0 the restart is made again; with NULL it is made once. Returns what the last restart does. */
static inline uint32_t donzhikar_come_back_in(struct donzhikar *r, int (*lend_more)(void *with, struct donzhikar *r), void *with)
{
    uint32_t reason;
    do
        reason = donzhikar_restart_in(r, NULL, NULL);
    while ((reason == DONZHIKAR_ERROR_SLOTS_SHORT || reason == DONZHIKAR_ERROR_PAGES_SHORT) && lend_more != NULL && lend_more(with, r) == 0);
    return reason;
}

#ifdef __cplusplus
}
#endif

#endif
