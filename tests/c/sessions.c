/* The worked sessions of document 01, and some of 02, over the C interface: one line each, with what was answered and what can be seen in the
 * areas. */
#include "instrument.h"
#include <stdio.h>
#include <string.h>

enum { PAGES = 256, SLOTS = 1024, CONSOLE_PAGES = 64, CONSOLE_SLOTS = 160 };
enum { RIGHT_AT = 0, ENTRIES_AT = 16, ENTRY_BYTES = 8, RECORD_NUMBER_AT = 4 };

static const uint32_t top = 4294967295u;

/* ---- calls */

static uint32_t ask(struct instrument *in, char letter, uint32_t a, uint32_t b, uint32_t c)
{
    return make(in, (struct call){ letter, { a, b, c } });
}

static struct instrument formatted(size_t pages, size_t slots)
{
    struct instrument in;
    memset(&in, 0, sizeof in);
    lend_parts(&in, pages, slots);
    printf("format %u", (unsigned)ask(&in, 'Z', 0, 0, 0));
    return in;
}

static uint32_t begin(struct instrument *in)
{
    uint32_t reason = ask(in, 'B', 0, 0, 0);
    printf(", begin %u %u", (unsigned)reason, (unsigned)donzhikar_value(in->values, 0));
    return donzhikar_value(in->values, 0);
}

static void say(struct instrument *in, const char *what, char letter, uint32_t a, uint32_t b, uint32_t c)
{
    char text[64];
    uint32_t reason = ask(in, letter, a, b, c);
    answer_text(text, sizeof text, letter, reason, in->values);
    printf(", %s: %s", what, text);
}

/* The power fails between two calls: a cut call of no stores. */
static void cut(struct instrument *in)
{
    pull_plug(in, (struct call){ 'F', { 0, 0, 0 } }, 0, 0, in->areas);
}

/* ---- what can be seen */

static const uint8_t *page_at(const struct instrument *in, size_t p)
{
    return in->areas[WORK_PAGES].bytes + p * DONZHIKAR_PAGE_BYTES;
}

static unsigned kind_of_page(const struct instrument *in, size_t p)
{
    return number_at(page_at(in, p), 0) >> 30;
}

static unsigned count_of_page(const struct instrument *in, size_t p)
{
    return number_at(page_at(in, p), 0) >> 22 & 15;
}

static unsigned right_of_page(const struct instrument *in, size_t p)
{
    return number_at(page_at(in, p), RIGHT_AT) >> 12 & 1023;
}

static void print_keys(const struct instrument *in, size_t p)
{
    for (size_t i = 0; i < count_of_page(in, p); i++)
        printf(" %u", (unsigned)number_at(page_at(in, p), ENTRIES_AT + ENTRY_BYTES * i));
}

static void print_record(const struct instrument *in, size_t number)
{
    const uint8_t *slot = in->areas[WORK_LOG].bytes + (number - 1) * DONZHIKAR_SLOT_BYTES;
    printf("; record %u is kind %u", (unsigned)number_at(slot, RECORD_NUMBER_AT), (unsigned)(number_at(slot, 0) >> 28));
}

/* ---- sessions */

static void nothing_found(void)
{
    const uint32_t keys[] = { 0, 1, 500, top };
    struct instrument in = formatted(PAGES, SLOTS);
    uint32_t batch = begin(&in);
    for (size_t i = 0; i < sizeof keys / sizeof keys[0]; i++)
        say(&in, "fetch", 'F', batch, keys[i], 0);
    say(&in, "next above top", 'N', batch, top, 0);
    give_back(&in);
}

static struct instrument fifteen(void)
{
    struct instrument in = formatted(PAGES, SLOTS);
    uint32_t batch = begin(&in), refused = 0;
    for (uint32_t key = 10; key <= 150; key += 10)
        refused += ask(&in, 'I', batch, key, key / 10) != 0;
    printf(", insert 10 to 150: %u refused", (unsigned)refused);
    return in;
}

static void split(void)
{
    struct instrument in = fifteen();
    printf("; root");
    print_keys(&in, 1);
    printf(" right link %u; page 255", right_of_page(&in, 1));
    print_keys(&in, 255);
    print_record(&in, 16);
    print_record(&in, 17);
    give_back(&in);
}

static struct instrument sixteen(void)
{
    struct instrument in = fifteen();
    say(&in, "insert 160", 'I', 1, 160, 16);
    return in;
}

static void raised(void)
{
    struct instrument in = sixteen();
    print_record(&in, 18);
    printf("; root entries");
    for (size_t i = 0; i < count_of_page(&in, 1); i++) {
        const uint8_t *entry = page_at(&in, 1) + ENTRIES_AT + ENTRY_BYTES * i;
        printf(" (%u, page %u)", (unsigned)number_at(entry, 0), (unsigned)number_at(entry, 4));
    }
    give_back(&in);
}

static void merged(void)
{
    struct instrument in = sixteen();
    for (uint32_t key = 10; key <= 40; key += 10)
        say(&in, "delete", 'D', 1, key, 0);
    uint32_t last = number_at(in.desk, 128);
    for (uint32_t number = last - 2; number <= last; number++)
        print_record(&in, number);
    printf("; page 255 is kind %u, page 254 holds %u", kind_of_page(&in, 255), count_of_page(&in, 254));
    give_back(&in);
}

static void held(void)
{
    struct instrument in = formatted(PAGES, SLOTS);
    uint32_t first = begin(&in), second = begin(&in);
    say(&in, "insert 5", 'I', first, 5, 1);
    say(&in, "another fetches 5", 'F', second, 5, 0);
    give_back(&in);
}

static void ninth(void)
{
    struct instrument in = formatted(PAGES, SLOTS);
    for (int i = 0; i < 9; i++)
        begin(&in);
    give_back(&in);
}

static void slots_short(void)
{
    for (size_t slots = 67; slots >= 66; slots--) {
        printf("%s%zu slots: ", slots == 67 ? "" : "; ", slots);
        struct instrument in = formatted(PAGES, slots);
        uint32_t batch = begin(&in);
        say(&in, "insert", 'I', batch, 1, 1);
        give_back(&in);
    }
}

static void pages_short(void)
{
    struct instrument in = formatted(16, SLOTS);
    uint32_t batch = begin(&in);
    say(&in, "insert", 'I', batch, 1, 1);
    say(&in, "insert", 'I', batch, 2, 2);
    give_back(&in);
}

static void lost(void)
{
    struct instrument in = formatted(PAGES, SLOTS);
    uint32_t batch = begin(&in);
    say(&in, "insert 5", 'I', batch, 5, 1);
    cut(&in);
    printf(", cut");
    say(&in, "restart", 'R', 0, 0, 0);
    batch = begin(&in);
    say(&in, "next above 0", 'N', batch, 0, 0);
    say(&in, "fetch 0", 'F', batch, 0, 0);
    give_back(&in);
}

static void console(void)
{
    struct instrument in = formatted(CONSOLE_PAGES, CONSOLE_SLOTS);
    begin(&in);
    say(&in, "I 1 500 7", 'I', 1, 500, 7);
    say(&in, "C 1", 'C', 1, 0, 0);
    begin(&in);
    say(&in, "D 4 500", 'D', 4, 500, 0);
    say(&in, "W 1", 'W', 1, 0, 0);
    cut(&in);
    say(&in, "X", 'R', 0, 0, 0);
    begin(&in);
    say(&in, "F 9 500", 'F', 9, 500, 0);
    give_back(&in);
}

/* Whether n bytes are what a refusal leaves of sevens: zeros in the first `zeroed`, and sevens after them. */
static int left(const uint8_t *bytes, size_t n, size_t zeroed)
{
    for (size_t i = 0; i < n; i++)
        if (bytes[i] != (i < zeroed ? 0 : 7))
            return 0;
    return 1;
}

/* 7 to an insert of key 0, whatever batch it names, and to no other call; also where the working areas are not sound. */
static void unread(void)
{
    struct instrument in = formatted(16, 128);
    uint32_t batch = begin(&in);
    say(&in, "insert 0", 'I', batch, 0, 5);
    say(&in, "of no batch", 'I', 9, 0, 5);
    say(&in, "insert 1", 'I', batch, 1, 5);
    say(&in, "fetch 0", 'F', batch, 0, 0);
    say(&in, "delete 0", 'D', batch, 0, 0);
    in.areas[WORK_PAGES].bytes[0] ^= 1;
    say(&in, "insert 0, unsound", 'I', batch, 0, 5);
    say(&in, "insert 2, unsound", 'I', batch, 2, 5);
    give_back(&in);
}

/* The third tray of a case is taken back. Its slides are no longer held, so another case files one of them. The first keeps the other trays,
 * and so does a restart after its commit. 20 to what is no record of the batch. */
static void three_trays(void)
{
    struct instrument in = formatted(PAGES, SLOTS);
    uint32_t batch = begin(&in);
    say(&in, "insert 10", 'I', batch, 10, 1);
    say(&in, "mark", 'M', batch, 0, 0);
    say(&in, "insert 20", 'I', batch, 20, 2);
    say(&in, "mark", 'M', batch, 0, 0);
    uint32_t mark = donzhikar_value(in.values, 0);
    say(&in, "insert 30", 'I', batch, 30, 3);
    say(&in, "delete 10", 'D', batch, 10, 0);
    uint32_t other = begin(&in);
    say(&in, "another fetches 30", 'F', other, 30, 0);
    say(&in, "return", 'T', batch, mark, 0);
    print_record(&in, 7);
    print_record(&in, 8);
    say(&in, "another fetches 30", 'F', other, 30, 0);
    say(&in, "and inserts it", 'I', other, 30, 4);
    say(&in, "mark", 'M', batch, 0, 0);
    say(&in, "return again", 'T', batch, mark, 0);
    say(&in, "mark", 'M', batch, 0, 0);
    say(&in, "return to another's record", 'T', batch, other, 0);
    say(&in, "to 0", 'T', batch, 0, 0);
    say(&in, "to none yet", 'T', batch, 10, 0);
    say(&in, "commit", 'C', batch, 0, 0);
    say(&in, "mark", 'M', batch, 0, 0);
    say(&in, "return", 'T', batch, mark, 0);
    cut(&in);
    printf(", cut");
    say(&in, "restart", 'R', 0, 0, 0);
    batch = begin(&in);
    say(&in, "next above 0", 'N', batch, 0, 0);
    say(&in, "above 10", 'N', batch, 10, 0);
    say(&in, "above 20", 'N', batch, 20, 0);
    give_back(&in);
}

/* Every length of the desk and the values but the right one is refused by 1. Values of 8 bytes become zeros, and by restart a desk of 136. */
static void wrong_lengths(void)
{
    struct instrument in = formatted(16, 64);
    uint8_t desk[DONZHIKAR_DESK_BYTES + 1], values[DONZHIKAR_VALUES_BYTES + 1];
    struct area *a = in.areas;
    unsigned refused = 0, right = 0;
    for (size_t d = 0; d <= sizeof desk; d++) {
        for (size_t v = 0; v <= sizeof values; v++) {
            const size_t zeroed = v == DONZHIKAR_VALUES_BYTES ? v : 0;
            if (d == DONZHIKAR_DESK_BYTES && v == DONZHIKAR_VALUES_BYTES)
                continue;
            memset(desk, 7, sizeof desk);
            memset(values, 7, sizeof values);
            refused += donzhikar_begin(a[WORK_PAGES].bytes, a[WORK_PAGES].length, a[STABLE_PAGES].bytes, a[STABLE_PAGES].length,
                           a[WORK_LOG].bytes, a[WORK_LOG].length, a[STABLE_LOG].bytes, a[STABLE_LOG].length, desk, d, values, v) == 1;
            right += left(desk, sizeof desk, 0) && left(values, sizeof values, zeroed);
            memset(values, 7, sizeof values);
            refused += donzhikar_restart(a[WORK_PAGES].bytes, a[WORK_PAGES].length, a[STABLE_PAGES].bytes, a[STABLE_PAGES].length,
                           a[WORK_LOG].bytes, a[WORK_LOG].length, a[STABLE_LOG].bytes, a[STABLE_LOG].length, desk, d, values, v) == 1;
            right += left(desk, sizeof desk, d == DONZHIKAR_DESK_BYTES ? d : 0) && left(values, sizeof values, zeroed);
        }
    }
    printf(", refused by 1: %u of %u, left as they must be: %u", refused, 2 * (138 * 10 - 1), right);
    give_back(&in);
}

static void session(const char *name, void (*run)(void))
{
    printf("%s: ", name);
    run();
    putchar('\n');
}

int main(void)
{
    session("nothing found", nothing_found);
    session("a split", split);
    session("a raise", raised);
    session("a merge", merged);
    session("a held key", held);
    session("a ninth begin", ninth);
    session("slots short", slots_short);
    session("pages short", pages_short);
    session("a cut", lost);
    session("the console's", console);
    session("key 0", unread);
    session("three trays", three_trays);
    session("desk and values of other lengths", wrong_lengths);
    return 0;
}
