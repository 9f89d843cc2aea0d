/* The instrument: lends, calls, and loses its power. */
#include "instrument.h"
#include <stdio.h>
#include <stdlib.h>
#include <string.h>

enum { AFTER_CUT = 0xA5, STORED_AT = 132 };

/* The arguments that every call takes first. */
#define LENT                                                                                                               \
    in->areas[WORK_PAGES].bytes, in->areas[WORK_PAGES].length, in->areas[STABLE_PAGES].bytes, in->areas[STABLE_PAGES].length, \
        in->areas[WORK_LOG].bytes, in->areas[WORK_LOG].length, in->areas[STABLE_LOG].bytes, in->areas[STABLE_LOG].length,    \
        in->desk, sizeof in->desk, in->values, sizeof in->values

uint32_t number_at(const uint8_t *bytes, size_t at)
{
    const uint8_t *b = bytes + at;
    return (uint32_t)b[0] << 24 | (uint32_t)b[1] << 16 | (uint32_t)b[2] << 8 | (uint32_t)b[3];
}

void lend(struct instrument *in, const size_t lengths[AREAS])
{
    for (int i = 0; i < AREAS; i++) {
        struct area *area = &in->areas[i];
        /* A pointer that is lent is not null, also where the length is 0. */
        uint8_t *bytes = realloc(area->bytes, lengths[i] == 0 ? 1 : lengths[i]);
        if (bytes == NULL) {
            fputs("no memory\n", stderr);
            exit(2);
        }
        if (lengths[i] > area->length)
            memset(bytes + area->length, 0, lengths[i] - area->length);
        area->bytes = bytes;
        area->length = lengths[i];
    }
}

void lend_parts(struct instrument *in, size_t pages, size_t slots)
{
    const size_t lengths[AREAS] = {
        pages * DONZHIKAR_PAGE_BYTES,
        pages * DONZHIKAR_PAGE_BYTES,
        slots * DONZHIKAR_SLOT_BYTES,
        slots * DONZHIKAR_SLOT_BYTES,
    };
    lend(in, lengths);
}

void give_back(struct instrument *in)
{
    for (int i = 0; i < AREAS; i++)
        free(in->areas[i].bytes);
    memset(in, 0, sizeof *in);
}

int numbers_of(char letter)
{
    switch (letter) {
    case 'Z': case 'O': case 'B': case 'R': return 0;
    case 'C': case 'A': case 'M': case 'W': return 1;
    case 'F': case 'N': case 'V': case 'D': case 'T': return 2;
    case 'I': return 3;
    default: return -1;
    }
}

uint32_t make(struct instrument *in, struct call made)
{
    const uint32_t *n = made.numbers;
    const struct columns *c = &in->columns;
    switch (made.letter) {
    case 'Z': return donzhikar_format(LENT);
    case 'O': return donzhikar_load(LENT, c->keys, c->keys_length, c->values, c->values_length);
    case 'B': return donzhikar_begin(LENT);
    case 'F': return donzhikar_fetch(LENT, n[0], n[1]);
    case 'N': return donzhikar_next(LENT, n[0], n[1]);
    case 'V': return donzhikar_previous(LENT, n[0], n[1]);
    case 'I': return donzhikar_insert(LENT, n[0], n[1], n[2]);
    case 'D': return donzhikar_delete(LENT, n[0], n[1]);
    case 'C': return donzhikar_commit(LENT, n[0]);
    case 'A': return donzhikar_abort(LENT, n[0]);
    case 'M': return donzhikar_mark(LENT, n[0]);
    case 'T': return donzhikar_return(LENT, n[0], n[1]);
    case 'W': return donzhikar_write_out(LENT, n[0]);
    default: return donzhikar_restart(LENT);
    }
}

static size_t full_slots(const struct area *log)
{
    size_t n = 0;
    while ((n + 1) * DONZHIKAR_SLOT_BYTES <= log->length && log->bytes[n * DONZHIKAR_SLOT_BYTES] != 0)
        n++;
    return n;
}

/* Format and load store every page and then every slot. */
static int stores_all(char letter)
{
    return letter == 'Z' || letter == 'O';
}

size_t stores_of(const struct instrument *in, struct call made, uint32_t reason, const uint8_t *desk, const struct area *stable_log)
{
    if (reason != 0)
        return 0;
    size_t stored = number_at(in->desk, STORED_AT);
    if (stores_all(made.letter))
        return in->areas[STABLE_PAGES].length / DONZHIKAR_PAGE_BYTES + in->areas[STABLE_LOG].length / DONZHIKAR_SLOT_BYTES;
    switch (made.letter) {
    case 'C': return stored - number_at(desk, STORED_AT);
    case 'W': return stored - number_at(desk, STORED_AT) + 1;
    case 'R': return stored - full_slots(stable_log);
    default: return 0;
    }
}

static void put_back(struct area *area, const struct area *before, size_t size, size_t part)
{
    memcpy(area->bytes + size * part, before->bytes + size * part, size);
}

/* Store number i of a call that makes so many: format's and load's pages come first, write-out's page last, all others are slots. */
static void take_back(struct instrument *in, struct call made, size_t stores, size_t i, const struct area before[AREAS])
{
    size_t pages = stores_all(made.letter) ? in->areas[STABLE_PAGES].length / DONZHIKAR_PAGE_BYTES : 0;
    size_t last = number_at(in->desk, STORED_AT);
    if (i < pages)
        put_back(&in->areas[STABLE_PAGES], &before[STABLE_PAGES], DONZHIKAR_PAGE_BYTES, i);
    else if (stores_all(made.letter))
        put_back(&in->areas[STABLE_LOG], &before[STABLE_LOG], DONZHIKAR_SLOT_BYTES, i - pages);
    else if (made.letter == 'W' && i + 1 == stores)
        put_back(&in->areas[STABLE_PAGES], &before[STABLE_PAGES], DONZHIKAR_PAGE_BYTES, made.numbers[0]);
    else
        put_back(&in->areas[STABLE_LOG], &before[STABLE_LOG], DONZHIKAR_SLOT_BYTES, last - (stores - (made.letter == 'W')) + i);
}

void pull_plug(struct instrument *in, struct call made, size_t stores, size_t carried, const struct area before[AREAS])
{
    for (size_t i = carried; i < stores; i++)
        take_back(in, made, stores, i, before);
    memset(in->areas[WORK_PAGES].bytes, AFTER_CUT, in->areas[WORK_PAGES].length);
    memset(in->areas[WORK_LOG].bytes, AFTER_CUT, in->areas[WORK_LOG].length);
    memset(in->desk, AFTER_CUT, sizeof in->desk);
}

size_t answer_text(char *text, size_t size, char letter, uint32_t reason, const uint8_t *values)
{
    unsigned first = donzhikar_value(values, 0), second = donzhikar_value(values, 1);
    if (reason != 0)
        return (size_t)snprintf(text, size, "%u", (unsigned)reason);
    if (letter == 'B' || letter == 'F' || letter == 'M')
        return (size_t)snprintf(text, size, "0 %u", first);
    if (letter == 'N' || letter == 'V' || letter == 'R')
        return (size_t)snprintf(text, size, "0 %u %u", first, second);
    return (size_t)snprintf(text, size, "0");
}
