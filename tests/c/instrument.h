/* An instrument over the C interface: the four areas, the desk and the answer's values, and the calls by their letters. */
#ifndef INSTRUMENT_H
#define INSTRUMENT_H

#include "donzhikar.h"
#include <stddef.h>
#include <stdint.h>

enum { WORK_PAGES, STABLE_PAGES, WORK_LOG, STABLE_LOG, AREAS };

struct area {
    uint8_t *bytes;
    size_t length;
};

/* What a load is lent besides: numbers of 32 bits, and how many there are of each. */
struct columns {
    const uint32_t *keys;
    size_t keys_length;
    const uint32_t *values;
    size_t values_length;
};

struct instrument {
    struct area areas[AREAS];
    uint8_t desk[DONZHIKAR_DESK_BYTES];
    uint8_t values[DONZHIKAR_VALUES_BYTES];
    struct columns columns;
};

/* A call by its letter: Z format, O load of the instrument's columns, B begin, F fetch, N next, I insert, D delete, C commit, A abort, M mark,
 * T return to a mark, W write-out, R restart. */
struct call {
    char letter;
    uint32_t numbers[3];
};

/* Areas of these lengths in bytes. What is added is zero. */
void lend(struct instrument *in, const size_t lengths[AREAS]);

/* The areas of so many pages and slots. */
void lend_parts(struct instrument *in, size_t pages, size_t slots);

void give_back(struct instrument *in);

uint32_t make(struct instrument *in, struct call made);

/* How many of its stores a call carried out that returned `reason`, where the desk and the stable log were as given before it. */
size_t stores_of(const struct instrument *in, struct call made, uint32_t reason, const uint8_t *desk, const struct area *stable_log);

/* The power fails after so many of a call's stores: the later ones are put back from what the stable areas were. */
void pull_plug(struct instrument *in, struct call made, size_t stores, size_t carried, const struct area before[AREAS]);

/* The answer as the console and the vectors print it: 0 and the answers, or the refusal. Returns the text's length. */
size_t answer_text(char *text, size_t size, char letter, uint32_t reason, const uint8_t *values);

uint32_t number_at(const uint8_t *bytes, size_t at);

/* How many numbers a call's letter takes, or -1 where there is no such call. A load takes its columns, and no number. */
int numbers_of(char letter);

#endif
