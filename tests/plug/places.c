/* The example's drive without the register: prints what the places of a drive hold, then stores numbers in them, in groups drawn from a
 * seed, and reports each group. Usage: places FILE SEED FIRST COUNT, where FIRST is the first number stored and COUNT how many groups there
 * are. */
#include "group.h"
#include <stdio.h>
#include <stdlib.h>
#include <string.h>

enum { PLACES = 5, MOST_STORES = 4, NUMBERS = DRIVE_PLACE_BYTES / 4 };

/* A place is full of one number, so that parts of two stores never look like one. */
static void number_to(uint8_t bytes[DRIVE_PLACE_BYTES], uint32_t number)
{
    for (int i = 0; i < NUMBERS; i++)
        memcpy(bytes + 4 * i, &number, 4);
}

static void say(const char *what, uint32_t place, uint32_t number)
{
    printf("%s %u %u\n", what, (unsigned)place, (unsigned)number);
    fflush(stdout);
}

static void show(uint32_t place, const uint8_t bytes[DRIVE_PLACE_BYTES])
{
    uint32_t first, number;
    memcpy(&first, bytes, 4);
    for (int i = 1; i < NUMBERS; i++) {
        memcpy(&number, bytes + 4 * i, 4);
        if (number != first)
            say("torn", place, number);
    }
    say("holds", place, first);
}

static void start(struct drive *d, const char *path)
{
    uint8_t bytes[PLACES][DRIVE_PLACE_BYTES] = { { 0 } };
    struct reading readings[PLACES];
    struct last_group last = { .found = 0 };
    int found = drive_open(d, path);
    for (uint32_t place = 0; place < PLACES && found; place++) {
        drive_read(d, place, &readings[place]);
        group_note(&last, &readings[place]);
    }
    for (uint32_t place = 0; place < PLACES && found; place++)
        if (group_take(&last, &readings[place], bytes[place]) >= DRIVE_BOTH_DAMAGED || group_lacks_stores(&last))
            drive_fail("a place has no whole copy");
    for (uint32_t place = 0; place < PLACES; place++)
        drive_fill(d, place, bytes[place]);
    drive_name(d);
    for (uint32_t place = 0; place < PLACES; place++)
        show(place, bytes[place]);
}

static void say_each(const char *what, const struct drive_store *stores, uint32_t count, uint32_t first)
{
    for (uint32_t i = 0; i < count; i++)
        say(what, stores[i].place, first + i);
}

int main(int count, char **words)
{
    struct drive d;
    struct drive_store stores[MOST_STORES];
    if (count != 5)
        return 1;
    uint32_t drawn = (uint32_t)strtoul(words[2], NULL, 10), number = (uint32_t)strtoul(words[3], NULL, 10);
    start(&d, words[1]);
    for (uint32_t group = 0; group < (uint32_t)strtoul(words[4], NULL, 10); group++) {
        drawn = drawn * 1664525 + 1013904223;
        uint32_t size = 1 + (drawn >> 16) % MOST_STORES, place = drawn >> 20;
        for (uint32_t i = 0; i < size; i++) {
            stores[i].place = (place + 2 * i) % PLACES;
            number_to(stores[i].bytes, number + i);
        }
        say_each("storing", stores, size, number);
        drive_store(&d, stores, size);
        say_each("stored", stores, size, number);
        number += size;
    }
    drive_close(&d);
    return 0;
}
