/* The names of places, and a sentence for each finding. */
#include "damage.h"
#include <stdlib.h>

/* What is said while the drive is as it was found, and once it has been written anew. */
static const struct sentence {
    const char *as_found, *renewed;
} sentences[] = {
    [DRIVE_FIRST_DAMAGED] = { "the first copy is damaged; the second was taken", "the first copy was damaged and is repaired from the second" },
    [DRIVE_SECOND_DAMAGED] = { "the second copy is damaged; the first was taken", "the second copy was damaged and is repaired from the first" },
    [DRIVE_SECOND_BEHIND] = { "the second copy is behind; the first was taken", "the second copy was behind and is repaired from the first" },
    [DRIVE_FIRST_AHEAD] = { "the first copy is ahead; the second was taken", "the first copy was ahead and is repaired from the second" },
    [DRIVE_BOTH_DAMAGED] = { "the first copy is damaged, and so is the second", "" },
    [DRIVE_ONLY_AHEAD] = { "the first copy is ahead, and the second is damaged", "" },
};

/* Pages are counted from 0 and slots from 1, as records are. */
static void print_name(FILE *to, int place)
{
    if (place == COUNTS_PLACE)
        fprintf(to, "the counts (place %d)", place);
    else if (place < SLOT_PLACE)
        fprintf(to, "page %d (place %d)", place - PAGE_PLACE, place);
    else
        fprintf(to, "slot %d (place %d)", place - SLOT_PLACE + 1, place);
}

void damage_print(FILE *to, const struct image *im)
{
    for (int place = 0; place < PLACES; place++) {
        const struct sentence *sentence = &sentences[im->findings[place]];
        if (im->findings[place] == DRIVE_WHOLE)
            continue;
        fprintf(to, "drive: ");
        print_name(to, place);
        fprintf(to, ": %s\n", im->is_renewed ? sentence->renewed : sentence->as_found);
    }
}

void damage_ends(const struct image *im)
{
    int place = 0;
    while (place < PLACES && im->findings[place] < DRIVE_BOTH_DAMAGED)
        place++;
    if (place == PLACES)
        return;
    damage_print(stderr, im);
    fprintf(stderr, "drive: a place has no whole copy: docs/SERVICE.md says how to salvage the rest\n");
    exit(2);
}
