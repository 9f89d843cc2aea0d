/* Finding the last group, and choosing between the copies of a place. */
#include "group.h"
#include <string.h>

static int is_of(const struct last_group *last, const struct reading *place, int which)
{
    return place->is_whole[which] && place->of[which].number == last->is.number;
}

void group_note(struct last_group *last, const struct reading *place)
{
    for (int which = 0; which < COPIES; which++)
        if (place->is_whole[which] && place->of[which].number > last->is.number)
            *last = (struct last_group){ .is = place->of[which] };
    last->found += is_of(last, place, 0) || is_of(last, place, 1);
    last->has_second |= is_of(last, place, 1);
}

/* No group at all has no stores, and lacks none. */
static int is_cut(const struct last_group *last)
{
    return last->found < last->is.stores && !last->has_second;
}

int group_lacks_stores(const struct last_group *last)
{
    return last->found < last->is.stores && last->has_second;
}

/* The first copy is written first, so where both are whole it is the newer one. */
enum drive_finding group_take(const struct last_group *last, const struct reading *place, uint8_t bytes[DRIVE_PLACE_BYTES])
{
    int is_ahead = is_cut(last) && is_of(last, place, 0);
    int has_first = place->is_whole[0] && !is_ahead, has_second = place->is_whole[1];
    if (has_first || has_second)
        memcpy(bytes, place->bytes[has_first ? 0 : 1], DRIVE_PLACE_BYTES);
    if (is_ahead)
        return has_second ? DRIVE_FIRST_AHEAD : DRIVE_ONLY_AHEAD;
    if (!has_first)
        return has_second ? DRIVE_FIRST_DAMAGED : DRIVE_BOTH_DAMAGED;
    if (!has_second)
        return DRIVE_SECOND_DAMAGED;
    return memcmp(place->bytes[0], place->bytes[1], DRIVE_PLACE_BYTES) == 0 ? DRIVE_WHOLE : DRIVE_SECOND_BEHIND;
}
