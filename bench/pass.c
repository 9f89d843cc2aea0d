/* The pass. It stands in a file of its own so that the compiler cannot leave it out where it is called. */
#include "pass.h"
#include <string.h>

enum { PARTS = 3 };

/* The bytes of part i. Pages are 128 bytes and slots 144, so every part is whole words. */
static struct area part_of(const struct scene *scene, int i)
{
    static const int which[PARTS] = { WORK_PAGES, WORK_LOG, STABLE_LOG };
    struct area part = scene->in.areas[which[i]];
    if (which[i] == STABLE_LOG)
        part.length = (size_t)stored(scene) * DONZHIKAR_SLOT_BYTES;
    return part;
}

int pass_compare(const struct scene *scene, const struct scene *copy)
{
    int differ = 0;
    for (int i = 0; i < PARTS; i++) {
        struct area part = part_of(scene, i);
        differ |= memcmp(part.bytes, part_of(copy, i).bytes, part.length) != 0;
    }
    return differ;
}

static uint64_t sum_of(struct area part)
{
    uint64_t sum = 0, word;
    for (size_t at = 0; at < part.length; at += sizeof word) {
        memcpy(&word, part.bytes + at, sizeof word);
        sum += word;
    }
    return sum;
}

uint64_t pass_sum(const struct scene *scene)
{
    uint64_t sum = 0;
    for (int i = 0; i < PARTS; i++)
        sum += sum_of(part_of(scene, i));
    return sum;
}

size_t pass_bytes(const struct scene *scene)
{
    size_t bytes = 0;
    for (int i = 0; i < PARTS; i++)
        bytes += part_of(scene, i).length;
    return bytes;
}
