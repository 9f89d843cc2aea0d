/* Scenes: their numbers, their calls, their copies and their files. */
#include "scene.h"
#include <stdio.h>
#include <stdlib.h>
#include <string.h>

enum { ROWS = 8, ROW_BYTES = 16, PENDING_AT = 12, RECORDS_AT = 128, STORED_AT = 132, HEAD = 8 };

/* The last steps of MurmurHash3: each can be undone, so no two numbers give one key. */
uint32_t key_of(uint32_t i)
{
    uint32_t k = i + 1;
    k = (k ^ k >> 16) * 0x85ebca6bu;
    k = (k ^ k >> 13) * 0xc2b2ae35u;
    return k ^ k >> 16;
}

uint32_t records(const struct scene *scene)
{
    return number_at(scene->in.desk, RECORDS_AT);
}

uint32_t stored(const struct scene *scene)
{
    return number_at(scene->in.desk, STORED_AT);
}

/* Updates of open batches that are not undone. */
uint32_t pending(const struct scene *scene)
{
    uint32_t sum = 0;
    for (int row = 0; row < ROWS; row++)
        sum += number_at(scene->in.desk, (size_t)(ROW_BYTES * row + PENDING_AT));
    return sum;
}

uint32_t slots(const struct scene *scene)
{
    return (uint32_t)(scene->in.areas[WORK_LOG].length / DONZHIKAR_SLOT_BYTES);
}

uint32_t pages(const struct scene *scene)
{
    return (uint32_t)(scene->in.areas[WORK_PAGES].length / DONZHIKAR_PAGE_BYTES);
}

uint32_t must(struct scene *scene, char letter, uint32_t a, uint32_t b, uint32_t c)
{
    uint32_t reason = make(&scene->in, (struct call){ letter, { a, b, c } });
    if (reason != 0) {
        fprintf(stderr, "%c %u %u %u at %u records is refused: %u\n", letter, a, b, c, records(scene), reason);
        exit(1);
    }
    return donzhikar_value(scene->in.values, 0);
}

void lend_columns(struct scene *scene, uint32_t slides)
{
    static uint32_t keys[DONZHIKAR_MOST_LOADED], values[DONZHIKAR_MOST_LOADED];
    for (uint32_t i = 0; i < DONZHIKAR_MOST_LOADED; i++) {
        keys[i] = 5 * (i + 1);
        values[i] = 7;
    }
    scene->in.columns = (struct columns){ keys, slides, values, slides };
}

void copy_scene(struct scene *to, const struct scene *from)
{
    size_t lengths[AREAS];
    for (int i = 0; i < AREAS; i++)
        lengths[i] = from->in.areas[i].length;
    lend(&to->in, lengths);
    for (int i = 0; i < AREAS; i++)
        memcpy(to->in.areas[i].bytes, from->in.areas[i].bytes, lengths[i]);
    memcpy(to->in.desk, from->in.desk, sizeof to->in.desk);
    memcpy(to->in.values, from->in.values, sizeof to->in.values);
    to->in.columns = from->in.columns;
    to->oldest = from->oldest;
    to->newest = from->newest;
    to->next = from->next;
}

/* Ends the program where a file could not be read or written whole. */
static void whole(int good, const char *path)
{
    if (!good) {
        perror(path);
        exit(1);
    }
}

void save_scene(const struct scene *scene, const char *path)
{
    const struct call *next = &scene->next;
    const uint32_t head[HEAD] = { pages(scene), slots(scene), scene->oldest, scene->newest,
        (uint32_t)next->letter, next->numbers[0], next->numbers[1], next->numbers[2] };
    FILE *file = fopen(path, "wb");
    whole(file != NULL, path);
    whole(fwrite(head, sizeof head, 1, file) == 1, path);
    for (int i = 0; i < AREAS; i++)
        whole(fwrite(scene->in.areas[i].bytes, scene->in.areas[i].length, 1, file) == 1, path);
    whole(fwrite(scene->in.desk, sizeof scene->in.desk, 1, file) == 1, path);
    whole(fclose(file) == 0, path);
}

void load_scene(struct scene *scene, const char *path)
{
    uint32_t head[HEAD];
    FILE *file = fopen(path, "rb");
    whole(file != NULL, path);
    whole(fread(head, sizeof head, 1, file) == 1, path);
    lend_parts(&scene->in, head[0], head[1]);
    for (int i = 0; i < AREAS; i++)
        whole(fread(scene->in.areas[i].bytes, scene->in.areas[i].length, 1, file) == 1, path);
    whole(fread(scene->in.desk, sizeof scene->in.desk, 1, file) == 1, path);
    fclose(file);
    scene->oldest = head[2];
    scene->newest = head[3];
    scene->next = (struct call){ (char)head[4], { head[5], head[6], head[7] } };
    if (scene->next.letter == 'O')
        lend_columns(scene, scene->next.numbers[0]);
}

void load_image(struct scene *scene, const char *folder, const char *page_count, const char *name)
{
    char path[512];
    snprintf(path, sizeof path, "%s/%s-%s", folder, page_count, name);
    load_scene(scene, path);
}
