/* Staging: 01's reserves say how full a log may be for each call, see "What is short, exactly" in the header for C. */
#include "staging.h"
#include "filling.h"

enum { OPEN = 8 };

const struct named_call calls[CALLS] = {
    { "begin", 'B' }, { "fetch", 'F' }, { "next", 'N' }, { "previous", 'V' }, { "insert", 'I' }, { "delete", 'D' },
    { "mark", 'M' }, { "return", 'T' }, { "commit", 'C' }, { "abort", 'A' }, { "write-out", 'W' }, { "restart", 'R' }, { "format", 'Z' },
};

const char *const fill_names[FILLS] = { "empty", "half", "full" };

/* A key that is filed, among the oldest and the newest a middle one. */
static uint32_t some_key(const struct scene *scene)
{
    return key_of(scene->oldest + (scene->newest - scene->oldest) / 2);
}

static uint32_t no_key(const struct scene *scene)
{
    return key_of(scene->newest);
}

/* A slide filed by a batch that is still open. */
static void file_one(struct scene *scene, uint32_t batch)
{
    must(scene, 'I', batch, no_key(scene), 7);
    scene->newest++;
}

void stage_restart(struct scene *scene)
{
    file_one(scene, must(scene, 'B', 0, 0, 0));
    /* Another batch's commit stores the open one's records too. */
    must(scene, 'C', must(scene, 'B', 0, 0, 0), 0, 0);
    scene->next = (struct call){ 'R', { 0, 0, 0 } };
}

void write_out_all(struct scene *scene)
{
    for (uint32_t page = 0; page < pages(scene); page++)
        must(scene, 'W', page, 0, 0);
}

/* Slides filed by these open batches in turn, until one is refused. */
static void file_all(struct scene *scene, const uint32_t *batches, uint32_t count)
{
    for (uint32_t i = 0; make(&scene->in, (struct call){ 'I', { batches[i % count], no_key(scene), 7 } }) == 0; i++)
        scene->newest++;
}

void stage_pending(struct scene *scene)
{
    uint32_t batches[OPEN];
    for (int i = 0; i < OPEN; i++)
        batches[i] = must(scene, 'B', 0, 0, 0);
    scene->next = (struct call){ 'F', { batches[0], some_key(scene), 0 } };
    file_all(scene, batches, OPEN);
}

/* Found by loading fewer, a slide at a time. */
void stage_load(struct scene *scene)
{
    static struct scene tried;
    uint32_t slides = DONZHIKAR_MOST_LOADED;
    copy_scene(&tried, scene);
    lend_columns(&tried, slides);
    while (make(&tried.in, (struct call){ 'O', { 0, 0, 0 } }) == DONZHIKAR_ERROR_PAGES_SHORT)
        lend_columns(&tried, --slides);
    lend_columns(scene, slides);
    scene->next = (struct call){ 'O', { slides, 0, 0 } };
}

/* A batch's own number is the mark from before all that it does. */
static struct call return_of_all(uint32_t batch)
{
    return (struct call){ 'T', { batch, batch, 0 } };
}

void stage_return(struct scene *scene)
{
    uint32_t batch = must(scene, 'B', 0, 0, 0);
    scene->next = return_of_all(batch);
    file_all(scene, &batch, 1);
}

/* The numbers of a call that goes with `batch`. */
static struct call with_batch(const struct scene *scene, char letter, uint32_t batch)
{
    switch (letter) {
    case 'N': return (struct call){ letter, { batch, some_key(scene) - 1, 0 } };
    case 'V': return (struct call){ letter, { batch, some_key(scene) + 1, 0 } };
    case 'I': return (struct call){ letter, { batch, no_key(scene), 7 } };
    case 'T': return return_of_all(batch);
    case 'W': return (struct call){ letter, { 1, 0, 0 } };
    default: return (struct call){ letter, { batch, some_key(scene), 0 } };
    }
}

void stage(struct scene *scene, char letter, enum fill fill)
{
    int finds_one = letter == 'C' || letter == 'A' || letter == 'T';
    int updates = finds_one || letter == 'I' || letter == 'D' || letter == 'R';
    if (fill == FULL && !updates)
        top_up(scene, slots(scene) - SPARE_FOR_BEGIN);
    if (letter == 'R') {
        stage_restart(scene);
        return;
    }
    uint32_t batch = letter == 'B' ? 0 : must(scene, 'B', 0, 0, 0);
    if (finds_one)
        file_one(scene, batch);
    scene->next = with_batch(scene, letter, batch);
}
