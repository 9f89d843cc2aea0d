/* The table of calls for one size: calls FOLDER PAGES [quick]. Its images are those that `images` made. */
#include "measure.h"
#include "pass.h"
#include "staging.h"
#include <stdio.h>

struct row {
    uint32_t records, slides;
    size_t bytes;
    struct measured measured;
};

static struct row rows[FILLS][CALLS];

/* A round of one row. The scene is used up. */
static void measure_row(struct row *to, struct scene *scene, enum fill fill, char letter, int quick)
{
    uint32_t values[2];
    stage(scene, letter, fill);
    measure(scene, quick, &to->measured, values);
    to->records = records(scene);
    to->slides = scene->newest - scene->oldest;
    to->bytes = pass_bytes(scene);
}

static void one_round(const char *folder, const char *page_count, int quick)
{
    static struct scene scene;
    for (int fill = 0; fill < FILLS; fill++) {
        for (int i = 0; i < CALLS; i++) {
            load_image(&scene, folder, page_count, fill_names[fill]);
            measure_row(&rows[fill][i], &scene, (enum fill)fill, calls[i].letter, quick);
        }
    }
}

static void print_rows(void)
{
    printf("| log | call | records | slides | pass, bytes |");
    print_measured_head();
    puts("|---|---|--:|--:|--:|--:|--:|--:|--:|--:|--:|");
    for (int fill = 0; fill < FILLS; fill++) {
        for (int i = 0; i < CALLS; i++) {
            const struct row *row = &rows[fill][i];
            printf("| %s | %s | %u | %u | %zu |", fill_names[fill], calls[i].name, row->records, row->slides, row->bytes);
            print_measured(&row->measured);
        }
    }
}

int main(int count, char **words)
{
    if (count < 3) {
        fputs("calls FOLDER PAGES [quick]\n", stderr);
        return 2;
    }
    for (int round = 0; round < ROUNDS; round++)
        one_round(words[1], words[2], count > 3);
    print_rows();
    return 0;
}
