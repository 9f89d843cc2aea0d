/* Measuring: call and pass take turns, so what slows the machine down for a while slows both. */
#include "measure.h"
#include "pass.h"
#include <stdio.h>
#include <stdlib.h>

/* One repetition. The sum itself is not asked for: the compiler cannot know that the pass does nothing else. */
static void once(const struct scene *scene, struct scene *work, struct measured *to)
{
    copy_scene(work, scene);
    double start = now();
    int differ = pass_compare(work, scene);
    double compared = now();
    (void)pass_sum(work);
    double summed = now();
    uint32_t reason = make(&work->in, scene->next);
    double called = now();
    if (differ || reason != 0) {
        fprintf(stderr, "%c at %u records is refused: %u\n", scene->next.letter, records(scene), reason);
        exit(1);
    }
    take(&to->compare, start, compared);
    take(&to->sum, compared, summed);
    take(&to->call, summed, called);
}

void measure(const struct scene *scene, int quick, struct measured *to, uint32_t values[2])
{
    static struct scene work;
    double began = now();
    size_t repetitions = 0;
    do
        once(scene, &work, to);
    while (!round_over(++repetitions, began, quick));
    values[0] = donzhikar_value(work.in.values, 0);
    values[1] = donzhikar_value(work.in.values, 1);
}

void print_measured_head(void)
{
    puts(" least, µs | median, µs | compare, µs | sum, µs | compares | sums |");
}

void print_measured(const struct measured *of)
{
    double call = least(&of->call), compare = least(&of->compare), sum = least(&of->sum);
    printf(" %.1f | %.1f | %.1f | %.1f | %.2f | %.2f |\n", call, median(&of->call), compare, sum, call / compare, call / sum);
}
