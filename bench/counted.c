/* One call and one pass of each kind, for counting instructions.
 *
 *   counted stage IMAGE LETTER SCENE   stages the call on a full log, at full speed; P is a fetch with many updates pending, and Q a return
 *                                      of many, on any log, O a load of as many slides as fit, and S a restart with
 *                                      every page written out just before
 *   counted run SCENE                  the passes and the call, each once: what is counted is chosen by its function's name
 */
#include "pass.h"
#include "staging.h"
#include <stdio.h>
#include <string.h>

static int stage_file(const char *image, char letter, const char *to)
{
    static struct scene scene;
    load_scene(&scene, image);
    if (letter == 'P')
        stage_pending(&scene);
    else if (letter == 'Q')
        stage_return(&scene);
    else if (letter == 'O')
        stage_load(&scene);
    else
        stage(&scene, letter == 'S' ? 'R' : letter, FULL);
    if (letter == 'S')
        write_out_all(&scene);
    save_scene(&scene, to);
    printf("%u %u\n", records(&scene), pending(&scene));
    return 0;
}

static int run_file(const char *path)
{
    static struct scene scene, copy;
    load_scene(&scene, path);
    copy_scene(&copy, &scene);
    if (pass_compare(&scene, &copy) != 0)
        return 1;
    (void)pass_sum(&scene);
    return make(&scene.in, scene.next) != 0;
}

int main(int count, char **words)
{
    if (count == 5 && strcmp(words[1], "stage") == 0)
        return stage_file(words[2], words[3][0], words[4]);
    if (count == 3 && strcmp(words[1], "run") == 0)
        return run_file(words[2]);
    fputs("counted stage IMAGE LETTER SCENE, or counted run SCENE\n", stderr);
    return 2;
}
