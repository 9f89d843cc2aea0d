/* A scene: a register and the call that comes next. Kept in a file, so that a scene that took many calls to make is made once. */
#ifndef SCENE_H
#define SCENE_H

#include "instrument.h"

struct scene {
    struct instrument in;
    /* The slides filed are key_of(oldest) up to, not including, key_of(newest). */
    uint32_t oldest, newest;
    struct call next;
};

/* Keys in no order, none of them twice. */
uint32_t key_of(uint32_t i);

uint32_t records(const struct scene *scene);
uint32_t stored(const struct scene *scene);
uint32_t pending(const struct scene *scene);
uint32_t slots(const struct scene *scene);
uint32_t pages(const struct scene *scene);

/* Makes a call that must be done, or ends the program. Returns the answer's first value. */
uint32_t must(struct scene *scene, char letter, uint32_t a, uint32_t b, uint32_t c);

/* Lends so many slides for a load, by rising keys. Their values are those that a case's slides have. */
void lend_columns(struct scene *scene, uint32_t slides);

/* `to` becomes like `from`; its areas are lent anew where their lengths differ. */
void copy_scene(struct scene *to, const struct scene *from);

void save_scene(const struct scene *scene, const char *path);
void load_scene(struct scene *scene, const char *path);

/* A register that `images` made: its file is FOLDER/PAGES-NAME. */
void load_image(struct scene *scene, const char *folder, const char *page_count, const char *name);

#endif
