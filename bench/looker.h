/* What finds a slide in a store that is judged whole first: the register, and databases that check themselves and then select. */
#ifndef LOOKER_H
#define LOOKER_H

#include "scene.h"

struct looker {
    const char *name;
    /* Opens it with the slides that the scene holds. Files, if any, go into the folder. */
    void *(*open)(const struct scene *scene, const char *folder);
    /* Checks the store and finds the slide that the scene's next call fetches: this is timed. Ends the program where either fails. */
    void (*look)(void *opened, uint32_t key);
    void (*close)(void *opened);
};

extern const struct looker register_looker;
#ifdef WITH_SQLITE
extern const struct looker sqlite_unchecked, sqlite_quick, sqlite_integrity;
#endif
#ifdef WITH_BERKELEY
extern const struct looker berkeley_verified;
#endif

#endif
