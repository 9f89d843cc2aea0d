/* What files a case of ten slides, and loads many: the register, and databases that do the same work. */
#ifndef FILER_H
#define FILER_H

#include "scene.h"

enum { CASE_SLIDES = 10 };

struct filer {
    const char *name;
    /* Opens it with the slides that the scene holds. Files, if any, go into the folder. */
    void *(*open)(const struct scene *scene, const char *folder);
    /* Begins a case, files ten slides and commits: this is timed. */
    void (*file)(void *opened, const uint32_t keys[CASE_SLIDES]);
    /* Makes it as it was before the case. */
    void (*take_back)(void *opened, const uint32_t keys[CASE_SLIDES]);
    void (*close)(void *opened);
    /* Loads slides by rising keys, where it was opened with none, as one transaction: this is timed. NULL where nothing does. */
    void (*load)(void *opened, const struct columns *of);
    /* Microseconds of the last case that are shown beside it, and what took them. NULL where nothing is. */
    double (*part)(void);
    const char *part_name;
};

/* Nothing is flushed to the drive. */
extern const struct filer register_filer;
#ifdef WITH_SQLITE
extern const struct filer sqlite_in_memory, sqlite_in_file;
#endif
#ifdef WITH_LMDB
extern const struct filer lmdb_filer;
#endif

/* A case is on the drive when it is committed. */
extern const struct filer host_filer;
#ifdef WITH_SQLITE
extern const struct filer sqlite_rollback, sqlite_ahead;
#endif
#ifdef WITH_LMDB
extern const struct filer lmdb_flushed;
#endif

#endif
