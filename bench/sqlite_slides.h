/* Slides in SQLite: one table by key, prepared statements. */
#ifndef SQLITE_SLIDES_H
#define SQLITE_SLIDES_H

#include "scene.h"
#include <sqlite3.h>

/* A file of this name in the folder, made anew with the scene's slides; in memory where the name is NULL. */
sqlite3 *slides_open(const struct scene *scene, const char *folder, const char *name, const char *settings);

sqlite3_stmt *slides_prepare(sqlite3 *base, const char *text);

/* Steps a statement, which must give this status, and makes it ready for the next time. */
void slides_step(sqlite3_stmt *statement, int wanted);

/* Ends the program, with what SQLite says, where something went wrong. */
void slides_need(sqlite3 *base, int good);

#endif
