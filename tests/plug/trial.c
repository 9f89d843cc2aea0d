/* Pulls the plug, and makes the system fail. It stands between a program and the system (the linker's --wrap).
 *
 * What the files show is what the system shows: its cache. What the drive has is that, but for the pieces and the names that are noted
 * here. A piece is dirty until it is flushed. Where its flush fails, the system takes it for clean all the same: it is lost, and no
 * later flush brings it to the drive, unless it is written again.
 *
 * An event is a piece of a block written, a flush, or a name given. A program can be ended right after one:
 *
 *   PLUG_AFTER  the number of the event, from 1, or `end` for the program's own end
 *   PLUG_HOW    kill: the program ends as by kill -9, and the system keeps all that was written
 *               power: the system goes down too. Each piece that the drive does not have is there, or is lost, or has become garbage
 *   PLUG_SEED   which of the three, for each piece
 *   PLUG_FILE   the drive's file
 *   PLUG_SIDE   the start of the names of side files: what the drive does not have is noted there, for later programs too
 *
 * One call can fail:
 *
 *   PLUG_FAULT  flush, write, read, name or open, or full, for a disk on which this write and all later ones find no room
 *   PLUG_NUMBER the number of that call among its kind, from 1
 *   PLUG_CACHE  of a failed flush. keep: the system goes on showing what was to be flushed. drop: it shows what the drive has
 *
 * And the program can be stopped, by SIGSTOP, before a step, which is any of the wrapped calls: PLUG_STOP is its number, from 1.
 *
 * At a program's own end PLUG_SIDE.counts has the number of events and of calls by kind, and PLUG_SIDE.steps the names of its steps.
 * Nothing is really flushed here: the machine keeps its power. */
#define _GNU_SOURCE
#include <errno.h>
#include <fcntl.h>
#include <signal.h>
#include <stdarg.h>
#include <stdint.h>
#include <stdio.h>
#include <stdlib.h>
#include <string.h>
#include <sys/stat.h>
#include <unistd.h>

enum { BLOCK = 4096, NAME = 4096 };

/* Where a block may tear: inside the bytes of a copy, at the end of a sector, at its own end. A real drive tears at sectors only. */
static const size_t tears[] = { 64, 512, BLOCK };

/* What was there before a piece was written that the drive does not have. */
struct piece {
    ino_t file;
    off_t at;
    size_t length;
    int is_lost; /* its flush failed */
    uint8_t *old;
};

enum kind { FLUSH, WRITE, READ, NAMING, OPEN, KINDS };
static const char *const kinds[KINDS] = { "flush", "write", "read", "name", "open" };

int __real_open(const char *name, int flags, ...);
int __real_close(int file);
int __real_fcntl(int file, int command, ...);
int __real_fstat(int file, struct stat *info);
int __real_lstat(const char *name, struct stat *info);
ssize_t __real_pread(int file, void *bytes, size_t length, off_t at);
ssize_t __real_pwrite(int file, const void *bytes, size_t length, off_t at);
int __real_renameat2(int from_folder, const char *from, int to_folder, const char *to, unsigned flags);
int __real_unlink(const char *name);

static long events, steps, calls[KINDS];
static struct piece *pieces;
static size_t count, room;
static FILE *step_names;

static const char *setting(const char *name, const char *otherwise)
{
    const char *text = getenv(name);
    return text == NULL ? otherwise : text;
}

static int is_set(const char *name, const char *to)
{
    return strcmp(setting(name, ""), to) == 0;
}

static const char *side_name(const char *which)
{
    static char name[NAME];
    snprintf(name, NAME, "%s.%s", setting("PLUG_SIDE", "plug"), which);
    return name;
}

static void must(int holds)
{
    if (!holds)
        abort();
}

/* ---- the pieces, and how they are noted from program to program */

static struct piece *one_more(void)
{
    if (count == room) {
        room = 2 * room + 64;
        pieces = realloc(pieces, room * sizeof *pieces);
        must(pieces != NULL);
    }
    return &pieces[count++];
}

static void load(void)
{
    struct piece piece;
    FILE *from = fopen(side_name("pieces"), "r");
    while (from != NULL && fread(&piece, sizeof piece, 1, from) == 1) {
        piece.old = malloc(piece.length);
        must(piece.old != NULL && fread(piece.old, piece.length, 1, from) == 1);
        *one_more() = piece;
    }
    if (from != NULL)
        fclose(from);
}

static void save(void)
{
    FILE *to = fopen(side_name("pieces"), "w");
    must(to != NULL);
    for (size_t i = 0; i < count; i++)
        must(fwrite(&pieces[i], sizeof *pieces, 1, to) == 1 && fwrite(pieces[i].old, pieces[i].length, 1, to) == 1);
    must(fclose(to) == 0);
}

static uint64_t drawn(void)
{
    static uint64_t state;
    if (state == 0)
        state = 2 * strtoull(setting("PLUG_SEED", "0"), NULL, 10) + 1;
    state = state * 6364136223846793005u + 1442695040888963407u;
    return state >> 33;
}

/* ---- the power fails */

static int is_at(const char *name, ino_t file)
{
    struct stat info;
    return __real_lstat(name, &info) == 0 && info.st_ino == file;
}

/* The names that the register's file and its new file have, or had when the folder was last flushed. */
static const char *name_number(int number)
{
    static char name[NAME];
    if (number >= 2)
        return side_name(number == 2 ? "was" : "was.new");
    snprintf(name, NAME, "%s%s", setting("PLUG_FILE", "drive"), number == 0 ? "" : ".new");
    return name;
}

/* Negative where nothing has that file any more. */
static int opened(ino_t file)
{
    for (int number = 0; number < 4; number++)
        if (is_at(name_number(number), file))
            return __real_open(name_number(number), O_RDWR);
    return -1;
}

static void garble(struct piece *piece)
{
    for (size_t i = 0; i < piece->length; i++)
        piece->old[i] = (uint8_t)drawn();
}

/* Half of the power failures find that the block written last is there and nothing else is. In the others each piece stays as it was
 * written, is lost, or is garbage. Newest first, so that of two pieces in one place either may be the one that is there. */
static void fall_all(void)
{
    int last_stays = drawn() % 2 == 0, file = -1;
    for (size_t i = count; i-- > 0;) {
        struct piece *piece = &pieces[i], *newest = &pieces[count - 1];
        uint64_t fate = last_stays ? piece->at / BLOCK != newest->at / BLOCK : drawn() % 3;
        if (i + 1 == count || piece->file != pieces[i + 1].file) {
            __real_close(file);
            file = opened(piece->file);
        }
        if (fate == 2)
            garble(piece);
        if (fate != 0 && file >= 0)
            must(__real_pwrite(file, piece->old, piece->length, piece->at) >= 0);
    }
    count = 0;
}

/* ---- names: SIDE.was and SIDE.was.new are what the drive has, and SIDE.names says whether a flush is still due */

/* A file that no name leads to is gone with its pieces. */
static void forget_names(void)
{
    size_t left = 0;
    __real_unlink(side_name("was"));
    __real_unlink(side_name("was.new"));
    __real_unlink(side_name("names"));
    for (size_t i = 0; i < count; i++)
        if (is_at(name_number(0), pieces[i].file) || is_at(name_number(1), pieces[i].file))
            pieces[left++] = pieces[i];
        else
            free(pieces[i].old);
    count = left;
}

static void set_names_due(int due)
{
    FILE *to = fopen(side_name("names"), "w");
    must(to != NULL && fprintf(to, "%d\n", due) > 0 && fclose(to) == 0);
}

/* -1 where the drive has all names. */
static int names_due(void)
{
    int due = -1;
    FILE *from = fopen(side_name("names"), "r");
    if (from == NULL)
        return -1;
    must(fscanf(from, "%d", &due) == 1);
    fclose(from);
    return due;
}

/* Before a name is given. */
static void note_names(void)
{
    char name[NAME];
    for (int number = 0; number < 2 && names_due() < 0; number++) {
        snprintf(name, NAME, "%s", name_number(number));
        must(link(name, name_number(number + 2)) == 0 || errno == ENOENT);
    }
    set_names_due(1);
}

/* Names that the drive does not have may be lost: it then has those from before. */
static void lose_names(void)
{
    char name[NAME];
    for (int number = 0; number < 2 && names_due() >= 0 && drawn() % 2 == 0; number++) {
        snprintf(name, NAME, "%s", name_number(number));
        __real_unlink(name);
        must(link(name_number(number + 2), name) == 0 || errno == ENOENT);
    }
    forget_names();
}

/* ---- events, steps and faults */

static void fail_power(void)
{
    fall_all();
    lose_names();
}

static void at_end(void)
{
    FILE *to = fopen(side_name("counts"), "w");
    must(to != NULL && fprintf(to, "%ld", events) > 0);
    for (int kind = 0; kind < KINDS; kind++)
        fprintf(to, " %ld", calls[kind]);
    fclose(to);
    fclose(step_names);
    if (is_set("PLUG_AFTER", "end"))
        fail_power();
    save();
}

static void step(const char *name)
{
    if (step_names == NULL) {
        load();
        step_names = fopen(side_name("steps"), "w");
        must(step_names != NULL);
        atexit(at_end);
    }
    fprintf(step_names, "%s\n", name);
    if (++steps == strtol(setting("PLUG_STOP", "0"), NULL, 10))
        raise(SIGSTOP);
}

static void event(void)
{
    if (++events != strtol(setting("PLUG_AFTER", "0"), NULL, 10))
        return;
    if (is_set("PLUG_HOW", "power"))
        fail_power();
    save();
    raise(SIGKILL);
}

static int fails(enum kind kind)
{
    long number = strtol(setting("PLUG_NUMBER", "0"), NULL, 10), call = ++calls[kind];
    errno = EIO;
    if (kind == WRITE && is_set("PLUG_FAULT", "full") && call >= number) {
        errno = ENOSPC;
        return 1;
    }
    return is_set("PLUG_FAULT", kinds[kind]) && call == number;
}

/* ---- blocks */

/* The file written to last. It is asked for once: most writes fill a new file, one after the other. */
static int asked = -1;
static struct stat last_written;

static void ask_about(int file)
{
    if (asked != file)
        must(__real_fstat(file, &last_written) == 0);
    asked = file;
}

/* Writes one piece only and says so, which a system may do at any time. */
ssize_t __wrap_pwrite(int file, const void *bytes, size_t length, off_t at)
{
    size_t tear = 0, from = (size_t)(at % BLOCK);
    step("write");
    if (fails(WRITE))
        return -1;
    ask_about(file);
    while (tears[tear] <= from)
        tear++;
    struct piece *piece = one_more();
    *piece = (struct piece){ .file = last_written.st_ino, .at = at, .length = length < tears[tear] - from ? length : tears[tear] - from };
    piece->old = calloc(piece->length, 1);
    must(piece->old != NULL && (at >= last_written.st_size || __real_pread(file, piece->old, piece->length, at) >= 0));
    ssize_t wrote = __real_pwrite(file, bytes, piece->length, at);
    if (wrote > 0 && at + wrote > last_written.st_size)
        last_written.st_size = at + wrote;
    event();
    return wrote;
}

ssize_t __wrap_pread(int file, void *bytes, size_t length, off_t at)
{
    step("read");
    return fails(READ) ? -1 : __real_pread(file, bytes, length, at);
}

static int is_rewritten(const struct piece *lost)
{
    for (const struct piece *piece = lost + 1; piece < pieces + count; piece++)
        if (!piece->is_lost && piece->file == lost->file && piece->at == lost->at)
            return 1;
    return 0;
}

/* What is dirty is on the drive now, and so is what was lost and has been written again. */
static void flush_pieces(ino_t file)
{
    size_t left = 0;
    for (size_t i = 0; i < count; i++)
        pieces[i].length *= pieces[i].file != file || (pieces[i].is_lost && !is_rewritten(&pieces[i]));
    for (size_t i = 0; i < count; i++)
        if (pieces[i].length > 0)
            pieces[left++] = pieces[i];
        else
            free(pieces[i].old);
    count = left;
}

/* The system takes all for clean. It may show what the drive has from now on: what was there before, or garbage. */
static void lose_pieces(int file, ino_t number)
{
    for (size_t i = count; i-- > 0;) {
        struct piece *piece = &pieces[i];
        if (piece->file != number || piece->is_lost)
            continue;
        piece->is_lost = 1;
        if (is_set("PLUG_CACHE", "drop")) {
            if (drawn() % 2 == 0)
                garble(piece);
            must(__real_pwrite(file, piece->old, piece->length, piece->at) >= 0);
        }
    }
}

static int flushed(int file)
{
    struct stat info;
    must(__real_fstat(file, &info) == 0);
    step(S_ISDIR(info.st_mode) ? "flush-name" : "flush");
    int failed = fails(FLUSH);
    if (S_ISDIR(info.st_mode) && failed && names_due() >= 0)
        set_names_due(0);
    else if (S_ISDIR(info.st_mode) && names_due() == 1)
        forget_names();
    else if (!S_ISDIR(info.st_mode) && failed)
        lose_pieces(file, info.st_ino);
    else if (!S_ISDIR(info.st_mode))
        flush_pieces(info.st_ino);
    event();
    errno = EIO;
    return failed ? -1 : 0;
}

int __wrap_fdatasync(int file)
{
    return flushed(file);
}

int __wrap_fsync(int file)
{
    return flushed(file);
}

/* ---- names and locks */

int __wrap_renameat2(int from_folder, const char *from, int to_folder, const char *to, unsigned flags)
{
    step("rename");
    if (fails(NAMING))
        return -1;
    note_names();
    int result = __real_renameat2(from_folder, from, to_folder, to, flags), error = errno;
    event();
    errno = error;
    return result;
}

int __wrap_open(const char *name, int flags, ...)
{
    va_list rest;
    va_start(rest, flags);
    unsigned mode = flags & O_CREAT ? va_arg(rest, unsigned) : 0;
    va_end(rest);
    step("open");
    return fails(OPEN) ? -1 : __real_open(name, flags, mode);
}

int __wrap_close(int file)
{
    step("close");
    asked = -1;
    return __real_close(file);
}

/* The lock: the host has no other use for it. */
int __wrap_fcntl(int file, int command, ...)
{
    va_list rest;
    va_start(rest, command);
    struct flock *lock = va_arg(rest, struct flock *);
    va_end(rest);
    step("lock");
    return __real_fcntl(file, command, lock);
}

int __wrap_fstat(int file, struct stat *info)
{
    step("look");
    return __real_fstat(file, info);
}

int __wrap_lstat(const char *name, struct stat *info)
{
    step("look");
    return __real_lstat(name, info);
}

int __wrap_unlink(const char *name)
{
    step("unlink");
    return __real_unlink(name);
}
