/* The drive's file: where the copies stand, and in which order they are written and flushed. */
#define _GNU_SOURCE /* renameat2 */
#include "drive.h"
#include "group.h"
#include <errno.h>
#include <fcntl.h>
#include <stdio.h>
#include <stdlib.h>
#include <string.h>
#include <sys/stat.h>
#include <unistd.h>

/* What may be damaged at once when the power fails during a write: the drive's sector or the system's page, whichever is larger. Each
 * copy has such a block to itself, so that writing it endangers no other. */
enum { BLOCK_BYTES = 4096, NAME_BYTES = 4096 };

/* First copies stand together, so many in a row, and then their second copies: those of neighbours, which a call's records are, are flushed
 * in one piece. In files from before there were groups the two copies of each place stand together. */
enum { STRIPE = 64, UNGROUPED_STRIPE = 1 };

void drive_fail(const char *what)
{
    fprintf(stderr, "drive: %s: %s\n", what, strerror(errno));
    exit(2);
}

/* ---- one copy */

static off_t copy_at(uint32_t stripe, uint32_t place, int which)
{
    return (((off_t)(place / stripe) * COPIES + which) * stripe + place % stripe) * BLOCK_BYTES;
}

/* Writes the whole block: a part of it would have to be read first, and after a power failure it may be unreadable. A system may write a
 * part only and say so, and where the disk is full it says so at the next try. */
static void put_copy(struct drive *d, uint32_t place, int which, struct copy_group group, const uint8_t bytes[DRIVE_PLACE_BYTES])
{
    uint8_t block[BLOCK_BYTES] = { 0 };
    copy_seal(block, place, group, bytes);
    for (size_t done = 0; done < sizeof block;) {
        ssize_t wrote = pwrite(d->file, block + done, sizeof block - done, copy_at(STRIPE, place, which) + (off_t)done);
        if (wrote < 0 && errno != EINTR)
            drive_fail("write");
        done += wrote < 0 ? 0 : (size_t)wrote;
    }
}

/* A copy that cannot be read is as good as one that is not whole: some drives answer so for a block that the power failed on. */
static int get_copy(struct drive *d, uint32_t place, int which, uint8_t copy[COPY_BYTES])
{
    off_t at = copy_at(d->found_stripe, place, which);
    for (size_t done = 0; done < COPY_BYTES;) {
        ssize_t got = pread(d->found, copy + done, COPY_BYTES - done, at + (off_t)done);
        if (got == 0 || (got < 0 && errno != EINTR))
            return 0;
        done += got < 0 ? 0 : (size_t)got;
    }
    return 1;
}

/* The place that every drive has tells: its copies are the first two blocks of a file from before there were groups. */
static void find_stripe(struct drive *d)
{
    uint8_t copy[COPY_BYTES];
    d->found_stripe = UNGROUPED_STRIPE;
    for (int which = 0; which < COPIES; which++)
        if (get_copy(d, 0, which, copy) && copy_is_ungrouped(copy))
            return;
    d->found_stripe = STRIPE;
}

/* ---- places */

/* A flush that failed is not tried again: the system may have taken the blocks for written, and the second try would find nothing to do. */
static void flush(struct drive *d)
{
    if (fdatasync(d->file) != 0)
        drive_fail("flush");
}

void drive_read(struct drive *d, uint32_t place, struct reading *to)
{
    uint8_t copy[COPY_BYTES];
    for (int which = 0; which < COPIES; which++)
        to->is_whole[which] = get_copy(d, place, which, copy) && copy_unseal(copy, place, &to->of[which], to->bytes[which]);
}

void drive_fill(struct drive *d, uint32_t place, const uint8_t bytes[DRIVE_PLACE_BYTES])
{
    const struct copy_group none = { 0, 0 };
    put_copy(d, place, 0, none, bytes);
    put_copy(d, place, 1, none, bytes);
}

static void put_copies(struct drive *d, int which, const struct drive_store *stores, struct copy_group group)
{
    for (uint32_t i = 0; i < group.stores; i++)
        put_copy(d, stores[i].place, which, group, stores[i].bytes);
}

void drive_store(struct drive *d, const struct drive_store *stores, uint32_t count)
{
    const struct copy_group group = { ++d->groups, count };
    put_copies(d, 0, stores, group);
    flush(d); /* before the other copies are touched */
    put_copies(d, 1, stores, group);
    flush(d);
}

/* ---- files and names */

/* The name under which a new file is filled. */
static void name_before(char name[NAME_BYTES], const char *path)
{
    if ((size_t)snprintf(name, NAME_BYTES, "%s.new", path) >= NAME_BYTES) {
        errno = ENAMETOOLONG;
        drive_fail(path);
    }
}

/* The name of a file stands in its folder, which is flushed by itself. */
static void flush_name(const char *path)
{
    char folder[NAME_BYTES];
    const char *slash = strrchr(path, '/');
    size_t length = slash == NULL ? 0 : (size_t)(slash - path) + 1;
    snprintf(folder, sizeof folder, "%.*s.", (int)length, path);
    int file = open(folder, O_RDONLY | O_DIRECTORY);
    if (file < 0 || fsync(file) != 0)
        drive_fail(folder);
    close(file);
}

static int is_there(const char *name, struct stat *found)
{
    if (lstat(name, found) == 0)
        return 1;
    if (errno != ENOENT)
        drive_fail(name);
    return 0;
}

static int leads_to(const char *name, int file)
{
    struct stat named, opened;
    if (fstat(file, &opened) != 0)
        drive_fail(name);
    return is_there(name, &named) && named.st_dev == opened.st_dev && named.st_ino == opened.st_ino;
}

/* Nobody else writes: a second program that opens the file ends here, but for two that only read. Some file systems have no locks; who
 * only reads goes on there, and says so. */
static void lock(int file, int writes)
{
    struct flock all = { .l_type = writes ? F_WRLCK : F_RDLCK, .l_whence = SEEK_SET };
    if (fcntl(file, F_SETLK, &all) == 0)
        return;
    if (writes || errno == EACCES || errno == EAGAIN)
        drive_fail("another program has it");
    fprintf(stderr, "drive: no lock: %s: see to it that no host has this drive\n", strerror(errno));
}

/* Opens a file and locks it. Returns a negative number where there is none. Before the lock another program may have had the
 * file, and given it another name. So the name is looked at again, for what it leads to now. */
static int taken(const char *name, int flags)
{
    for (;;) {
        int file = open(name, O_NOFOLLOW | O_CLOEXEC | flags, S_IRUSR | S_IWUSR);
        if (file < 0 && errno == ENOENT)
            return -1;
        if (file < 0)
            drive_fail(name);
        lock(file, (flags & O_ACCMODE) == O_RDWR);
        if (leads_to(name, file))
            return file;
        close(file);
    }
}

/* Who makes a drive has the new file's lock until it has its name. So where there was no drive before that lock, it is looked for again.
 * What an earlier try left in the new file is written over. */
int drive_open(struct drive *d, const char *path)
{
    char name[NAME_BYTES];
    struct stat appeared;
    name_before(name, path);
    d->path = path;
    d->groups = 0;
    for (;;) {
        d->found = taken(path, O_RDWR);
        d->file = taken(name, O_RDWR | O_CREAT);
        if (d->found >= 0 || !is_there(path, &appeared))
            break;
        close(d->file);
    }
    if (d->found >= 0)
        find_stripe(d);
    return d->found >= 0;
}

void drive_make(struct drive *d, const char *path)
{
    if (!drive_open(d, path))
        return;
    drive_give_up(d);
    fprintf(stderr, "drive: %s is there already, and stays as it was\n", path);
    exit(2);
}

int drive_writes_over(const char *path, int file)
{
    char name[NAME_BYTES];
    name_before(name, path);
    return leads_to(name, file);
}

void drive_look(struct drive *d, const char *path)
{
    d->path = path;
    d->file = -1;
    d->found = taken(path, O_RDONLY);
    if (d->found < 0)
        drive_fail(path);
    find_stripe(d);
}

/* The drive that was found, and is locked, gives its name up. Where there was none, a name that is there by now is not replaced. */
static int named(struct drive *d, const char *name)
{
    return renameat2(AT_FDCWD, name, AT_FDCWD, d->path, d->found < 0 ? RENAME_NOREPLACE : 0) == 0;
}

void drive_name(struct drive *d)
{
    char name[NAME_BYTES];
    name_before(name, d->path);
    if (fsync(d->file) != 0)
        drive_fail("flush");
    if (!named(d, name))
        drive_fail(d->path);
    flush_name(d->path);
    if (d->found >= 0)
        close(d->found);
    d->found = -1;
}

void drive_give_up(struct drive *d)
{
    char name[NAME_BYTES];
    name_before(name, d->path);
    unlink(name);
    drive_close(d);
}

void drive_close(struct drive *d)
{
    if (d->found >= 0)
        close(d->found);
    if (d->file >= 0)
        close(d->file);
}
