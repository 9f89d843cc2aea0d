/* LMDB files a case, and loads slides: whole-number keys, a file that is mapped, flushed to the drive or not. */
#include "filer.h"
#include <lmdb.h>
#include <stdio.h>
#include <stdlib.h>

enum { MAP_BYTES = 64 << 20, READABLE = 0644 };

struct opened {
    MDB_env *env;
    MDB_dbi slides;
};

static void need(int status)
{
    if (status != MDB_SUCCESS) {
        fprintf(stderr, "LMDB: %s\n", mdb_strerror(status));
        exit(1);
    }
}

static MDB_txn *begin(struct opened *in)
{
    MDB_txn *txn;
    need(mdb_txn_begin(in->env, NULL, 0, &txn));
    return txn;
}

static void insert(struct opened *in, MDB_txn *txn, uint32_t key, unsigned flags)
{
    uint32_t value = 7;
    MDB_val k = { sizeof key, &key }, v = { sizeof value, &value };
    need(mdb_put(txn, in->slides, &k, &v, flags));
}

/* MDB_NOSUBDIR: the path is the file itself, and the lock file stands beside it. */
static void open_env(struct opened *in, const char *folder, unsigned flags)
{
    char path[512];
    snprintf(path, sizeof path, "%s/lmdb-lock", folder);
    remove(path);
    snprintf(path, sizeof path, "%s/lmdb", folder);
    remove(path);
    need(mdb_env_create(&in->env));
    need(mdb_env_set_mapsize(in->env, MAP_BYTES));
    need(mdb_env_open(in->env, path, flags | MDB_NOSUBDIR, READABLE));
}

static void *open_with(const struct scene *scene, const char *folder, unsigned flags)
{
    struct opened *in = calloc(1, sizeof *in);
    if (in == NULL)
        exit(2);
    open_env(in, folder, flags);
    MDB_txn *txn = begin(in);
    need(mdb_dbi_open(txn, NULL, MDB_INTEGERKEY, &in->slides));
    for (uint32_t i = scene->oldest; i < scene->newest; i++)
        insert(in, txn, key_of(i), MDB_NOOVERWRITE);
    need(mdb_txn_commit(txn));
    return in;
}

static void *open_unflushed(const struct scene *scene, const char *folder)
{
    return open_with(scene, folder, MDB_NOSYNC);
}

static void *open_flushed(const struct scene *scene, const char *folder)
{
    return open_with(scene, folder, 0);
}

static void file(void *opened, const uint32_t keys[CASE_SLIDES])
{
    MDB_txn *txn = begin(opened);
    for (int i = 0; i < CASE_SLIDES; i++)
        insert(opened, txn, keys[i], MDB_NOOVERWRITE);
    need(mdb_txn_commit(txn));
}

/* MDB_APPEND is its own way for keys that rise. */
static void load(void *opened, const struct columns *of)
{
    MDB_txn *txn = begin(opened);
    for (size_t i = 0; i < of->keys_length; i++)
        insert(opened, txn, of->keys[i], MDB_APPEND);
    need(mdb_txn_commit(txn));
}

static void take_back(void *opened, const uint32_t keys[CASE_SLIDES])
{
    struct opened *in = opened;
    MDB_txn *txn = begin(in);
    for (int i = 0; i < CASE_SLIDES; i++) {
        uint32_t key = keys[i];
        MDB_val k = { sizeof key, &key };
        need(mdb_del(txn, in->slides, &k, NULL));
    }
    need(mdb_txn_commit(txn));
}

static void close_lmdb(void *opened)
{
    mdb_env_close(((struct opened *)opened)->env);
    free(opened);
}

const struct filer lmdb_filer = { "LMDB in a file", open_unflushed, file, take_back, close_lmdb, load, NULL, NULL };
const struct filer lmdb_flushed = { "LMDB", open_flushed, file, take_back, close_lmdb, load, NULL, NULL };
