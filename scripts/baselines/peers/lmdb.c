/* LMDB as it is by default: a commit writes its pages, syncs them, and writes its header through. */
#include <lmdb.h>
#include <stdio.h>
#include <stdlib.h>
#include <sys/stat.h>

#include "peers.h"

static MDB_env *env;
static MDB_dbi cells;

static void need(int code) {
    if (!code) return;
    fprintf(stderr, "lmdb: %s\n", mdb_strerror(code));
    exit(1);
}

static void open_in(const char *path) {
    MDB_txn *txn;
    need(mdb_env_create(&env));
    need(mdb_env_set_mapsize(env, 1ul << 28));
    need(mdb_env_open(env, path, 0, 0600));
    need(mdb_txn_begin(env, NULL, 0, &txn));
    need(mdb_dbi_open(txn, NULL, MDB_INTEGERKEY, &cells));
    need(mdb_txn_commit(txn));
}

void store_make(const char *path) {
    if (mkdir(path, 0700)) exit(1);
    open_in(path);
}

void store_open(const char *path, uint32_t key, uint64_t value) {
    MDB_txn *txn;
    MDB_val name = {sizeof key, &key}, data;
    open_in(path);
    need(mdb_txn_begin(env, NULL, MDB_RDONLY, &txn));
    need(mdb_get(txn, cells, &name, &data));
    if (*(uint64_t *)data.mv_data != value) exit(1);
}

static void put_some(uint32_t first, uint32_t count, uint64_t value) {
    MDB_txn *txn;
    need(mdb_txn_begin(env, NULL, 0, &txn));
    for (uint32_t key = first; key < first + count; key++) {
        MDB_val name = {sizeof key, &key}, data = {sizeof value, &value};
        need(mdb_put(txn, cells, &name, &data, 0));
    }
    need(mdb_txn_commit(txn));
}

void store_put(uint32_t key, uint64_t value) { put_some(key, 1, value); }

void store_put_together(uint32_t first, uint64_t value) { put_some(first, TOGETHER, value); }

void store_share(const char *path) { store_make(path); }

void store_put_of(unsigned thread, uint32_t key, uint64_t value) {
    (void)thread;
    put_some(key, 1, value);
}
