// Readings of cells kept in LMDB. Each is a read transaction of its own: renewed, one value got, reset.
//
// usage: lmdb_readings WORKLOAD COUNT      as im_bench_threads: readings, readings_beside
//
// The writer beside readers commits sixteen changes at a time, and syncs nothing, as a pane does. Links with -llmdb
// -lpthread. Its files are in memory, in a folder of /dev/shm that is removed.
#include <lmdb.h>
#include <pthread.h>
#include <stdint.h>
#include <stdio.h>
#include <stdlib.h>
#include <string.h>
#include <unistd.h>

enum { CELLS = 65536, BESIDE = 3, TOGETHER = 16 };
static MDB_env *env;
static MDB_dbi cells;

static void need(int code) {
    if (code) {
        fprintf(stderr, "lmdb: %s\n", mdb_strerror(code));
        _exit(1);
    }
}

static unsigned address(unsigned index) { return index * 40503u % CELLS; }

static void put(MDB_txn *txn, unsigned a, uint64_t value) {
    MDB_val key = {sizeof a, &a}, data = {sizeof value, &value};
    need(mdb_put(txn, cells, &key, &data, 0));
}

static void show(unsigned count) {
    for (unsigned first = 0; first < count; first += TOGETHER) {
        MDB_txn *txn;
        need(mdb_txn_begin(env, NULL, 0, &txn));
        for (unsigned index = first; index < first + TOGETHER && index < count; index++)
            put(txn, address(index), index);
        need(mdb_txn_commit(txn));
    }
}

static uint64_t read_all(unsigned count) {
    MDB_txn *txn;
    uint64_t sum = 0;
    need(mdb_txn_begin(env, NULL, MDB_RDONLY, &txn));
    mdb_txn_reset(txn);
    for (unsigned index = 0; index < count; index++) {
        unsigned a = address(index);
        MDB_val key = {sizeof a, &a}, data;
        need(mdb_txn_renew(txn));
        need(mdb_get(txn, cells, &key, &data));
        sum += *(uint64_t *)data.mv_data;
        mdb_txn_reset(txn);
    }
    mdb_txn_abort(txn);
    return sum;
}

static void *read_apart(void *count) { return (void *)(uintptr_t)(read_all((unsigned)(uintptr_t)count) & 0); }

static uint64_t beside(unsigned count) {
    pthread_t readers[BESIDE];
    for (int i = 0; i < BESIDE; i++)
        need(pthread_create(&readers[i], NULL, read_apart, (void *)(uintptr_t)count));
    show(count / 4);
    for (int i = 0; i < BESIDE; i++)
        need(pthread_join(readers[i], NULL));
    return BESIDE;
}

int main(int words, char **word) {
    char folder[] = "/dev/shm/lmdb.XXXXXX", file[64];
    if (words != 3 || !mkdtemp(folder))
        return 2;
    unsigned count = (unsigned)strtoul(word[2], NULL, 10);
    MDB_txn *txn;
    need(mdb_env_create(&env));
    need(mdb_env_set_mapsize(env, 1ul << 28));
    need(mdb_env_open(env, folder, MDB_NOSYNC | MDB_WRITEMAP, 0600));
    need(mdb_txn_begin(env, NULL, 0, &txn));
    need(mdb_dbi_open(txn, NULL, MDB_INTEGERKEY, &cells));
    for (unsigned index = 0; index < CELLS; index++)
        put(txn, index, 0);
    need(mdb_txn_commit(txn));
    show(CELLS);
    printf("%s %u %llu\n", word[1], count, (unsigned long long)(strcmp(word[1], "readings") ? beside(count) : read_all(count)));
    mdb_env_close(env);
    for (const char **name = (const char *[]){"data.mdb", "lock.mdb", "", NULL}; *name; name++) {
        snprintf(file, sizeof file, "%s/%s", folder, *name);
        **name ? unlink(file) : rmdir(folder);
    }
    return 0;
}
