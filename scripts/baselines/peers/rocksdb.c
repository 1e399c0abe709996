/* RocksDB, each write of which is synced. Its log puts together what threads write at one time. */
#include <rocksdb/c.h>
#include <stdio.h>
#include <stdlib.h>
#include <string.h>

#include "peers.h"

static rocksdb_t *base;
static rocksdb_writeoptions_t *synced;

static void need(const char *error) {
    if (!error) return;
    fprintf(stderr, "rocksdb: %s\n", error);
    exit(1);
}

static void open_at(const char *path, int is_new) {
    char *error = NULL;
    rocksdb_options_t *options = rocksdb_options_create();
    rocksdb_options_set_create_if_missing(options, (unsigned char)is_new);
    base = rocksdb_open(options, path, &error);
    need(error);
    synced = rocksdb_writeoptions_create();
    rocksdb_writeoptions_set_sync(synced, 1);
}

void store_make(const char *path) { open_at(path, 1); }

void store_open(const char *path, uint32_t key, uint64_t value) {
    char *error = NULL;
    size_t length = 0;
    open_at(path, 0);
    char *data = rocksdb_get(base, rocksdb_readoptions_create(), (char *)&key, sizeof key, &length, &error);
    need(error);
    if (length != sizeof value || memcmp(data, &value, sizeof value)) exit(1);
}

void store_put(uint32_t key, uint64_t value) {
    char *error = NULL;
    rocksdb_put(base, synced, (char *)&key, sizeof key, (char *)&value, sizeof value, &error);
    need(error);
}

void store_put_together(uint32_t first, uint64_t value) {
    char *error = NULL;
    rocksdb_writebatch_t *batch = rocksdb_writebatch_create();
    for (uint32_t key = first; key < first + TOGETHER; key++)
        rocksdb_writebatch_put(batch, (char *)&key, sizeof key, (char *)&value, sizeof value);
    rocksdb_write(base, synced, batch, &error);
    rocksdb_writebatch_destroy(batch);
    need(error);
}

void store_share(const char *path) { store_make(path); }

void store_put_of(unsigned thread, uint32_t key, uint64_t value) {
    (void)thread;
    store_put(key, value);
}
