// Synced writes of sixteen threads to RocksDB, whose log groups them.
//
// usage: rocksdb_puts FOLDER COUNT      COUNT puts of each thread
//
// It prints the nanoseconds of all puts together. Links with -lrocksdb -lpthread.
#include <pthread.h>
#include <rocksdb/c.h>
#include <stdint.h>
#include <stdio.h>
#include <stdlib.h>
#include <time.h>

enum { THREADS = 16 };
static rocksdb_t *db;
static unsigned long count;

static void *put_all(void *which) {
    rocksdb_writeoptions_t *synced = rocksdb_writeoptions_create();
    rocksdb_writeoptions_set_sync(synced, 1);
    for (unsigned long i = 0; i < count; i++) {
        uint64_t key = (uintptr_t)which * count + i, value = key + 7;
        char *error = NULL;
        rocksdb_put(db, synced, (char *)&key, sizeof key, (char *)&value, sizeof value, &error);
        if (error) {
            fprintf(stderr, "rocksdb: %s\n", error);
            exit(1);
        }
    }
    rocksdb_writeoptions_destroy(synced);
    return NULL;
}

static long long now(void) {
    struct timespec time;
    clock_gettime(CLOCK_MONOTONIC, &time);
    return time.tv_sec * 1000000000LL + time.tv_nsec;
}

int main(int words, char **word) {
    if (words != 3)
        return 2;
    char *error = NULL;
    pthread_t threads[THREADS];
    rocksdb_options_t *options = rocksdb_options_create();
    rocksdb_options_set_create_if_missing(options, 1);
    db = rocksdb_open(options, word[1], &error);
    count = strtoul(word[2], NULL, 10);
    if (error) {
        fprintf(stderr, "rocksdb: %s\n", error);
        return 1;
    }
    long long start = now();
    for (uintptr_t i = 0; i < THREADS; i++)
        if (pthread_create(&threads[i], NULL, put_all, (void *)i))
            return 1;
    for (int i = 0; i < THREADS; i++)
        pthread_join(threads[i], NULL);
    printf("%lld\n", now() - start);
    rocksdb_close(db);
    return 0;
}
