/* Times what a store does. Each of its four files is linked with this one.
 *
 * usage: PROGRAM single|together|threads COUNT PATH     COUNT puts, groups of sixteen, or puts of sixteen threads, on a
 *                                                       new store
 *        PROGRAM fill COUNT PATH                        COUNT puts, and an end without closing
 *        PROGRAM open COUNT PATH                        opens what `fill` left
 *
 * It prints the nanoseconds of a put, of a group, or of the opening, and the syncs of each, which sync.c counts. */
#include <dlfcn.h>
#include <pthread.h>
#include <stdio.h>
#include <stdlib.h>
#include <string.h>
#include <time.h>
#include <unistd.h>

#include "peers.h"

static pthread_barrier_t begin;
static uint32_t each;

static double now(void) {
    struct timespec time;
    clock_gettime(CLOCK_MONOTONIC, &time);
    return (double)time.tv_sec * 1e9 + (double)time.tv_nsec;
}

static long syncs(void) {
    long (*counted)(void) = (long (*)(void))dlsym(RTLD_DEFAULT, "counted_syncs");
    return counted ? counted() : 0;
}

/* Keys that aren't neighbours, each once. */
static uint32_t key_of(uint32_t index) { return index * 40503u % KEYS; }

static void *work(void *which) {
    unsigned thread = (unsigned)(uintptr_t)which;
    pthread_barrier_wait(&begin);
    for (uint32_t at = 0; at < each; at++) store_put_of(thread, key_of(at * THREADS + thread), at + 1);
    return NULL;
}

static void share(uint32_t count, const char *path) {
    pthread_t threads[THREADS];
    each = count / THREADS;
    store_share(path);
    pthread_barrier_init(&begin, NULL, THREADS + 1);
    for (uintptr_t at = 0; at < THREADS; at++)
        if (pthread_create(&threads[at], NULL, work, (void *)at)) exit(1);
    double start = now();
    long before = syncs();
    pthread_barrier_wait(&begin);
    for (int at = 0; at < THREADS; at++) pthread_join(threads[at], NULL);
    double all = (double)each * THREADS;
    printf("%.0f %.4f\n", (now() - start) / all, (double)(syncs() - before) / all);
}

int main(int words, char **word) {
    if (words != 4) return 2;
    const char *what = word[1], *path = word[3];
    uint32_t count = (uint32_t)strtoul(word[2], NULL, 10);
    if (!strcmp(what, "threads")) {
        share(count, path);
    } else if (!strcmp(what, "open")) {
        long before = syncs();
        double start = now();
        store_open(path, key_of(count - 1), count);
        printf("%.0f %.4f\n", now() - start, (double)(syncs() - before));
    } else {
        int is_group = !strcmp(what, "together");
        store_make(path);
        long before = syncs();
        double start = now();
        for (uint32_t at = 0; at < count; at++)
            if (is_group)
                store_put_together(at * TOGETHER % KEYS, at + 1);
            else
                store_put(key_of(at), at + 1);
        printf("%.0f %.4f\n", (now() - start) / count, (double)(syncs() - before) / count);
    }
    fflush(stdout);
    _exit(0); /* As a killed program ends. */
}
