/* Threads that each put and take at a cell of their own. Each command is on the disk before the next one.
 *
 * usage: bench THREADS COMMANDS SLOTS IMAGE
 *
 * It prints the threads, the nanoseconds of a command, and the groups, syncs and writes of a command. */
#include <inttypes.h>
#include <pthread.h>
#include <stdio.h>
#include <stdlib.h>
#include <time.h>

#include "luntrebis_shared.h"

enum { MOST = 63 };

static struct lts *shared;
static unsigned long commands;
static pthread_barrier_t begin;

static double now(void) {
    struct timespec time;
    clock_gettime(CLOCK_MONOTONIC, &time);
    return (double)time.tv_sec * 1e9 + (double)time.tv_nsec;
}

static void *work(void *given) {
    uint16_t element = *(const uint16_t *)given;
    pthread_barrier_wait(&begin);
    for (unsigned long at = 0; at < commands; at++) {
        uint8_t tag = at % 2 ? LT_TAKE : LT_PUT;
        struct lt_outcome outcome = lts_call(shared, element, tag, element, at);
        if (outcome.refusal || outcome.tag != (at % 2 ? LT_VALUE : LT_STORED)) exit(1);
    }
    return NULL;
}

int main(int count, char **words) {
    pthread_t threads[MOST];
    uint16_t elements[MOST], first;
    struct ltf_counts before, after;
    unsigned long members = count == 5 ? strtoul(words[1], NULL, 10) : 0;
    double start, all;
    if (members < 1 || members > MOST) return 2;
    commands = strtoul(words[2], NULL, 10) / members;
    if (lts_create(words[4], 64, 64, (uint32_t)strtoul(words[3], NULL, 10), &shared)) return 1;
    if (lts_lease(shared, &first) || lts_call(shared, first, LT_ALLOC_M, 64, 0).refusal) return 1;
    pthread_barrier_init(&begin, NULL, (unsigned)members + 1);
    for (unsigned long at = 0; at < members; at++)
        if (lts_lease(shared, &elements[at]) || pthread_create(&threads[at], NULL, work, &elements[at])) return 1;
    before = lts_work(shared);
    pthread_barrier_wait(&begin);
    start = now();
    for (unsigned long at = 0; at < members; at++) pthread_join(threads[at], NULL);
    all = (double)(commands * members);
    start = now() - start;
    after = lts_work(shared);
    printf("%lu %.0f %.4f %.4f %.4f\n", members, start / all, (double)(after.groups - before.groups) / all,
           (double)(after.syncs - before.syncs) / all, (double)(after.writes - before.writes) / all);
    lts_close(shared);
    return 0;
}
