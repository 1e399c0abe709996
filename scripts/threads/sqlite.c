/* The same as bench.c, with SQLite and its write-ahead log. Each insertion is synced. All threads use one connection in
 * turn, which is faster than a connection each. usage: sqlite THREADS COMMANDS FILE */
#include <pthread.h>
#include <sqlite3.h>
#include <stdio.h>
#include <stdlib.h>
#include <time.h>

enum { MOST = 64 };

static sqlite3 *base;
static sqlite3_stmt *insertion;
static unsigned long commands;
static pthread_mutex_t lock = PTHREAD_MUTEX_INITIALIZER;

static double now(void) {
    struct timespec time;
    clock_gettime(CLOCK_MONOTONIC, &time);
    return (double)time.tv_sec * 1e9 + (double)time.tv_nsec;
}

static void *work(void *given) {
    const unsigned long *thread = given;
    for (unsigned long at = 0; at < commands; at++) {
        pthread_mutex_lock(&lock);
        sqlite3_bind_int64(insertion, 1, (sqlite3_int64)(at * 1024 + *thread));
        sqlite3_bind_int64(insertion, 2, (sqlite3_int64)at);
        if (sqlite3_step(insertion) != SQLITE_DONE) exit(1);
        sqlite3_reset(insertion);
        pthread_mutex_unlock(&lock);
    }
    return NULL;
}

int main(int count, char **words) {
    pthread_t threads[MOST];
    unsigned long numbers[MOST], members = count == 4 ? strtoul(words[1], NULL, 10) : 0;
    double start;
    if (members < 1 || members > MOST || sqlite3_open(words[3], &base)) return 2;
    commands = strtoul(words[2], NULL, 10) / members;
    if (sqlite3_exec(base, "PRAGMA journal_mode=WAL; PRAGMA synchronous=FULL; CREATE TABLE cell(a INTEGER PRIMARY KEY, v INTEGER)",
                     NULL, NULL, NULL))
        return 1;
    if (sqlite3_prepare_v2(base, "INSERT INTO cell VALUES(?,?)", -1, &insertion, NULL)) return 1;
    start = now();
    for (unsigned long at = 0; at < members; at++) {
        numbers[at] = at;
        if (pthread_create(&threads[at], NULL, work, &numbers[at])) return 1;
    }
    for (unsigned long at = 0; at < members; at++) pthread_join(threads[at], NULL);
    printf("%lu %.0f\n", members, (now() - start) / (double)(members * commands));
    return 0;
}
