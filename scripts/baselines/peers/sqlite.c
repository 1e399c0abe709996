/* SQLite with its write-ahead log, synced at each commit. All threads use one connection in turn, which is faster than a
 * connection each. */
#include <pthread.h>
#include <sqlite3.h>
#include <stdio.h>
#include <stdlib.h>

#include "peers.h"

static sqlite3 *base;
static sqlite3_stmt *insertion, *begin, *commit;
static pthread_mutex_t lock = PTHREAD_MUTEX_INITIALIZER;

static void need(int is_well) {
    if (is_well) return;
    fprintf(stderr, "sqlite: %s\n", base ? sqlite3_errmsg(base) : "none");
    exit(1);
}

static sqlite3_stmt *prepared(const char *text) {
    sqlite3_stmt *made = NULL;
    need(sqlite3_prepare_v2(base, text, -1, &made, NULL) == SQLITE_OK);
    return made;
}

static void step(sqlite3_stmt *statement) {
    need(sqlite3_step(statement) == SQLITE_DONE);
    sqlite3_reset(statement);
}

void store_make(const char *path) {
    need(sqlite3_open(path, &base) == SQLITE_OK);
    need(sqlite3_exec(base, "PRAGMA journal_mode=WAL; PRAGMA synchronous=FULL; CREATE TABLE cell(a INTEGER PRIMARY KEY, v INTEGER)",
                      NULL, NULL, NULL) == SQLITE_OK);
    insertion = prepared("INSERT INTO cell VALUES(?,?)");
    begin = prepared("BEGIN");
    commit = prepared("COMMIT");
}

void store_open(const char *path, uint32_t key, uint64_t value) {
    need(sqlite3_open(path, &base) == SQLITE_OK);
    sqlite3_stmt *selection = prepared("SELECT v FROM cell WHERE a=?");
    sqlite3_bind_int64(selection, 1, key);
    need(sqlite3_step(selection) == SQLITE_ROW && (uint64_t)sqlite3_column_int64(selection, 0) == value);
}

void store_put(uint32_t key, uint64_t value) {
    sqlite3_bind_int64(insertion, 1, key);
    sqlite3_bind_int64(insertion, 2, (sqlite3_int64)value);
    step(insertion);
}

void store_put_together(uint32_t first, uint64_t value) {
    step(begin);
    for (uint32_t at = 0; at < TOGETHER; at++) store_put(first + at, value);
    step(commit);
}

void store_share(const char *path) { store_make(path); }

void store_put_of(unsigned thread, uint32_t key, uint64_t value) {
    (void)thread;
    pthread_mutex_lock(&lock);
    store_put(key, value);
    pthread_mutex_unlock(&lock);
}
