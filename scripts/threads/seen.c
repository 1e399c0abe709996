/* Checks what is shown while eight threads add to a counter: cells, who waits, who is stuck, numbers and copies. Prints
 * the first thing that isn't as it should be, or how much was seen.
 *
 * usage: seen IMAGE      It makes IMAGE, and IMAGE.1, IMAGE.2 and so on as copies. */
#include <errno.h>
#include <inttypes.h>
#include <pthread.h>
#include <stdio.h>
#include <unistd.h>

#include "luntrebis_shared.h"

enum { THREADS = 8, COPIES = 20, LOOKS = 2000, STUCK = 9, MAKER = 10, CELLS = 128 };

static struct lts *shared;
static int faults;
static _Atomic int ends;

static void expect(const char *what, int holds) {
    if (!holds && faults++ == 0) printf("%s isn't so\n", what);
}

static struct lt_outcome ask(uint8_t tag, uint16_t element, uint32_t address, uint64_t number, uint64_t value) {
    struct lt_command command = {tag, element, address, number, value};
    struct lt_outcome outcome = lts_ask(shared, &command);
    return outcome.refusal == 0 && outcome.tag == LT_WAITING ? lts_await(shared, element, number) : outcome;
}

/* Each unit adds 1 to cell 0, in three requests; the last one puts the sum into a cell of the thread's own. */
static void *work(void *given) {
    uint16_t element = *(const uint16_t *)given;
    uint64_t number = 1;
    for (; !ends; number += 3) {
        uint64_t value = ask(LT_TAKE, element, 0, number, 0).value + 1;
        if (number > 1) ask(LT_CONFIRM, element, 0, number, 0);
        ask(LT_PUT, element, 0, number + 1, value);
        ask(LT_FETCH, element, 1, number + 2, 0);
    }
    return NULL;
}

/* What is seen at one time: the counter with whoever waits for it, and how many commands there were. */
struct moment {
    struct lt_presence counter, stored;
    struct lt_waiter waiters[THREADS];
    struct lt_figures figures;
    size_t waiting;
    uint64_t count, value;
};

static void see(const struct ltf *file, void *given) {
    struct moment *now = given;
    struct lt_outcome kept = {0, 0, 0};
    now->counter = ltf_cell(file, 0);
    now->stored = ltf_cell(file, 1);
    now->waiting = ltf_waiters(file, 0, now->waiters, THREADS);
    now->figures = ltf_stat(file);
    now->count = ltf_count(file);
    for (size_t at = 0; at < now->waiting; at++) {
        struct lt_command asked = ltf_entry(file, now->waiters[at].element, now->waiters[at].number);
        expect("who waits takes", asked.tag == LT_TAKE && asked.address == 0);
        ltf_collect(file, now->waiters[at].element, now->waiters[at].number, &kept);
        expect("who waits has no answer", kept.refusal == 0 && kept.tag == LT_WAITING);
    }
    if (now->counter.state == LT_FULL) now->value = now->counter.value;
}

static void check(const struct moment *now, const struct moment *before) {
    expect("an M cell", now->counter.kind == LT_ALLOC_M && now->counter.state != LT_CLASHED);
    expect("nobody waits for a full cell", now->counter.state != LT_FULL || now->waiting == 0);
    expect("somebody waits for a cell that is waited for", (now->counter.state == LT_AWAITED) == (now->waiting > 0));
    expect("an I cell", now->stored.kind == LT_ALLOC_I && now->stored.state == LT_FULL && now->stored.value == 7);
    expect("the counter grows", now->counter.state != LT_FULL || now->value >= before->value);
    expect("the commands grow", now->count >= before->count);
    expect("the blocks", now->figures.blocks == 3 && now->figures.clashed == 0);
    expect("each cell is counted", now->figures.empty + now->figures.awaited + now->figures.full == 68);
    expect("those who wait", now->figures.waiting == 64 + now->waiting && now->figures.kept >= now->figures.waiting);
    expect("one is stuck", now->figures.full_windows == 1 && now->figures.stuck == 1);
}

/* A copy opens, and its counter is one between two moments. */
static void check_copy(const char *path, const struct moment *before, const struct moment *after) {
    struct moment copied = {.value = 0};
    struct ltf *file = NULL;
    expect("a copy opens", ltf_open(path, &file) == 0);
    if (!file) return;
    see(file, &copied);
    expect("the copy's commands", copied.count >= before->count && copied.count <= after->count);
    expect("the copy's counter", copied.counter.state != LT_FULL || (copied.value >= before->value && copied.value <= after->count));
    check(&copied, before);
    expect("a copy of the copy's name", ltf_backup(file, path) == -EEXIST);
    ltf_close(file);
    unlink(path);
}

static void check_stuck(void) {
    struct lt_waiter stuck[64];
    struct lt_presence cells[CELLS + 1];
    struct lt_presence last = lts_cell(shared, 67);
    struct lt_command oldest;
    expect("who is stuck", lts_stuck(shared, stuck, 64) == 1 && stuck[0].element == STUCK && stuck[0].number == 1);
    oldest = lts_entry(shared, STUCK, 1);
    expect("where", oldest.tag == LT_TAKE && oldest.address == 4);
    expect("for what", lts_collect(shared, STUCK, 1).tag == LT_WAITING);
    expect("nobody in no room", lts_stuck(shared, stuck, 0) == 0);
    expect("a block", last.kind == LT_ALLOC_M && last.base == 4 && last.length == 64);
    expect("no block", lts_cell(shared, 68).length == 0 && lts_cell(shared, 4000000000).kind == 0);
    expect("all cells", lts_cells(shared, 0, cells, CELLS + 1) == CELLS);
    expect("the first one of 64", cells[3].state == LT_EMPTY && cells[4].state == LT_AWAITED && cells[68].state == LT_NOWHERE);
    expect("the last cells", lts_cells(shared, CELLS - 2, cells, 9) == 2 && lts_cells(shared, CELLS, cells, 9) == 0);
    expect("no cell", lts_cell(shared, CELLS).kind == 0);
    expect("waiters", lts_waiters(shared, 4, stuck, 64) == 1);
    expect("sizes", lts_limits(shared).cells == CELLS && lts_room(shared) > 0 && lts_count(shared) > 0);
}

int main(int count, char **words) {
    pthread_t threads[THREADS];
    uint16_t elements[THREADS];
    struct moment before = {.value = 0}, now = {.value = 0};
    char path[512];
    if (count != 2 || lts_create(words[1], CELLS, 11, 256, &shared)) return 2;
    ask(LT_ALLOC_M, MAKER, 1, 1, 0);
    ask(LT_ALLOC_I, MAKER, 3, 2, 0);
    ask(LT_ALLOC_M, MAKER, 64, 3, 0);
    ask(LT_PUT, MAKER, 0, 4, 0);
    ask(LT_STORE, MAKER, 1, 5, 7);
    for (uint32_t at = 0; at < 64; at++) {
        struct lt_command take = {LT_TAKE, STUCK, 4 + at, at + 1, 0};
        lts_ask(shared, &take);
    }
    check_stuck();
    for (uint16_t at = 0; at < THREADS; at++) {
        elements[at] = at;
        if (pthread_create(&threads[at], NULL, work, &elements[at])) return 2;
    }
    for (int at = 0; at < LOOKS && faults == 0; at++) {
        struct moment last = now;
        if (lts_look(shared, see, &now)) return 2;
        check(&now, &last);
    }
    for (int at = 1; at <= COPIES && faults == 0; at++) {
        snprintf(path, sizeof path, "%s.%d", words[1], at);
        lts_look(shared, see, &before);
        expect("a copy", lts_backup(shared, path) == 0);
        lts_look(shared, see, &now);
        check_copy(path, &before, &now);
    }
    expect("no folder", lts_backup(shared, "/nowhere/copy") == -ENOENT);
    ends = 1;
    for (int at = 0; at < THREADS; at++) pthread_join(threads[at], NULL);
    lts_close(shared);
    if (faults == 0) printf("%d looks and %d copies, while %" PRIu64 " commands were served\n", LOOKS, COPIES, now.count);
    return faults != 0;
}
