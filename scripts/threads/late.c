/* Checks that a time-out loses nothing: neither a value nor an element. Prints the first thing that isn't as it should
 * be, or how often there was no answer in time.
 *
 * usage: late IMAGE */
#include <inttypes.h>
#include <stdio.h>
#include <time.h>

#include "luntrebis_shared.h"

enum { TIMES = 1000, SOON = 20000, LATE = 2000000000 }; /* Nanoseconds. */

static struct lts *shared;
static uint16_t maker, one, two, three;
static int late, faults;

static void expect(const char *what, int holds) {
    if (!holds && faults++ == 0) printf("%s isn't so\n", what);
}

static struct timespec in(long nanoseconds) {
    struct timespec time;
    clock_gettime(CLOCK_MONOTONIC, &time);
    time.tv_nsec += nanoseconds % 1000000000;
    time.tv_sec += nanoseconds / 1000000000 + time.tv_nsec / 1000000000;
    time.tv_nsec %= 1000000000;
    return time;
}

static void put(uint32_t cell, uint64_t value) {
    expect("a put is stored", lts_call(shared, maker, LT_PUT, cell, value).tag == LT_STORED);
}

/* Takes a cell that is empty, until the request is asked. Returns its number. */
static uint64_t take(uint16_t element, uint32_t cell) {
    uint64_t number = 0;
    while (number == 0) {
        struct timespec end = in(SOON);
        struct lt_outcome outcome = lts_call_until(shared, element, LT_TAKE, cell, 0, &end, &number);
        expect("the take waits", outcome.refusal == 0 && outcome.tag == LT_WAITING);
        late++;
    }
    return number;
}

static struct lt_outcome await(uint16_t element, uint64_t number, long nanoseconds) {
    struct timespec end = in(nanoseconds);
    return lts_await_until(shared, element, number, &end);
}

/* A request is waited for again and again, under its number. Its element goes on afterwards. */
static void wait_again(void) {
    uint64_t number = take(one, 0);
    struct lt_bounds window;
    for (int at = 1; at < TIMES; at++) {
        expect("it still waits", await(one, number, SOON).tag == LT_WAITING);
        late++;
    }
    window = lts_window(shared, one);
    expect("it is one request", window.base == 1 && window.next == 2 && number == 1);
    put(0, 77);
    expect("the value comes", await(one, number, LATE).value == 77);
    for (int at = 0; at < TIMES; at++) {
        expect("a put of its own", lts_call(shared, one, LT_PUT, 0, 1).tag == LT_STORED);
        expect("a take of its own", lts_call(shared, one, LT_TAKE, 0, 0).value == 1);
    }
}

/* What came too late is kept until somebody gets it: 63 requests behind it the window is full. */
static void keep_late(void) {
    uint64_t number = take(one, 0), at = 0;
    put(0, 88);
    while (at < 200 && lts_call(shared, one, at % 2 ? LT_TAKE : LT_PUT, 2, 3).refusal == 0) at++;
    expect("the window is full", at == 63);
    expect("it is kept", await(one, number, LATE).value == 88);
    for (int times = 0; times < TIMES; times++, at++)
        expect("it goes on", lts_call(shared, one, at % 2 ? LT_TAKE : LT_PUT, 2, 3).refusal == 0);
}

/* An element isn't leased while one of its takes waits. */
static void give_back(void) {
    uint16_t other = 0;
    take(two, 1);
    lts_give_back(shared, two);
    expect("the next one is leased", lts_lease(shared, &three) == 0 && three != two);
    expect("there is none", lts_lease(shared, &other) == LT_NO_ELEMENT);
    put(1, 5);
    expect("it is free", lts_lease(shared, &other) == 0 && other == two);
}

int main(int count, char **words) {
    if (count != 2 || lts_create(words[1], 8, 4, 256, &shared)) return 2;
    if (lts_lease(shared, &maker) || lts_lease(shared, &one) || lts_lease(shared, &two)) return 2;
    expect("a block", lts_call(shared, maker, LT_ALLOC_M, 8, 0).tag == LT_BASE);
    wait_again();
    keep_late();
    give_back();
    lts_close(shared);
    if (faults == 0) printf("%d time-outs, and nothing lost\n", late);
    return faults != 0;
}
