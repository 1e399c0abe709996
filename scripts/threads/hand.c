/* Pairs of elements that hand items to each other, an item and a token for it in turn, until the program is killed or
 * its time is over. Each answer is printed as `K.N REPLY` once it has come. On an existing image they continue where
 * the run before was stopped.
 *
 * usage: hand IMAGE SECONDS */
#include <inttypes.h>
#include <pthread.h>
#include <stdio.h>
#include <stdlib.h>
#include <time.h>
#include <unistd.h>

#include "luntrebis_shared.h"

enum { MEMBERS = 30, KEPT = 48 };

static struct lts *shared;
static time_t end;

static void say(uint16_t element, uint64_t number, struct lt_outcome outcome) {
    char line[96];
    int length = outcome.tag == LT_STORED
        ? snprintf(line, sizeof line, "%d.%" PRIu64 " stored\n", element, number)
        : snprintf(line, sizeof line, "%d.%" PRIu64 " value %" PRIu64 "\n", element, number, outcome.value);
    if (write(1, line, (size_t)length) != length) _exit(3);
}

static void stop(uint16_t element, uint64_t number, struct lt_outcome outcome) {
    fprintf(stderr, "%d.%" PRIu64 " refused %d tag %d\n", element, number, outcome.refusal, outcome.tag);
    _exit(4);
}

/* What the run before left: waits for the requests that waited, and prints the others again. */
static void go_on(uint16_t element, struct lt_bounds window) {
    for (uint64_t number = window.base; number < window.next; number++) {
        struct lt_outcome outcome = lts_await(shared, element, number);
        if (outcome.refusal) stop(element, number, outcome);
        say(element, number, outcome);
    }
}

/* The item with a number is the number itself. Even elements take it and give a token back; odd ones do the
 * opposite. */
static void hand(uint16_t element, uint64_t number) {
    int puts = element % 2 == 1 ? number % 2 == 1 : number % 2 == 0;
    uint32_t cell = element / 2u + (number % 2 == 1 ? 0 : 32);
    struct lt_command command = {puts ? LT_PUT : LT_TAKE, element, cell, number, number};
    struct lt_outcome outcome = lts_ask(shared, &command);
    if (outcome.refusal == 0 && outcome.tag == LT_WAITING) outcome = lts_await(shared, element, number);
    if (outcome.refusal == LT_NO_CALL) return;
    if (outcome.refusal || outcome.tag != (puts ? LT_STORED : LT_VALUE)) stop(element, number, outcome);
    if (!puts && outcome.value != number) stop(element, number, outcome);
    say(element, number, outcome);
}

static void *work(void *given) {
    uint16_t element = *(const uint16_t *)given;
    struct lt_bounds window = lts_window(shared, element);
    uint64_t base = window.base;
    go_on(element, window);
    for (uint64_t number = window.next; time(NULL) < end; number++) {
        if (number - base >= KEPT) {
            struct lt_command command = {LT_CONFIRM, element, 0, number, 0};
            struct lt_outcome outcome = lts_ask(shared, &command);
            if (outcome.refusal) stop(element, number, outcome);
            base = number;
        }
        hand(element, number);
    }
    return NULL;
}

int main(int count, char **words) {
    pthread_t threads[MEMBERS];
    uint16_t elements[MEMBERS];
    struct lt_command block = {LT_ALLOC_M, MEMBERS, 64, 1, 0};
    if (count != 3 || lts_open_or_create(words[1], 64, MEMBERS + 1, 256, &shared)) return 2;
    if (lts_ask(shared, &block).refusal) return 1;
    if (write(1, "opened\n", 7) != 7) return 1;
    end = time(NULL) + strtol(words[2], NULL, 10);
    for (uint16_t at = 0; at < MEMBERS; at++) {
        elements[at] = at;
        if (pthread_create(&threads[at], NULL, work, &elements[at])) return 1;
    }
    sleep((unsigned)strtoul(words[2], NULL, 10) + 1);
    lts_close(shared); /* Who waits is told so. */
    _exit(0);
}
