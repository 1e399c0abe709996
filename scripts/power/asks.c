// Threads that take a counter, add one and put it back, over luntrebis_shared.h, for scripts/power-cut. It makes the image or continues it, and
// prints each answer once it has it: E.N REPLY.
#include <inttypes.h>
#include <pthread.h>
#include <stdio.h>
#include <stdlib.h>
#include <unistd.h>

#include "luntrebis_shared.h"

enum { CELLS = 24, ELEMENTS = 3, SLOTS = 16, ROUNDS = 12 };
static struct lts *shared;

static uint64_t ask(uint8_t tag, uint16_t element, uint32_t address, uint64_t number, uint64_t value) {
    struct lt_command command = {tag, element, address, number, value};
    struct lt_outcome outcome = lts_ask(shared, &command);
    if (outcome.refusal == 0 && outcome.tag == LT_WAITING) outcome = lts_await(shared, element, number);
    if (outcome.refusal) exit(1);
    char line[80];
    int length = snprintf(line, sizeof line, "%u.%" PRIu64 " ", element, number);
    length += outcome.tag == LT_STORED ? snprintf(line + length, sizeof line - length, "stored\n")
                                       : snprintf(line + length, sizeof line - length, "%s %" PRIu64 "\n", outcome.tag == LT_BASE ? "base" : "value", outcome.value);
    if (write(1, line, length) != length) exit(1);
    return outcome.value;
}

static void *count(void *given) {
    uint16_t element = *(const uint16_t *)given;
    for (uint64_t number = 1; number <= 2 * ROUNDS; number += 2)
        ask(LT_PUT, element, 0, number + 1, 1 + ask(LT_TAKE, element, 0, number, 0));
    return NULL;
}

int main(int words, char **word) {
    pthread_t threads[ELEMENTS];
    uint16_t elements[ELEMENTS] = {0, 1, 2};
    if (words != 2 || lts_open_or_create(word[1], CELLS, ELEMENTS, SLOTS, &shared)) return 1;
    ask(LT_ALLOC_M, 0, 1, 1, 0);
    ask(LT_PUT, 0, 0, 2, 0);
    for (uint16_t it = 1; it < ELEMENTS; it++)
        if (pthread_create(&threads[it], NULL, count, &elements[it])) return 1;
    for (uint16_t it = 1; it < ELEMENTS; it++) pthread_join(threads[it], NULL);
    lts_close(shared);
    return 0;
}
