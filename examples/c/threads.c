/* The wavefront by sixteen threads on one image: a thread for each row, which is an element, and whose requests are
 * numbered by their place. A thread that fetches a cell that isn't stored yet sleeps until it is. It may be killed at any
 * moment, and is simply run again.
 *
 * usage: threads IMAGE */
#include <errno.h>
#include <inttypes.h>
#include <pthread.h>
#include <stdio.h>
#include <stdlib.h>

#include "luntrebis_shared.h"

enum { SIDE = 16 };

static struct lts *shared;

/* The answer to a request, however long it takes. */
static uint64_t ask(uint8_t tag, uint16_t row, uint32_t address, uint64_t number, uint64_t value) {
    struct lt_command command = {tag, row, address, number, value};
    struct lt_outcome outcome = lts_ask(shared, &command);
    if (outcome.refusal == 0 && outcome.tag == LT_WAITING) outcome = lts_await(shared, row, number);
    if (outcome.refusal) exit(1);
    return outcome.value;
}

static void *fill_row(void *given) {
    uint16_t row = *(const uint16_t *)given;
    uint64_t cell = row == 0;
    for (uint32_t column = 0; column < SIDE; column++) {
        if (row == 0) {
            ask(LT_STORE, 0, column, column + 2, cell);
        } else {
            cell += ask(LT_FETCH, row, (uint32_t)(row - 1) * SIDE + column, 2 * column + 1, 0);
            ask(LT_STORE, row, (uint32_t)row * SIDE + column, 2 * column + 2, cell);
        }
    }
    return NULL;
}

int main(int count, char **words) {
    pthread_t threads[SIDE];
    uint16_t rows[SIDE];
    char why[128];
    int answer = count == 2 ? lts_open_or_create(words[1], SIDE * SIDE, SIDE, 256, &shared) : -EINVAL;
    if (answer) {
        ltf_say(answer, why, sizeof why);
        fprintf(stderr, "threads: %s\n", why);
        return 1;
    }
    ask(LT_ALLOC_I, 0, SIDE * SIDE, 1, 0);
    for (uint16_t row = SIDE; row-- > 0;) {
        rows[row] = row;
        if (pthread_create(&threads[row], NULL, fill_row, &rows[row])) return 1;
    }
    for (uint16_t row = 0; row < SIDE; row++) pthread_join(threads[row], NULL);
    printf("corner %" PRIu64 "\n", ask(LT_FETCH, SIDE - 1, SIDE * SIDE - 1, 2 * SIDE + 1, 0));
    lts_close(shared);
    return 0;
}
