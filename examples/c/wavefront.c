/* A wavefront over an I-structure array of six rows of six, in an image file: each cell is the sum of the cell above and
 * the cell to the left, and 1 at the upper and left edges. Each row is an element that asks for the row above before it
 * is there, and goes on as its answer has come: one thread, split-phase fetches, no order of the rows but that of the
 * data. Each answer is printed as the file has it.
 *
 * usage: wavefront IMAGE      It makes the image where there is none. A run that was stopped is simply run again: what
 * was asked before is answered as before, as each element asks the same under the same numbers, 64 at most. */
#include <inttypes.h>
#include <stdio.h>
#include <stdlib.h>

#include "luntrebis_file.h"

enum { SIDE = 6, SLOTS = 16 };

static struct ltf *file;

static uint64_t grid[SIDE][SIDE];

/* Where a row is: its next column, the number of its next request, and whether it waits. */
static struct row {
    uint32_t column;
    uint64_t number;
    int waits;
} rows[SIDE];

static void tell(uint16_t element, uint64_t number, struct lt_outcome outcome) {
    printf("%d.%" PRIu64, element, number);
    if (outcome.tag == LT_BASE) printf(" base %" PRIu64 "\n", outcome.value);
    if (outcome.tag == LT_VALUE) printf(" value %" PRIu64 "\n", outcome.value);
    if (outcome.tag == LT_STORED) printf(" stored\n");
    fflush(stdout);
}

/* Ends the program at what is no answer. */
static void need(int answer) {
    char why[128];
    if (answer == 0) return;
    ltf_say(answer, why, sizeof why);
    fprintf(stderr, "wavefront: %s\n", why);
    exit(1);
}

static struct lt_outcome ask(uint8_t tag, uint16_t element, uint32_t address, uint64_t number, uint64_t value) {
    struct lt_command command = {tag, element, address, number, value};
    struct lt_outcome outcome;
    need(ltf_serve(file, &command, &outcome));
    if (outcome.tag != LT_WAITING) tell(element, number, outcome);
    return outcome;
}

/* The cell above, or -1 while it isn't there. */
static int64_t above(uint16_t at) {
    struct row *row = &rows[at];
    struct lt_outcome outcome;
    if (row->waits) {
        need(ltf_collect(file, at, row->number, &outcome));
        if (outcome.tag != LT_WAITING) tell(at, row->number, outcome);
    } else {
        outcome = ask(LT_FETCH, at, (uint32_t)(at - 1) * SIDE + row->column, row->number, 0);
    }
    row->waits = outcome.tag == LT_WAITING;
    if (row->waits) return -1;
    row->number++;
    return (int64_t)outcome.value;
}

/* Goes on with a row until it waits or ends. Whether it has ended. */
static int go_on(uint16_t at) {
    struct row *row = &rows[at];
    while (row->column < SIDE) {
        uint64_t cell = 1;
        if (at > 0 && row->column > 0) {
            int64_t value = above(at);
            if (value < 0) return 0;
            cell = grid[at][row->column - 1] + (uint64_t)value;
        }
        ask(LT_STORE, at, at * SIDE + row->column, row->number++, cell);
        grid[at][row->column++] = cell;
    }
    return 1;
}

int main(int count, char **words) {
    int ended = 0;
    if (count != 2) return 2;
    need(ltf_open_or_create(words[1], SIDE * SIDE, SIDE, SLOTS, &file));
    ask(LT_ALLOC_I, 0, SIDE * SIDE, 1, 0);
    for (uint16_t at = 0; at < SIDE; at++) rows[at] = (struct row){0, at == 0 ? 2 : 1, 0};
    /* The last row first: each asks before there is an answer. */
    while (ended < SIDE) {
        ended = 0;
        for (int at = SIDE - 1; at >= 0; at--) ended += go_on((uint16_t)at);
    }
    for (int at = 0; at < SIDE; at++)
        for (int column = 0; column < SIDE; column++)
            printf("%" PRIu64 "%s", grid[at][column], column < SIDE - 1 ? " " : "\n");
    ltf_close(file);
    return 0;
}
