/* How a program goes on where it was stopped: it adds up 1 to 100, a unit of work each, in an M-structure cell of an image
 * file. It may be killed at any moment, and is simply run again.
 *
 * usage: restart IMAGE */
#include <errno.h>
#include <inttypes.h>
#include <stdio.h>
#include <stdlib.h>

#include "luntrebis_file.h"

enum { UNITS = 100, EACH = 2 };

static uint64_t ask(struct ltf *file, uint8_t tag, uint64_t number, uint64_t value) {
    struct lt_command command = {tag, 0, tag == LT_ALLOC_M, number, value};
    struct lt_outcome outcome;
    if (ltf_serve(file, &command, &outcome)) exit(1);
    return outcome.value;
}

/* The twenty lines. */
static uint64_t go_on(struct ltf *file) {
    struct lt_bounds window = ltf_window(file, 0);
    /* The unit that was begun last, or the next one: each has EACH requests, so their numbers tell. */
    for (uint64_t unit = (window.next - 1) / EACH; unit <= UNITS; unit++) {
        uint64_t first = unit * EACH + 1;
        if (unit == 0) {
            ask(file, LT_ALLOC_M, first, 0); /* Asked again under its number, each is answered as before. */
            ask(file, LT_PUT, first + 1, 0);
        } else {
            uint64_t sum = ask(file, LT_TAKE, first, 0);
            ask(file, LT_PUT, first + 1, sum + unit);
        }
        /* A unit late: what a stop makes us ask again is kept. */
        ask(file, LT_CONFIRM, first, 0);
    }
    window = ltf_window(file, 0);
    return ltf_entry(file, 0, window.next - 1).value;
}

int main(int count, char **words) {
    struct ltf *file;
    char why[128];
    int answer = count == 2 ? ltf_open_or_create(words[1], 1, 1, 16, &file) : -EINVAL;
    if (answer) {
        ltf_say(answer, why, sizeof why);
        fprintf(stderr, "restart: %s\n", why);
        return 1;
    }
    printf("sum %" PRIu64 "\n", go_on(file));
    ltf_close(file);
    return 0;
}
