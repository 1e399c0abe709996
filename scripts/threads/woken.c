/* Checks by ltf_woken whom each call resumes. Prints the first line that isn't as it should be, or "woken as they
 * waited".
 *
 * usage: woken IMAGE */
#include <inttypes.h>
#include <stdio.h>
#include <string.h>

#include "luntrebis_file.h"

enum { I = 0, M = 8 }; /* Two blocks of eight cells: of I cells from 0 on, and of M cells behind it. */

static struct ltf *file;
static int faults;

/* The resumed requests, as `element.number` each. */
static void expect(const char *what, const char *wanted) {
    char found[256] = "";
    size_t count, used = 0;
    const struct lt_waiter *woken = ltf_woken(file, &count);
    for (size_t at = 0; at < count && used < sizeof found - 32; at++)
        used += (size_t)snprintf(found + used, sizeof found - used, " %d.%" PRIu64, woken[at].element, woken[at].number);
    if (strcmp(found, wanted) == 0) return;
    faults++;
    printf("%s: woken%s, and not%s\n", what, found, wanted);
}

/* Serves commands one after another, or together. */
static void serve(const char *what, const struct lt_command *commands, size_t count, const char *wanted) {
    struct lt_outcome outcomes[16];
    int answer = count == 1 ? ltf_serve(file, commands, outcomes) : ltf_serve_all(file, commands, count, outcomes);
    if (answer) printf("%s: %d\n", what, answer);
    faults += answer != 0;
    expect(what, wanted);
}

#define SERVE(what, wanted, ...) \
    do { \
        const struct lt_command commands[] = {__VA_ARGS__}; \
        serve(what, commands, sizeof commands / sizeof commands[0], wanted); \
    } while (0)

int main(int count, char **words) {
    struct lt_waiter waiters[2] = {{0, 0}, {0, 0}};
    if (count != 2 || ltf_create(words[1], 64, 8, 16, &file)) return 2;
    SERVE("blocks", "", {LT_ALLOC_I, 0, 8, 1, 0}, {LT_ALLOC_M, 0, 8, 2, 0});
    SERVE("readers wait", "", {LT_FETCH, 1, I, 1, 0}, {LT_FETCH, 2, I, 1, 0}, {LT_FETCH, 3, I + 1, 1, 0});
    SERVE("a taker waits", "", {LT_TAKE, 3, M, 2, 0});
    SERVE("and another", "", {LT_TAKE, 2, M, 2, 0});
    if (ltf_waiters(file, M, waiters, 2) != 2 || waiters[0].element != 3 || waiters[1].element != 2) faults++;
    if (ltf_waiters(file, I, waiters, 1) != 1 || waiters[0].element != 1) faults++;
    SERVE("a store of a cell for which nobody waits", "", {LT_STORE, 0, I + 2, 3, 5});
    SERVE("a store", " 1.1 2.1", {LT_STORE, 0, I, 4, 5});
    SERVE("the same again", "", {LT_STORE, 0, I, 4, 5});
    SERVE("a second store", "", {LT_STORE, 0, I, 5, 6});
    SERVE("a put", " 3.2", {LT_PUT, 0, M, 6, 5});
    SERVE("the same again", "", {LT_PUT, 0, M, 6, 5});
    SERVE("a put of the wrong kind, and a store", " 3.1", {LT_PUT, 4, I + 1, 1, 5}, {LT_STORE, 0, I + 1, 7, 5});
    SERVE("two puts for one who waits and one who comes", " 2.2 1.2", {LT_TAKE, 1, M, 2, 0}, {LT_PUT, 0, M, 8, 6}, {LT_PUT, 4, M, 2, 7});
    SERVE("one who comes behind the store doesn't wait", "", {LT_STORE, 0, I + 3, 9, 5}, {LT_FETCH, 1, I + 3, 3, 0});
    SERVE("one who comes before it does", " 1.4", {LT_FETCH, 1, I + 4, 4, 0}, {LT_STORE, 0, I + 4, 10, 5});
    SERVE("several in turn", " 2.3 3.3", {LT_FETCH, 2, I + 5, 3, 0}, {LT_STORE, 0, I + 5, 11, 5}, {LT_TAKE, 3, M + 1, 3, 0}, {LT_PUT, 0, M + 1, 12, 5});
    SERVE("one who asks again while it waits", "", {LT_TAKE, 5, M + 2, 1, 0});
    SERVE("is told once", " 5.1", {LT_TAKE, 5, M + 2, 1, 0}, {LT_PUT, 0, M + 2, 13, 5});
    SERVE("a confirmation", "", {LT_CONFIRM, 0, 0, 14, 0});
    ltf_close(file);
    printf(faults ? "%d faults\n" : "woken as they waited\n", faults);
    return faults != 0;
}
