/* Checks what is served together: requests of one element, confirmations, and a group that ends early. Prints the first
 * lines that aren't as they should be, or "served together".
 *
 * usage: together IMAGE */
#include <inttypes.h>
#include <stdio.h>
#include <string.h>

#include "luntrebis_file.h"

enum { CELLS = 64, SLOTS = 16, MOST = 64 };

static struct ltf *file;
static int faults;

static void fail(const char *what, const char *that, uint64_t found, uint64_t wanted) {
    if (found == wanted) return;
    faults++;
    printf("%s: %s %" PRIu64 ", and not %" PRIu64 "\n", what, that, found, wanted);
}

static void check(const char *what, const struct lt_outcome *outcome, uint8_t refusal, uint8_t tag, uint64_t value) {
    fail(what, "refusal", outcome->refusal, refusal);
    fail(what, "tag", outcome->tag, tag);
    fail(what, "value", outcome->value, value);
}

/* Requests of one element and of another, and a confirmation of those before it, in one group. */
static void serve_one_group(void) {
    const struct lt_command commands[] = {
        {LT_ALLOC_M, 0, 8, 1, 0}, {LT_PUT, 0, 0, 2, 5},  {LT_PUT, 0, 1, 3, 6}, {LT_CONFIRM, 0, 0, 4, 0},
        {LT_TAKE, 1, 0, 1, 0},    {LT_TAKE, 1, 1, 2, 0}, {LT_TAKE, 1, 2, 9, 0}, {LT_PUT, 0, 2, 4, 7},
    };
    struct lt_outcome outcomes[8];
    struct ltf_counts before = ltf_work(file), after;
    fail("one group", "answer", (uint64_t)ltf_serve_all(file, commands, 8, outcomes), 0);
    after = ltf_work(file);
    fail("one group", "groups", after.groups - before.groups, 1);
    fail("one group", "syncs", after.syncs - before.syncs, 2);
    check("a block", &outcomes[0], 0, LT_BASE, 0);
    check("a put", &outcomes[1], 0, LT_STORED, 0);
    check("a confirmation", &outcomes[3], 0, LT_CONFIRMED, 0);
    check("a take", &outcomes[4], 0, LT_VALUE, 5);
    check("the next take", &outcomes[5], 0, LT_VALUE, 6);
    check("a gap", &outcomes[6], LT_GAP, 0, 0);
    check("a put after the confirmation", &outcomes[7], 0, LT_STORED, 0);
    fail("one group", "base", ltf_window(file, 0).base, 4);
}

/* A take that waits, the put that answers it, and the confirmation of both: the confirmation is left for the next group. */
static void serve_two_groups(void) {
    const struct lt_command commands[] = {{LT_TAKE, 2, 3, 1, 0}, {LT_PUT, 2, 3, 2, 8}, {LT_CONFIRM, 2, 0, 3, 0}, {LT_PUT, 2, 3, 3, 9}};
    struct lt_outcome outcomes[4];
    size_t served, woken;
    fail("it ends", "answer", (uint64_t)ltf_serve_group(file, commands, 4, outcomes, &served), 0);
    fail("it ends", "served", served, 2);
    ltf_woken(file, &woken);
    fail("it ends", "woken", woken, 1);
    fail("it ends", "base", ltf_window(file, 2).base, 1);
    fail("the rest", "answer", (uint64_t)ltf_serve_group(file, commands + served, 2, outcomes + served, &served), 0);
    fail("the rest", "served", served, 2);
    check("it waits", &outcomes[0], 0, LT_WAITING, 0);
    check("its put", &outcomes[1], 0, LT_STORED, 0);
    check("its confirmation", &outcomes[2], 0, LT_CONFIRMED, 0);
    check("the put after it", &outcomes[3], 0, LT_STORED, 0);
    fail("the rest", "base", ltf_window(file, 2).base, 3);
    fail("none", "answer", (uint64_t)ltf_serve_group(file, commands, 0, outcomes, &served), 0);
    fail("none", "served", served, 0);
}

/* An unknown tag among requests, and more commands of one element than the journal has slots. */
static void serve_all(void) {
    struct lt_command commands[MOST];
    struct lt_outcome outcomes[MOST];
    for (uint64_t at = 0; at < MOST - 1; at++)
        commands[at] = (struct lt_command){at % 2 ? LT_TAKE : LT_PUT, 3, 4, at + 1, at};
    commands[MOST - 1] = commands[MOST - 2];
    commands[20].tag = 99;
    for (uint64_t at = 21; at < MOST - 1; at++) commands[at].number--;
    fail("all", "answer", (uint64_t)ltf_serve_all(file, commands, MOST, outcomes), 0);
    check("a tag", &outcomes[20], LT_NO_CALL, 0, 0);
    for (uint64_t at = 0; at < 20; at++) check("before it", &outcomes[at], 0, at % 2 ? LT_VALUE : LT_STORED, at % 2 ? at - 1 : 0);
    check("after it", &outcomes[21], 0, LT_WAITING, 0);
    check("the last", &outcomes[MOST - 1], 0, LT_STORED, 0);
    fail("all", "next", ltf_window(file, 3).next, MOST);
}

/* The calls of luntrebis.h on an image of their own. */
static void serve_below(void) {
    const struct lt_command commands[] = {{LT_ALLOC_I, 0, 4, 1, 0}, {LT_FETCH, 0, 0, 2, 0}, {LT_STORE, 1, 0, 1, 5},
                                          {LT_CONFIRM, 0, 0, 3, 0}, {LT_FETCH, 0, 0, 3, 0}, {99, 0, 0, 4, 0}};
    struct lt_outcome outcomes[6];
    struct lt_image image = {NULL};
    memset(outcomes, 0, sizeof outcomes);
    fail("format", "refusal", lt_format(CELLS, 4, SLOTS, &image), 0);
    fail("the first unknown", "index", lt_first_unknown(commands, 6), 5);
    fail("an unknown tag", "refusal", lt_serve_group(image, commands, 6, &image, outcomes, 6), LT_NO_CALL);
    fail("an unknown tag", "steps", lt_steps(&image), 0);
    fail("too few places", "refusal", lt_serve_group(image, commands, 5, &image, outcomes, 4), LT_NO_CALL);
    fail("a group", "refusal", lt_serve_group(image, commands, 5, &image, outcomes, 5), 0);
    fail("a group", "steps", lt_steps(&image), 6);
    check("a store", &outcomes[2], 0, LT_STORED, 0);
    check("a confirmation that is left", &outcomes[3], LT_UNSERVED, 0, 0);
    check("and what comes after it", &outcomes[4], LT_UNSERVED, 0, 0);
    fail("a group", "count", lt_count(&image), 3);
    fail("the rest", "refusal", lt_serve_group(image, commands + 3, 2, &image, outcomes + 3, 2), 0);
    check("a confirmation", &outcomes[3], 0, LT_CONFIRMED, 0);
    check("a fetch", &outcomes[4], 0, LT_VALUE, 5);
    lt_failed(image, &image);
    fail("a lost step", "refusal", lt_serve_group(image, commands, 1, &image, outcomes, 1), LT_DEVICE);
    lt_close(image);
}

int main(int count, char **words) {
    if (count != 2 || ltf_create(words[1], CELLS, 8, SLOTS, &file)) return 2;
    serve_one_group();
    serve_two_groups();
    serve_all();
    serve_below();
    ltf_close(file);
    printf(faults ? "%d faults\n" : "served together\n", faults);
    return faults != 0;
}
