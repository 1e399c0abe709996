/* Checks what is asked by the front of a file: its order, the numbers that it gives, and a chain of groups. Prints the
 * first lines that aren't as they should be, or "told in order".
 *
 * usage: front IMAGE */
#include <inttypes.h>
#include <stdio.h>
#include <string.h>

#include "luntrebis_file.h"

enum { CELLS = 64, SLOTS = 256, MEMBERS = 16, KEPT = 64 };

static struct ltf *file;
static struct lt_told told[MEMBERS];
static size_t count;
static int faults;

static void fail(const char *what, const char *that, uint64_t found, uint64_t wanted) {
    if (found == wanted) return;
    faults++;
    printf("%s: %s %" PRIu64 ", and not %" PRIu64 "\n", what, that, found, wanted);
}

static void advance(const char *what, size_t wanted) {
    fail(what, "answer", (uint64_t)ltf_front_advance(file, told, &count), 0);
    fail(what, "told", count, wanted);
}

static void check(const char *what, size_t at, uint64_t ticket, uint8_t tag, uint64_t value) {
    fail(what, "ticket", told[at].ticket, ticket);
    fail(what, "refusal", told[at].outcome.refusal, 0);
    fail(what, "tag", told[at].outcome.tag, tag);
    fail(what, "value", told[at].outcome.value, value);
}

static int submit(uint64_t ticket, uint8_t tag, uint16_t element, uint64_t number, uint32_t address, uint64_t value) {
    struct lt_command command = {tag, element, address, number, value};
    return ltf_front_submit(file, ticket, &command);
}

/* Asks under the next number, which is at `number`. */
static int next(uint64_t ticket, uint8_t tag, uint16_t element, uint32_t address, uint64_t most, uint64_t *number) {
    struct lt_command command = {tag, element, address, 0, 5};
    int refusal = ltf_front_next(file, ticket, &command, most);
    *number = command.number;
    return refusal;
}

/* Two groups share a sync. Each ticket comes with its answer, in the order in which it was asked. */
static void tell_in_order(void) {
    struct ltf_counts before = ltf_work(file), after;
    fail("a block", "refusal", (uint64_t)submit(11, LT_ALLOC_M, 0, 1, 8, 0), 0);
    fail("a take", "refusal", (uint64_t)submit(12, LT_TAKE, 1, 1, 0, 0), 0);
    fail("a tag", "refusal", (uint64_t)submit(13, 99, 1, 2, 0, 0), LT_NO_CALL);
    advance("nothing was ahead", 0);
    fail("a put", "refusal", (uint64_t)submit(14, LT_PUT, 0, 2, 0, 7), 0);
    fail("nothing has acted", "next", ltf_window(file, 0).next, 1);
    advance("two", 2);
    check("a block", 0, 11, LT_BASE, 0);
    check("a take", 1, 12, LT_WAITING, 0);
    advance("one", 1);
    check("a put", 0, 14, LT_STORED, 0);
    ltf_woken(file, &count);
    fail("a put", "woken", count, 1);
    after = ltf_work(file);
    fail("two groups", "groups", after.groups - before.groups, 2);
    fail("two groups", "syncs", after.syncs - before.syncs, 3);
    advance("nothing", 0);
}

/* No more is asked than the next group has places for; what is served meanwhile acts before it. */
static void fill_groups(void) {
    struct lt_command take = {LT_TAKE, 2, 1, 1, 0};
    struct lt_outcome outcome;
    for (uint64_t at = 0; at < MEMBERS; at++)
        fail("sixteen", "refusal", (uint64_t)submit(at, at % 2 ? LT_TAKE : LT_PUT, 3, at + 1, 2, at), 0);
    fail("one more", "refusal", (uint64_t)submit(99, LT_PUT, 3, MEMBERS + 1, 2, 9), LT_UNSERVED);
    fail("a list", "answer", (uint64_t)ltf_serve_all(file, &take, 1, &outcome), LT_NO_CALL);
    advance("sixteen ahead", 0);
    fail("one more", "refusal", (uint64_t)submit(99, LT_PUT, 3, MEMBERS + 1, 2, 9), 0);
    fail("a take beside them", "refusal", (uint64_t)ltf_serve(file, &take, &outcome), 0);
    advance("they are put again", 0);
    advance("they are told", MEMBERS);
    for (uint64_t at = 0; at < MEMBERS; at++) check("one of them", at, at, at % 2 ? LT_VALUE : LT_STORED, at % 2 ? at - 1 : 0);
    advance("the last", 1);
    check("the last", 0, 99, LT_STORED, 0);
}

/* Numbers of an element: a full window is confirmed up to the first entry that waits, or that is kept. */
static void give_numbers(void) {
    uint64_t number;
    fail("no element", "refusal", (uint64_t)next(1, LT_PUT, 60, 3, UINT64_MAX, &number), LT_NO_ELEMENT);
    for (uint64_t at = 1; at <= KEPT; at++) {
        fail("in the window", "refusal", (uint64_t)next(at, at % 2 ? LT_PUT : LT_TAKE, 4, 3, UINT64_MAX, &number), 0);
        fail("in the window", "number", number, at);
        if (at % 8 == 0) ltf_front_advance(file, told, &count);
    }
    while (ltf_front_advance(file, told, &count) == 0 && count > 0) {}
    fail("64 are kept", "next", ltf_window(file, 4).next, KEPT + 1);
    fail("the first is kept", "refusal", (uint64_t)next(1, LT_PUT, 4, 3, 1, &number), LT_WINDOW_FULL);
    fail("a confirmation before it", "refusal", (uint64_t)next(1, LT_TAKE, 4, 3, 21, &number), 0);
    fail("a confirmation before it", "number", number, KEPT + 1);
    fail("behind it", "refusal", (uint64_t)next(2, LT_PUT, 4, 4, UINT64_MAX, &number), 0);
    fail("behind it", "number", number, KEPT + 2);
    advance("it is ahead", 0);
    advance("three", 3);
    check("a confirmation", 0, 0, LT_CONFIRMED, 0);
    check("a take", 1, 1, LT_WAITING, 0);
    check("behind it", 2, 2, LT_STORED, 0);
    fail("up to what is kept", "base", ltf_window(file, 4).base, 21);
}

/* The calls of luntrebis.h on an image of their own. */
static void ask_below(void) {
    const struct lt_command block = {LT_ALLOC_M, 0, 4, 1, 0};
    struct lt_advanced done = {0, 0, 0};
    struct lt_image image = {NULL};
    fail("format", "refusal", lt_format(CELLS, 4, 16, &image), 0);
    fail("nothing", "state", lt_front_asked(&image, 0).state, LT_NONE_ASKED);
    fail("a block", "refusal", lt_front_submit(image, 7, &block, &image), 0);
    fail("a block", "state", lt_front_asked(&image, 0).state, LT_ASKED);
    fail("too few places", "refusal", lt_front_advance(image, &image, &done, told, 4), LT_NO_CALL);
    fail("ahead", "refusal", lt_front_advance(image, &image, &done, told, MEMBERS), 0);
    fail("ahead", "ahead", done.ahead, 1);
    fail("ahead", "told", done.answered, 0);
    fail("ahead", "steps", lt_steps(&image), 2);
    fail("a block", "state", lt_front_asked(&image, 0).state, LT_AHEAD);
    fail("a block", "ticket", lt_front_asked(&image, 0).ticket, 7);
    fail("a block", "tag", lt_front_asked(&image, 0).command.tag, LT_ALLOC_M);
    fail("it acts", "refusal", lt_front_advance(image, &image, &done, told, MEMBERS), 0);
    fail("it acts", "told", done.answered, 1);
    fail("it acts", "count", lt_count(&image), 1);
    lt_failed(image, &image);
    fail("a lost step", "refusal", lt_front_advance(image, &image, &done, told, MEMBERS), LT_DEVICE);
    lt_close(image);
}

/* With a full journal, and nothing ahead, a repeat is told as before, and another request that there is no room. */
static void ask_without_room(void) {
    struct lt_command block = {LT_ALLOC_M, 0, 4, 1, 0}, put = {LT_PUT, 1, 0, 0, 5};
    struct lt_advanced done = {0, 0, 0};
    struct lt_outcome outcome = {0, 0, 0};
    struct lt_image image = {NULL};
    fail("format", "refusal", lt_format(CELLS, 4, 16, &image), 0);
    fail("a block", "refusal", lt_serve(image, &block, &image, &outcome), 0);
    for (put.number = 1; put.number < 16; put.number++)
        fail("a put", "refusal", lt_serve(image, &put, &image, &outcome), 0);
    lt_front_submit(image, 1, &put, &image);
    lt_front_submit(image, 2, &block, &image);
    lt_front_advance(image, &image, &done, told, MEMBERS);
    fail("no room", "told", done.answered, 1);
    fail("no room", "refusal", told[0].outcome.refusal, LT_JOURNAL_FULL);
    lt_front_advance(image, &image, &done, told, MEMBERS);
    fail("a repeat", "told", done.answered, 1);
    check("a repeat", 0, 2, LT_BASE, 0);
    fail("a repeat", "steps", lt_steps(&image), 0);
    lt_close(image);
}

int main(int words, char **word) {
    if (words != 2 || ltf_create(word[1], CELLS, 8, SLOTS, &file)) return 2;
    memset(told, 0, sizeof told);
    tell_in_order();
    fill_groups();
    give_numbers();
    ask_below();
    ask_without_room();
    ltf_close(file);
    printf(faults ? "%d faults\n" : "told in order\n", faults);
    return faults != 0;
}
