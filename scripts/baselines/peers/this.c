/* This store, by the library for C: a block of I cells, each of which is stored once. */
#include <stdio.h>
#include <stdlib.h>

#include "luntrebis_shared.h"
#include "peers.h"

enum { SLOTS = 4096, ELEMENTS = 64, CONFIRMED = 48 };

static struct ltf *file;
static struct lts *shared;
static uint64_t numbers[ELEMENTS]; /* the last one of each element */
static uint16_t leased[THREADS];

static void need(int is_well, const char *what) {
    if (is_well) return;
    fprintf(stderr, "%s\n", what);
    exit(1);
}

static struct lt_command store(uint16_t element, uint32_t key, uint64_t value) {
    struct lt_command command = {LT_STORE, element, key, ++numbers[element], value};
    return command;
}

static void serve(struct lt_command command, uint8_t wanted) {
    struct lt_outcome outcome;
    need(ltf_serve(file, &command, &outcome) == 0 && outcome.tag == wanted, "not served");
}

void store_make(const char *path) {
    struct lt_command block = {LT_ALLOC_I, 0, KEYS, 1, 0};
    need(ltf_create(path, KEYS, ELEMENTS, SLOTS, &file) == 0, "not made");
    serve(block, LT_BASE);
    numbers[0] = 1;
}

void store_open(const char *path, uint32_t key, uint64_t value) {
    need(ltf_open(path, &file) == 0 && ltf_count(file) > value, "not opened");
    (void)key;
}

static struct lt_command confirmation(uint16_t element) {
    struct lt_command command = {LT_CONFIRM, element, 0, numbers[element] + 1, 0};
    return command;
}

void store_put(uint32_t key, uint64_t value) {
    serve(store(1, key, value), LT_STORED);
    if (numbers[1] % CONFIRMED == 0) serve(confirmation(1), LT_CONFIRMED);
}

static void serve_all(const struct lt_command *commands, uint8_t wanted) {
    struct lt_outcome outcomes[TOGETHER];
    need(ltf_serve_all(file, commands, TOGETHER, outcomes) == 0, "no group");
    for (int at = 0; at < TOGETHER; at++) need(outcomes[at].refusal == 0 && outcomes[at].tag == wanted, "not served");
}

void store_put_together(uint32_t first, uint64_t value) {
    struct lt_command commands[TOGETHER];
    for (uint16_t at = 0; at < TOGETHER; at++) commands[at] = store((uint16_t)(at + 1), first + at, value);
    serve_all(commands, LT_STORED);
    if (numbers[1] % CONFIRMED) return;
    for (uint16_t at = 0; at < TOGETHER; at++) commands[at] = confirmation((uint16_t)(at + 1));
    serve_all(commands, LT_CONFIRMED);
}

void store_share(const char *path) {
    uint16_t first;
    need(lts_create(path, KEYS, ELEMENTS, SLOTS, &shared) == 0 && lts_lease(shared, &first) == 0, "not made");
    need(lts_call(shared, first, LT_ALLOC_I, KEYS, 0).tag == LT_BASE, "no block");
    for (int at = 0; at < THREADS; at++) need(lts_lease(shared, &leased[at]) == 0, "no element");
}

void store_put_of(unsigned thread, uint32_t key, uint64_t value) {
    struct lt_outcome outcome = lts_call(shared, leased[thread], LT_STORE, key, value);
    need(outcome.refusal == 0 && outcome.tag == LT_STORED, "not served");
}
