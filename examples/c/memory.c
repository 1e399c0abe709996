/* A producer and a consumer on an M-structure cell of a memory with no disk. */
#include <inttypes.h>
#include <stdio.h>

#include "luntrebis.h"

static struct lt_memory memory;

static struct lt_outcome step(uint8_t tag, uint16_t element, uint32_t address, uint64_t number, uint64_t value) {
    struct lt_command command = {tag, element, address, number, value};
    struct lt_outcome outcome = {0, 0, 0};
    lt_memory_step(memory, &command, &memory, &outcome);
    return outcome;
}

static void show_refusal(const char *what, uint8_t refusal) {
    char name[16] = "";
    lt_refusal_name(refusal, name, sizeof name - 1);
    printf("%s: refused %d %s\n", what, refusal, name);
}

static void show(const char *what, struct lt_outcome outcome) {
    if (outcome.refusal)
        show_refusal(what, outcome.refusal);
    else
        printf("%s: tag %d value %" PRIu64 "\n", what, outcome.tag, outcome.value);
}

int main(void) {
    struct lt_outcome outcome = {0, 0, 0};
    struct lt_presence cell;
    uint64_t sum = 0;
    show_refusal("no cells", lt_memory_new(0, 2, &memory));
    if (lt_memory_new(64, 2, &memory)) return 1;
    show("block", step(LT_ALLOC_M, 0, 8, 1, 0));
    show("take", step(LT_TAKE, 1, 3, 1, 0));
    cell = lt_memory_cell(&memory, 3);
    printf("cell 3: kind %d state %d, of %" PRIu32 " cells from %" PRIu32 " on\n", cell.kind, cell.state, cell.length, cell.base);
    show("put", step(LT_PUT, 0, 3, 2, 42));
    lt_memory_collect(&memory, 1, 1, &outcome);
    show("collected", outcome);
    show("taken again", step(LT_TAKE, 1, 3, 1, 0));
    show("a gap", step(LT_TAKE, 1, 3, 7, 0));
    show("no element", step(LT_TAKE, 2, 3, 1, 0));
    show("no tag", step(99, 0, 0, 3, 0));
    show("reset", step(LT_RESET, 0, 0, 3, 0));
    for (uint64_t i = 0; i < 1000; i++) {
        step(LT_PUT, 0, 3, i + 4, i);
        sum += step(LT_TAKE, 1, 3, i + 2, 0).value;
        step(LT_CONFIRM, 0, 0, i + 5, 0);
        step(LT_CONFIRM, 1, 0, i + 3, 0);
    }
    printf("sum %" PRIu64 "\n", sum);
    lt_memory_free(memory);
    return 0;
}
