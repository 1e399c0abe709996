/* The work of `im_bench put_and_take N` through the library for C: the cost of a step through it beside the same call
 * in Rattle. There a request is one call, with the step inside. So here it is one call, too: that of the library. */
#include <stdlib.h>
#include <stdio.h>
#include "luntrebis.h"
static struct lt_memory memory;
static uint64_t sum;
#define INSIDE static inline __attribute__((always_inline))
INSIDE struct lt_outcome step(uint8_t tag, uint16_t e, uint32_t a, uint64_t n, uint64_t v) {
    struct lt_command c = {tag, e, a, n, v}; struct lt_outcome o = {0,0,0};
    lt_memory_step(memory, &c, &memory, &o);
    if (o.refusal) { printf("refused %d\n", o.refusal); exit(1); }
    return o;
}
INSIDE void ask(uint32_t index, uint8_t tag, uint32_t a, uint64_t v) {
    uint16_t e = (uint16_t)(index % 64); uint64_t n = index / 64 + 1;
    if (n > 64 && n % 64 == 1) step(LT_CONFIRM, e, 0, n, 0);
    struct lt_outcome o = step(tag, e, a, n, v);
    sum = sum * 31 + (o.tag == LT_VALUE || o.tag == LT_BASE ? o.value : o.tag == LT_WAITING ? 100 : o.tag + 98u);
}
int main(int argc, char **argv) {
    uint32_t count = (uint32_t)atoi(argv[1]);
    if (lt_memory_new(1048576, 64, &memory)) return 1;
    ask(0, LT_ALLOC_M, 1048576, 0);
    for (uint32_t a = 0; a < count; a++) { ask(2 * a + 1, LT_PUT, a, a + 7); ask(2 * a + 2, LT_TAKE, a, 0); }
    printf("%lu\n", (unsigned long)sum);
    lt_memory_free(memory);
    return argc - 2;
}
