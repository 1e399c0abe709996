/* What commands leave to be carried out through the library for C: N puts and takes on a new image, and the number of
 * steps of each kind. */
#include <stdio.h>
#include <stdlib.h>
#include "luntrebis.h"
static struct lt_image image;
static unsigned long commands, writes, syncs;
static void serve(uint8_t tag, uint32_t a, uint64_t n) {
    struct lt_command c = {tag, 0, a, n, n}; struct lt_outcome o = {0,0,0};
    if (lt_serve(image, &c, &image, &o)) { printf("refused %d\n", o.refusal); exit(1); }
    for (size_t at = 0; at < lt_steps(&image); at++)
        if (lt_step_at(&image, at).kind == LT_WRITE) writes++; else syncs++;
    commands++;
}
int main(int argc, char **argv) {
    uint64_t count = (uint64_t)atoi(argv[1]);
    if (lt_format(64, 4, 4096, &image)) return 1;
    serve(LT_ALLOC_M, 8, 1);
    for (uint64_t n = 2; n < count + 2; n++) {
        if (n % 16 == 1) serve(LT_CONFIRM, 0, n);
        serve(n % 2 ? LT_TAKE : LT_PUT, 3, n);
    }
    printf("%lu commands %lu writes %lu syncs\n", commands, writes, syncs);
    lt_close(image);
    return argc - 2;
}
