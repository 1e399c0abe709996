/* A step that fails under sixteen threads, while one more waits. All of them get LT_DEVICE, and those who ask later
 * too. Nothing is shown or copied from then on.
 *
 * usage: fault IMAGE      with FAIL_AT in the environment (slow_sync.c) */
#include <pthread.h>
#include <stdio.h>
#include <stdlib.h>

#include "luntrebis_shared.h"

enum { MEMBERS = 16, WAITER = 63 };

extern void fail_now(void); /* of slow_sync.c: the count of steps begins */

static struct lts *shared;
static int refused[MEMBERS + 1];

static void *work(void *given) {
    uint16_t element = *(const uint16_t *)given;
    for (uint64_t number = 1; refused[element] == 0; number++) {
        struct lt_command command = {number % 2 ? LT_PUT : LT_TAKE, element, element, number, number};
        struct lt_command confirm = {LT_CONFIRM, element, 0, number, 0};
        refused[element] = lts_ask(shared, &command).refusal;
        if (number % 32 == 0 && refused[element] == 0) refused[element] = lts_ask(shared, &confirm).refusal;
    }
    return NULL;
}

static void *wait_for_it(void *given) {
    (void)given;
    refused[MEMBERS] = lts_await(shared, WAITER, 2).refusal;
    return NULL;
}

int main(int count, char **words) {
    pthread_t threads[MEMBERS + 1];
    uint16_t elements[MEMBERS];
    struct lt_command block = {LT_ALLOC_M, WAITER, 64, 1, 0}, take = {LT_TAKE, WAITER, 40, 2, 0}, later = {LT_TAKE, 62, 41, 1, 0};
    struct ltf_fault failure;
    int bad = 0;
    if (count != 2 || lts_create(words[1], 64, 64, 64, &shared)) return 2;
    if (lts_ask(shared, &block).refusal || lts_ask(shared, &take).refusal) return 2;
    fail_now();
    if (pthread_create(&threads[MEMBERS], NULL, wait_for_it, NULL)) return 2;
    for (uint16_t at = 0; at < MEMBERS; at++) {
        elements[at] = at;
        if (pthread_create(&threads[at], NULL, work, &elements[at])) return 2;
    }
    for (int at = 0; at <= MEMBERS; at++) pthread_join(threads[at], NULL);
    for (int at = 0; at <= MEMBERS; at++) bad |= refused[at] != LT_DEVICE;
    bad |= lts_ask(shared, &later).refusal != LT_DEVICE;
    bad |= lts_cell(shared, 40).kind != 0 || lts_stat(shared).blocks != 0 || lts_backup(shared, "fault.copy") != LT_DEVICE;
    failure = lts_failure(shared);
    if (bad) { for (int at = 0; at <= MEMBERS; at++) fprintf(stderr, "%d ", refused[at]); fprintf(stderr, "\n"); }
    printf("%s, error %d%s%s\n", bad ? "SOMEBODY WASN'T TOLD" : "all were told", failure.error, failure.sync ? ", a sync" : "",
           failure.noted ? ", noted" : "");
    lts_close(shared);
    return bad;
}
