/* One thread that never sleeps in a call: 63 elements ask by a queue, and epoll tells it of their answers.
 *
 * usage: queue TIMES SLOTS IMAGE
 *
 * Each element first takes its cell, which waits, and fills the cell of the one behind it. Then it takes and puts its own
 * TIMES times. It prints the answers, the nanoseconds of an answer, and the groups, syncs and writes of an answer. */
#include <inttypes.h>
#include <stdio.h>
#include <stdlib.h>
#include <sys/epoll.h>
#include <time.h>
#include <unistd.h>

#include "luntrebis_shared.h"

enum { ELEMENTS = 63, BATCH = 64 };

static struct lts *shared;
static struct lts_queue *queue;
static unsigned long left[ELEMENTS + 1];

static double now(void) {
    struct timespec time;
    clock_gettime(CLOCK_MONOTONIC, &time);
    return (double)time.tv_sec * 1e9 + (double)time.tv_nsec;
}

static void submit(uint8_t tag, uint16_t element, uint32_t address) {
    struct lt_command command = {tag, element, address, 0, 7};
    if (lts_queue_submit(shared, queue, &command, 1, NULL)) exit(1);
}

/* Submits what an element does next. Returns whether it is through. */
static int go_on(const struct lts_answer *answer) {
    uint16_t element = answer->command.element;
    if (answer->outcome.refusal) exit(1);
    if (answer->outcome.tag == LT_WAITING) return 0;
    if (answer->command.address != element) return 0; /* It filled another one's cell. */
    if (answer->command.tag == LT_PUT && --left[element] == 0) return 1;
    submit(answer->command.tag == LT_TAKE ? LT_PUT : LT_TAKE, element, element);
    return 0;
}

static unsigned long serve(int watch) {
    struct epoll_event event;
    struct lts_answer answers[BATCH];
    unsigned long told = 0;
    for (int going = ELEMENTS; going > 0;) {
        size_t some;
        epoll_wait(watch, &event, 1, -1);
        some = lts_queue_take(queue, answers, BATCH);
        for (size_t at = 0; at < some; at++) going -= go_on(&answers[at]);
        told += some;
    }
    return told;
}

int main(int count, char **words) {
    struct epoll_event event = {.events = EPOLLIN};
    struct ltf_counts before, after;
    uint16_t element;
    int watch = epoll_create1(EPOLL_CLOEXEC);
    double start, all;
    if (count != 4 || watch < 0) return 2;
    if (lts_create(words[3], 64, 64, (uint32_t)strtoul(words[2], NULL, 10), &shared) || lts_queue_make(&queue)) return 1;
    epoll_ctl(watch, EPOLL_CTL_ADD, lts_queue_descriptor(queue), &event);
    if (lts_lease(shared, &element) || lts_call(shared, element, LT_ALLOC_M, 64, 0).refusal) return 1;
    before = lts_work(shared);
    start = now();
    for (int at = 0; at < ELEMENTS; at++) {
        if (lts_lease(shared, &element)) return 1;
        left[element] = strtoul(words[1], NULL, 10);
        submit(LT_TAKE, element, element);
    }
    for (uint16_t at = 1; at <= ELEMENTS; at++) submit(LT_PUT, at, at % ELEMENTS + 1);
    all = (double)serve(watch);
    start = now() - start;
    after = lts_work(shared);
    printf("%.0f %.0f %.4f %.4f %.4f\n", all, start / all, (double)(after.groups - before.groups) / all,
           (double)(after.syncs - before.syncs) / all, (double)(after.writes - before.writes) / all);
    lts_close(shared);
    lts_queue_free(queue);
    close(watch);
    return 0;
}
