/* One thread that never sleeps in a call: it submits to many elements, and learns of each answer by a descriptor that epoll
 * watches, those too that are long in coming. Each element takes its cell and puts the value back one greater, many times.
 *
 * usage: epoll IMAGE [TIMES]      The image is made, so nothing may have its name. */
#include <errno.h>
#include <inttypes.h>
#include <stdio.h>
#include <stdlib.h>
#include <sys/epoll.h>
#include <unistd.h>

#include "luntrebis_shared.h"

enum { ELEMENTS = 63, BATCH = 64 };

static struct lts *shared;
static struct lts_queue *queue;

static void submit(uint8_t tag, uint16_t element, uint32_t address, uint64_t value) {
    struct lt_command command = {tag, element, address, 0, value};
    if (lts_queue_submit(shared, queue, &command, 1, NULL)) exit(1);
}

/* What an element does next: how many more answers are wanted. The cells of a take and of the put behind it take turns. */
static int go_on(const struct lts_answer *answer, uint64_t times) {
    const struct lt_command *was = &answer->command;
    if (answer->outcome.refusal) exit(1);
    if (answer->outcome.tag == LT_WAITING) return 1; /* Another answer comes. */
    if (was->tag == LT_TAKE) submit(LT_PUT, was->element, was->address, answer->outcome.value + 1);
    if (was->tag == LT_PUT && was->value < times) submit(LT_TAKE, was->element, was->address, 0);
    return was->tag == LT_TAKE || was->value < times;
}

static void make(const char *path) {
    char why[128];
    int answer = lts_create(path, 64, 64, 4096, &shared);
    if (answer) {
        ltf_say(answer, why, sizeof why);
        fprintf(stderr, "epoll: %s\n", why);
        exit(1);
    }
    if (lts_queue_make(&queue)) exit(1);
}

int main(int count, char **words) {
    struct epoll_event event = {.events = EPOLLIN};
    struct lts_answer answers[BATCH];
    uint64_t times = count == 3 ? strtoull(words[2], NULL, 10) : 4, completions = 0;
    uint16_t element;
    int watch = epoll_create1(EPOLL_CLOEXEC), going = ELEMENTS;
    if (count < 2 || watch < 0) return 2;
    make(words[1]);
    epoll_ctl(watch, EPOLL_CTL_ADD, lts_queue_descriptor(queue), &event);
    if (lts_lease(shared, &element)) return 1;
    lts_call(shared, element, LT_ALLOC_M, 64, 0);
    for (int at = 0; at < ELEMENTS; at++) {
        if (lts_lease(shared, &element)) return 1;
        submit(LT_TAKE, element, element, 0); /* It waits until the cell is filled. */
    }
    for (int at = 1; at <= ELEMENTS; at++) lts_call(shared, 0, LT_PUT, (uint32_t)at, 0);
    while (going > 0) {
        size_t some;
        epoll_wait(watch, &event, 1, -1);
        some = lts_queue_take(queue, answers, BATCH);
        for (size_t at = 0; at < some; at++) going -= !go_on(&answers[at], times);
        completions += some;
    }
    printf("%d elements counted to %" PRIu64 ", %" PRIu64 " answers\n", ELEMENTS, times, completions);
    lts_close(shared);
    lts_queue_free(queue);
    close(watch);
    return 0;
}
