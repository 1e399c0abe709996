/* Answers by a queue, which is a call that keeps them. */
#define _GNU_SOURCE
#include "luntrebis_shared.h"

#include <errno.h>
#include <pthread.h>
#include <stdlib.h>
#include <sys/eventfd.h>
#include <unistd.h>

/* An answer, and the batch that it is of. */
struct parcel {
    struct parcel *next;
    struct batch *of;
    struct lts_answer answer;
};

/* What was submitted together: two answers of each command, and how many commands have no last answer taken. */
struct batch {
    struct lts_queue *queue;
    void *mark;
    size_t left, used;
    struct parcel parcels[];
};

struct lts_queue {
    pthread_mutex_t lock;
    int descriptor;
    struct parcel *first, **end;
};

int lts_queue_make(struct lts_queue **made) {
    struct lts_queue *queue = calloc(1, sizeof *queue);
    if (!queue) return -ENOMEM;
    queue->end = &queue->first;
    queue->descriptor = eventfd(0, EFD_CLOEXEC | EFD_NONBLOCK);
    if (queue->descriptor < 0) {
        free(queue);
        return -errno;
    }
    pthread_mutex_init(&queue->lock, NULL);
    *made = queue;
    return 0;
}

int lts_queue_descriptor(const struct lts_queue *queue) {
    return queue->descriptor;
}

static void keep(const struct lts_answer *answer) {
    struct batch *batch = answer->mark;
    struct lts_queue *queue = batch->queue;
    struct parcel *parcel = &batch->parcels[batch->used++];
    uint64_t one = 1;
    int was_empty;
    *parcel = (struct parcel){NULL, batch, *answer};
    parcel->answer.mark = batch->mark;
    pthread_mutex_lock(&queue->lock);
    was_empty = queue->first == NULL;
    *queue->end = parcel;
    queue->end = &parcel->next;
    if (was_empty && write(queue->descriptor, &one, sizeof one) < 0) was_empty = 0; /* It is readable already. */
    pthread_mutex_unlock(&queue->lock);
}

int lts_queue_submit(struct lts *shared, struct lts_queue *queue, const struct lt_command *commands, size_t count,
                     void *mark) {
    struct batch *batch = malloc(sizeof *batch + 2 * count * sizeof *batch->parcels);
    int answer;
    if (!batch) return -ENOMEM;
    *batch = (struct batch){queue, mark, count, 0};
    answer = lts_submit(shared, commands, count, keep, batch);
    if (answer || count == 0) free(batch);
    return answer;
}

size_t lts_queue_take(struct lts_queue *queue, struct lts_answer *answers, size_t count) {
    size_t taken = 0;
    uint64_t times;
    pthread_mutex_lock(&queue->lock);
    for (; taken < count && queue->first; taken++) {
        struct parcel *parcel = queue->first;
        queue->first = parcel->next;
        if (!queue->first) queue->end = &queue->first;
        answers[taken] = parcel->answer;
        if (answers[taken].outcome.refusal == 0 && answers[taken].outcome.tag == LT_WAITING) continue;
        if (--parcel->of->left == 0) free(parcel->of);
    }
    if (!queue->first && read(queue->descriptor, &times, sizeof times) < 0) times = 0; /* It was empty before. */
    pthread_mutex_unlock(&queue->lock);
    return taken;
}

void lts_queue_free(struct lts_queue *queue) {
    struct lts_answer answer;
    while (lts_queue_take(queue, &answer, 1)) {}
    close(queue->descriptor);
    pthread_mutex_destroy(&queue->lock);
    free(queue);
}
