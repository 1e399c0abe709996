/* Luntrebis for C, one image for any number of threads. A thread of its own holds the file. It serves together what
 * other threads ask, so that they share its syncs. C11 and POSIX threads, over luntrebis_file.h.
 *
 * Any thread may make any call at any time. lts_close is the exception: it is the last call. After fork, the child
 * makes no call. What a call returns is on the disk. Once a step couldn't be carried out, each caller gets LT_DEVICE,
 * also those who wait. It is then not known whether their requests acted: close, open again, and ask again under the
 * same numbers. */
#ifndef LUNTREBIS_SHARED_H
#define LUNTREBIS_SHARED_H

#include <time.h>

#include "luntrebis_file.h"

#ifdef __cplusplus
extern "C" {
#endif

/* An image that threads share. */
struct lts;
struct timespec;

/* As ltf_create, ltf_open and ltf_open_or_create. */
int lts_create(const char *path, uint32_t cells, uint16_t elements, uint32_t slots, struct lts **made);
int lts_open(const char *path, struct lts **made);
int lts_open_or_create(const char *path, uint32_t cells, uint16_t elements, uint32_t slots, struct lts **made);

/* Closes the image. Those who still wait, and those who asked last, get LT_NO_CALL; what they asked isn't lost. */
void lts_close(struct lts *shared);

/* Asks, and returns once the answer is on the disk. LT_WAITING is an answer, too. */
struct lt_outcome lts_ask(struct lts *shared, const struct lt_command *command);

/* Waits until the request that is kept under an element's number is answered. Returns the answer, or why there is none.
 * lts_await_until returns LT_WAITING if there is no answer at a time of CLOCK_MONOTONIC. The request stays in the memory,
 * and its answer is got under its number, as often as you like. */
struct lt_outcome lts_await(struct lts *shared, uint16_t element, uint64_t number);
struct lt_outcome lts_await_until(struct lts *shared, uint16_t element, uint64_t number, const struct timespec *end);

/* ---- Answers by a call, or by a queue
 *
 * Each command is answered once. If that answer is LT_WAITING, the command is answered once more, with `later` 1. The
 * memory for the answers is reserved as a command is submitted, so no answer is lost for want of memory. */
struct lts_answer {
    struct lt_command command;
    struct lt_outcome outcome;
    void *mark; /* as it was submitted */
    int later;
};

/* Called by the thread that holds the file. It must return soon, and make no call here but lts_submit. */
typedef void lts_done(const struct lts_answer *answer);

/* Submits all of the commands, and returns 0. Or submits none, and returns -ENOMEM or LT_DEVICE. */
int lts_submit(struct lts *shared, const struct lt_command *commands, size_t count, lts_done *done, void *mark);

/* A queue of answers. Its descriptor can be read while it holds some, for poll and epoll. */
struct lts_queue;
int lts_queue_make(struct lts_queue **made);
int lts_queue_descriptor(const struct lts_queue *queue);
int lts_queue_submit(struct lts *shared, struct lts_queue *queue, const struct lt_command *commands, size_t count,
                     void *mark);

/* Takes at most `count` answers out of the queue. Returns how many. It doesn't wait. */
size_t lts_queue_take(struct lts_queue *queue, struct lts_answer *answers, size_t count);

/* Frees a queue, after lts_close, so that no more answers come to it. Answers that are left are dropped. */
void lts_queue_free(struct lts_queue *queue);

/* ---- Elements by lease
 *
 * For programs that don't want to number their requests. A task leases an element, and is the only one to use it. A
 * command of the element with the number 0 gets its number here, and its entry is confirmed here once its last answer
 * was delivered. At most 64 entries are kept, counted from the oldest one whose last answer wasn't delivered; a further
 * command gets LT_WINDOW_FULL. A program that asks again after a crash numbers its requests itself. */
int lts_lease(struct lts *shared, uint16_t *element); /* 0, LT_NO_ELEMENT if there is none, or LT_DEVICE */

/* Gives an element back. It isn't leased again while one of its requests waits. */
void lts_give_back(struct lts *shared, uint16_t element);

/* Makes one request of a leased element. Returns its last answer, for which it may wait long. */
struct lt_outcome lts_call(struct lts *shared, uint16_t element, uint8_t tag, uint32_t address, uint64_t value);

/* The same, but returns LT_WAITING if there is no last answer at a time of CLOCK_MONOTONIC. The request's number is at
 * `number`, and lts_await_until goes on waiting for it, as often as you like. The number is 0 if it wasn't asked. */
struct lt_outcome lts_call_until(struct lts *shared, uint16_t element, uint8_t tag, uint32_t address, uint64_t value,
                                 const struct timespec *end, uint64_t *number);

/* ---- What is kept, and what was done
 *
 * These calls make no request. They show what is on the disk, as it is between two groups: of what was asked and isn't
 * answered yet nothing has acted. After a lost step they show nothing, as ltf_cell and the others. */

struct lt_presence lts_cell(struct lts *shared, uint32_t address);
size_t lts_cells(struct lts *shared, uint32_t from, struct lt_presence *cells, size_t room);
struct lt_figures lts_stat(struct lts *shared);
size_t lts_stuck(struct lts *shared, struct lt_waiter *stuck, size_t room);
size_t lts_waiters(struct lts *shared, uint32_t address, struct lt_waiter *waiters, size_t room);
struct lt_command lts_entry(struct lts *shared, uint16_t element, uint64_t number);
struct lt_outcome lts_collect(struct lts *shared, uint16_t element, uint64_t number);
struct lt_bounds lts_window(struct lts *shared, uint16_t element);
uint32_t lts_room(struct lts *shared);
uint64_t lts_count(struct lts *shared);
struct lt_sizes lts_limits(struct lts *shared);

/* Copies the image, as ltf_backup does, between two groups. Others may ask meanwhile, and are served after it. */
int lts_backup(struct lts *shared, const char *path);

/* Called with the file and what it was given, by the thread that looks. It only looks, at as much as it likes: nothing
 * acts meanwhile. It must return soon, and make no call here. */
typedef void lts_looks(const struct ltf *file, void *given);

/* Lets a function look at the file. Returns 0, or LT_DEVICE if it wasn't called. */
int lts_look(struct lts *shared, lts_looks *looks, void *given);

struct ltf_counts lts_work(struct lts *shared);
struct ltf_fault lts_failure(struct lts *shared);

#ifdef __cplusplus
}
#endif
#endif
