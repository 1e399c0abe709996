#define _GNU_SOURCE
#include "luntrebis_shared.h"

#include <errno.h>
#include <pthread.h>
#include <sched.h>
#include <stdatomic.h>
#include <stdlib.h>

#if !defined LTS_FUTEX && defined __linux__ && defined __LP64__
#define LTS_FUTEX 1
#endif
#if LTS_FUTEX
#include <linux/futex.h>
#include <sys/syscall.h>
#include <unistd.h>
#endif

enum { ELEMENTS = 64, MEMBERS = 16, WORTH_WAITING = 8 };
enum { LOOK_OUT = 50000 }; /* nanoseconds, about what a sleep and a wake of the owner take */
enum state { QUEUED, TAKEN, WAITS, TOLD };

/* What one thread or one call asks. The ticket of a thread is on its stack. */
struct ticket {
    struct ticket *next, *before; /* in the list that it is in */
    _Atomic int state; /* an enum state, on which its thread sleeps */
    const _Atomic int *wakes[2]; /* the states of two more, whom its thread wakes once it is told */
    int awaits; /* it asks for the answer to a request that is kept */
    int leased; /* its number was given here */
    int late; /* its time is over */
    int later; /* it was told that it waits */
    struct lt_command command;
    struct lt_outcome outcome;
    lts_done *done; /* none for a thread */
    void *mark;
    struct batch *batch;
};

struct batch {
    size_t left;
    struct ticket tickets[];
};

struct list {
    struct ticket *first, *last;
    size_t count;
};

struct lane {
    struct list waiting; /* those whose entries aren't answered yet */
    size_t inside; /* how many are in the file's front */
    int leased;
    uint64_t open; /* by the number in the window: it was given here, and nobody has got its last answer */
};

struct lts {
    struct ltf *file;
    pthread_t owner;
    pthread_mutex_t lock; /* of all that follows */
    pthread_cond_t changed; /* those came whom the owner awaits, or the file's turn is another's */
    uint64_t turn, turns; /* whose turn at the file it is, and how many were given */
    int syncs; /* whoever has the file waits for a sync */
    struct list asked; /* in their order; the first of them are in the file's front */
    struct ticket *outside; /* the first of the others */
    size_t inside, ahead; /* how many are in the front, and how many of these are ahead */
    size_t away; /* how many were told and haven't asked again */
    struct list told, called; /* threads and calls whose answers are on the disk, and aren't handed out yet */
    struct lane lanes[ELEMENTS];
    int64_t pace; /* nanoseconds that the last group took */
    uint8_t closed; /* why nobody may ask any more: LT_DEVICE or LT_NO_CALL */
    _Atomic size_t posts; /* how many asked, ever */
    size_t wanted; /* for how many the owner sleeps */
};

/* Of luntrebis_file.c: has a function called before and after each sync. */
void ltf_tell_of_syncs(struct ltf *file, void (*tell)(void *given, int begins), void *given);

/* ---- Lists */

static void append(struct list *list, struct ticket *ticket) {
    ticket->next = NULL;
    ticket->before = list->last;
    *(list->last ? &list->last->next : &list->first) = ticket;
    list->last = ticket;
    list->count++;
}

static void take_out(struct list *list, struct ticket *ticket) {
    *(ticket->before ? &ticket->before->next : &list->first) = ticket->next;
    *(ticket->next ? &ticket->next->before : &list->last) = ticket->before;
    list->count--;
}

static struct lane *lane_of(struct lts *shared, const struct ticket *ticket) {
    return &shared->lanes[ticket->command.element % ELEMENTS];
}

static uint64_t bit(uint64_t number) {
    return (uint64_t)1 << number % 64;
}

static int64_t now(void) {
    struct timespec time;
    clock_gettime(CLOCK_MONOTONIC, &time);
    return time.tv_sec * (int64_t)1000000000 + time.tv_nsec;
}

/* ---- A thread sleeps on its ticket's state, without the lock. All whom a group answers are told together, and each one
 * who is told wakes two others: so the owner, which has a sync to make, wakes one. A ticket may be gone when its thread
 * is woken. Then nobody is, or somebody who looks, and sleeps again. */

/* Sleeps without the lock, until that time if there is one. Returns whether it is over. */
static int sleep_on_lock(struct lts *shared, const struct timespec *end) {
    if (end) return pthread_cond_timedwait(&shared->changed, &shared->lock, end) == ETIMEDOUT;
    pthread_cond_wait(&shared->changed, &shared->lock);
    return 0;
}

#if LTS_FUTEX

static void wake_thread(struct lts *shared, const _Atomic int *state) {
    (void)shared;
    if (state) syscall(SYS_futex, state, FUTEX_WAKE_PRIVATE, 1, NULL, NULL, 0);
}

/* Waits until a ticket is told, or until that time. Returns whether it is told. */
static int await_told(struct lts *shared, struct ticket *ticket, const struct timespec *end) {
    const int how = FUTEX_WAIT_BITSET_PRIVATE;
    const unsigned any = FUTEX_BITSET_MATCH_ANY;
    int state, over = 0;
    while ((state = ticket->state) != TOLD && !over)
        over = syscall(SYS_futex, &ticket->state, how, state, end, NULL, any) < 0 && errno == ETIMEDOUT;
    for (size_t at = 0; state == TOLD && at < 2; at++) wake_thread(shared, ticket->wakes[at]);
    return state == TOLD;
}

#else

static void wake_thread(struct lts *shared, const _Atomic int *state) {
    if (!state) return;
    pthread_mutex_lock(&shared->lock);
    pthread_cond_broadcast(&shared->changed);
    pthread_mutex_unlock(&shared->lock);
}

static int await_told(struct lts *shared, struct ticket *ticket, const struct timespec *end) {
    int told, over = 0;
    pthread_mutex_lock(&shared->lock);
    while (ticket->state != TOLD && !over) over = sleep_on_lock(shared, end);
    told = ticket->state == TOLD;
    pthread_mutex_unlock(&shared->lock);
    return told;
}

#endif

/* ---- Answers */

static int is_last(const struct lt_outcome *outcome) {
    return outcome->refusal || outcome->tag != LT_WAITING;
}

/* Hands an answer out by a call. Those of a batch are freed together. */
static void call(struct ticket *ticket, struct lt_outcome outcome) {
    struct lts_answer answer = {ticket->command, outcome, ticket->mark, ticket->later};
    ticket->later = 1;
    ticket->done(&answer);
    if (is_last(&outcome) && --ticket->batch->left == 0) free(ticket->batch);
}

/* The owner gives up the lock, and hands out what is due: to threads, then by calls. */
static void give_up_lock(struct lts *shared) {
    struct ticket *ticket = shared->told.first, *waker = ticket, *called = shared->called.first, *next;
    const _Atomic int *first = ticket ? &ticket->state : NULL;
    for (size_t at = 0; ticket && (ticket = ticket->next); at++) {
        waker->wakes[at % 2] = &ticket->state;
        if (at % 2) waker = waker->next;
    }
    for (ticket = shared->told.first; ticket; ticket = next) {
        next = ticket->next;
        ticket->state = TOLD; /* It may be gone now. */
    }
    shared->told = shared->called = (struct list){NULL, NULL, 0};
    pthread_mutex_unlock(&shared->lock);
    wake_thread(shared, first);
    for (ticket = called; ticket; ticket = next) {
        next = ticket->next;
        call(ticket, ticket->outcome);
    }
}

/* Makes an answer due: the last one, unless a thread's time is over, or its request waits under a number of its own. */
static void tell(struct lts *shared, struct ticket *ticket, struct lt_outcome outcome) {
    if (!outcome.refusal && is_last(&outcome)) lane_of(shared, ticket)->open &= ~bit(ticket->command.number);
    ticket->state = TAKEN;
    ticket->outcome = outcome;
    append(ticket->done ? &shared->called : &shared->told, ticket);
    shared->away++;
}

/* Refuses all in a list. */
static void refuse(struct lts *shared, struct list *list, uint8_t refusal) {
    for (struct ticket *ticket; (ticket = list->first);) {
        take_out(list, ticket);
        tell(shared, ticket, (struct lt_outcome){refusal, 0, 0});
    }
}

/* Answers a request whose number is waited for, now or later. */
static void look(struct lts *shared, struct ticket *ticket) {
    struct lt_outcome outcome;
    ltf_collect(shared->file, ticket->command.element, ticket->command.number, &outcome);
    if (is_last(&outcome) || ticket->late) {
        tell(shared, ticket, outcome);
    } else {
        ticket->state = WAITS;
        append(&lane_of(shared, ticket)->waiting, ticket);
    }
}

/* Gives a member its answer. If it waits, it is answered later; but a thread that numbers its own asks again. */
static void answer(struct lts *shared, struct ticket *ticket, struct lt_outcome outcome) {
    take_out(&shared->asked, ticket);
    shared->inside--;
    shared->ahead--;
    lane_of(shared, ticket)->inside--;
    if (is_last(&outcome) || !(ticket->leased || ticket->done)) {
        tell(shared, ticket, outcome);
        return;
    }
    if (ticket->done) {
        pthread_mutex_unlock(&shared->lock);
        call(ticket, outcome);
        pthread_mutex_lock(&shared->lock);
    }
    look(shared, ticket);
}

/* Answers those who wait for an entry that is answered now. */
static void wake(struct lts *shared, const struct lt_waiter *woken) {
    struct list *waiting = &shared->lanes[woken->element].waiting;
    for (struct ticket *ticket = waiting->first, *next; ticket; ticket = next) {
        next = ticket->next;
        if (ticket->command.number != woken->number) continue;
        take_out(waiting, ticket);
        look(shared, ticket);
    }
}

/* ---- The file, which the owner and those who look use in turns, without the lock */

static void take_file(struct lts *shared) {
    uint64_t turn = shared->turns++;
    while (shared->turn != turn) sleep_on_lock(shared, NULL);
}

static void leave_file(struct lts *shared) {
    shared->turn++;
    pthread_cond_broadcast(&shared->changed);
}

/* During a sync nobody uses the file, and those who ask may put what is asked into its front. */
static void note_sync(void *given, int begins) {
    struct lts *shared = given;
    pthread_mutex_lock(&shared->lock);
    shared->syncs = begins;
    pthread_mutex_unlock(&shared->lock);
}

/* The first number of a leased element whose last answer nobody has got. Entries are kept from there on. */
static uint64_t kept_from(struct lts *shared, uint16_t element) {
    uint64_t open = shared->lanes[element].open, number = open ? ltf_window(shared->file, element).base : UINT64_MAX;
    while (open && !(open & bit(number))) number++;
    return number;
}

/* Puts a command into the front, with a number if its element is leased. Returns its refusal, or LT_UNSERVED if it comes
 * with a later group. */
static int put(struct lts *shared, struct ticket *ticket) {
    struct lt_command *command = &ticket->command;
    struct lane *lane = lane_of(shared, ticket);
    int refusal, is_numbered = command->number != 0 || command->tag == LT_CONFIRM;
    if (is_numbered || command->element >= ELEMENTS || !lane->leased)
        return ltf_front_submit(shared->file, (uintptr_t)ticket, command);
    refusal = ltf_front_next(shared->file, (uintptr_t)ticket, command, kept_from(shared, command->element));
    ticket->leased = refusal == 0;
    if (refusal == 0) lane->open |= bit(command->number);
    return refusal == LT_WINDOW_FULL && lane->inside ? LT_UNSERVED : refusal;
}

/* Puts those who asked into the front, in their order, as many as come with the next group. During a sync it ends before
 * one who looks. */
static void gather(struct lts *shared) {
    for (struct ticket *ticket; (ticket = shared->outside) && !(ticket->awaits && shared->syncs);) {
        int refusal = ticket->awaits ? 0 : put(shared, ticket);
        if (refusal == LT_UNSERVED) return;
        shared->outside = ticket->next;
        ticket->state = TAKEN;
        if (refusal == 0 && !ticket->awaits) {
            shared->inside++;
            lane_of(shared, ticket)->inside++;
            continue;
        }
        take_out(&shared->asked, ticket);
        if (ticket->awaits)
            look(shared, ticket);
        else
            tell(shared, ticket, (struct lt_outcome){(uint8_t)refusal, 0, 0});
    }
}

/* ---- The owner's thread */

/* Hands out what is due, and waits until so many more asked, or until that time. Returns whether they did. Before the
 * owner sleeps until a time, it looks out for those who come soon. */
static int await_posts(struct lts *shared, size_t many, const struct timespec *end) {
    size_t wanted = shared->posts + many;
    int64_t most = now() + (shared->pace / 8 < LOOK_OUT ? shared->pace / 8 : LOOK_OUT);
    int over = 0;
    give_up_lock(shared);
    while (LTS_FUTEX && end && shared->posts < wanted && now() < most) sched_yield();
    pthread_mutex_lock(&shared->lock);
    shared->wanted = wanted;
    while (shared->posts < wanted && !shared->closed && !over) over = sleep_on_lock(shared, end);
    shared->wanted = 0;
    return shared->posts >= wanted;
}

/* Waits for those who were told and haven't asked again, for at most a quarter of the time that a group takes. Without
 * it those who are answered together come back one by one, and stay parted into two groups. Behind a group ahead it
 * waits only if more than eight may come, or if all don't fit into one group: else those who are ahead are answered
 * sooner, and come back with the others. Those who don't come in time aren't awaited again. */
static void linger(struct lts *shared) {
    size_t behind = shared->asked.count - shared->ahead, coming = behind + shared->away;
    int64_t end = now() + shared->pace / 4;
    struct timespec until = {.tv_sec = end / 1000000000, .tv_nsec = end % 1000000000};
    if (!shared->asked.first) return;
    if (shared->ahead && coming <= WORTH_WAITING && shared->ahead + coming <= MEMBERS) return;
    if (coming > MEMBERS) coming = MEMBERS;
    if (behind < coming && !await_posts(shared, coming - behind, &until)) shared->away = 0;
}

/* Hands out what is due, and takes the file. Returns how many are inside, with those who come with the next group. */
static size_t begin_turn(struct lts *shared) {
    size_t inside;
    give_up_lock(shared);
    pthread_mutex_lock(&shared->lock);
    take_file(shared);
    gather(shared);
    inside = shared->ahead = shared->inside;
    give_up_lock(shared);
    return inside;
}

/* Puts a group of those inside ahead, and answers the one before it. If nobody is inside, it keeps the journal half
 * empty. Returns whether there was something to do. */
static int serve_next(struct lts *shared) {
    struct lt_told told[MEMBERS] = {{0, {0, 0, 0}}};
    const struct lt_waiter *woken;
    size_t inside = begin_turn(shared), count = 0, many;
    int64_t start = now();
    int did = inside ? ltf_front_advance(shared->file, told, &count) : ltf_tidy(shared->file);
    pthread_mutex_lock(&shared->lock);
    for (size_t at = 0; at < count; at++) /* A confirmation of the front has no ticket. */
        if (told[at].ticket) answer(shared, (struct ticket *)(uintptr_t)told[at].ticket, told[at].outcome);
    woken = ltf_woken(shared->file, &many);
    for (size_t at = 0; at < many; at++) wake(shared, &woken[at]);
    leave_file(shared);
    if (inside) shared->pace = now() - start;
    if (did == LT_DEVICE) shared->closed = LT_DEVICE;
    return inside || did;
}

static void *own(void *given) {
    struct lts *shared = given;
    pthread_mutex_lock(&shared->lock);
    while (shared->closed != LT_DEVICE && (!shared->closed || shared->asked.first)) {
        linger(shared);
        if (!serve_next(shared) && !shared->asked.first) await_posts(shared, 1, NULL);
    }
    for (size_t at = 0; at < ELEMENTS; at++) refuse(shared, &shared->lanes[at].waiting, shared->closed);
    shared->outside = NULL;
    refuse(shared, &shared->asked, shared->closed);
    give_up_lock(shared);
    return NULL;
}

/* ---- Those who ask */

/* Puts a ticket into the owner's list, under the lock. Returns 0, or why it takes none. */
static uint8_t enter(struct lts *shared, struct ticket *ticket) {
    if (shared->closed) return shared->closed;
    append(&shared->asked, ticket);
    if (!shared->outside) shared->outside = ticket;
    if (shared->away) shared->away--;
    if (++shared->posts == shared->wanted) pthread_cond_broadcast(&shared->changed);
    return 0;
}

/* Gives up the lock. During a sync what is asked is put into the front now, so that the owner needn't do it behind it. */
static void end_asking(struct lts *shared) {
    if (shared->syncs) gather(shared);
    pthread_mutex_unlock(&shared->lock);
}

/* Takes back a ticket whose time is over. If the owner has it, it is told soon. */
static void take_back(struct lts *shared, struct ticket *ticket) {
    pthread_mutex_lock(&shared->lock);
    ticket->late = 1;
    if (ticket->state == QUEUED || ticket->state == WAITS) {
        if (shared->outside == ticket) shared->outside = ticket->next;
        take_out(ticket->state == QUEUED ? &shared->asked : &lane_of(shared, ticket)->waiting, ticket);
        ticket->outcome = (struct lt_outcome){0, LT_WAITING, 0};
        ticket->state = TOLD;
    }
    pthread_mutex_unlock(&shared->lock);
}

/* Asks with a thread's ticket, and waits until it is answered or the time is over. */
static struct lt_outcome ask_and_wait(struct lts *shared, struct ticket *ticket, const struct timespec *end) {
    uint8_t refusal;
    pthread_mutex_lock(&shared->lock);
    refusal = enter(shared, ticket);
    end_asking(shared);
    if (refusal) return (struct lt_outcome){refusal, 0, 0};
    if (!await_told(shared, ticket, end)) {
        take_back(shared, ticket);
        await_told(shared, ticket, NULL);
    }
    return ticket->outcome;
}

struct lt_outcome lts_ask(struct lts *shared, const struct lt_command *command) {
    struct ticket ticket = {.command = *command};
    if (command->number == 0) return (struct lt_outcome){LT_NO_CALL, 0, 0};
    return ask_and_wait(shared, &ticket, NULL);
}

struct lt_outcome lts_await_until(struct lts *shared, uint16_t element, uint64_t number, const struct timespec *end) {
    struct ticket ticket = {.awaits = 1, .command = {.element = element, .number = number}};
    return ask_and_wait(shared, &ticket, end);
}

struct lt_outcome lts_await(struct lts *shared, uint16_t element, uint64_t number) {
    return lts_await_until(shared, element, number, NULL);
}

struct lt_outcome lts_call_until(struct lts *shared, uint16_t element, uint8_t tag, uint32_t address, uint64_t value,
                                 const struct timespec *end, uint64_t *number) {
    struct ticket ticket = {.command = {tag, element, address, 0, value}};
    struct lt_outcome outcome = ask_and_wait(shared, &ticket, end);
    *number = ticket.command.number;
    return outcome;
}

struct lt_outcome lts_call(struct lts *shared, uint16_t element, uint8_t tag, uint32_t address, uint64_t value) {
    uint64_t number;
    return lts_call_until(shared, element, tag, address, value, NULL, &number);
}

int lts_submit(struct lts *shared, const struct lt_command *commands, size_t count, lts_done *done, void *mark) {
    struct batch *batch = malloc(sizeof *batch + count * sizeof *batch->tickets);
    int refusal = 0;
    if (!batch) return -ENOMEM;
    batch->left = count;
    pthread_mutex_lock(&shared->lock);
    for (size_t at = 0; at < count && refusal == 0; at++) {
        batch->tickets[at] = (struct ticket){.command = commands[at], .done = done, .mark = mark, .batch = batch};
        refusal = enter(shared, &batch->tickets[at]);
    }
    end_asking(shared);
    if (refusal || count == 0) free(batch);
    return refusal ? LT_DEVICE : 0;
}

/* ---- Leases, and those who look */

/* Whether an element is leased, or one of its requests waits or is inside. */
static int is_taken(struct lts *shared, uint16_t element) {
    struct lt_bounds window = ltf_window(shared->file, element);
    struct lt_outcome outcome = {0, LT_VALUE, 0};
    for (uint64_t number = window.base; number < window.next && is_last(&outcome); number++)
        ltf_collect(shared->file, element, number, &outcome);
    return shared->lanes[element].leased || shared->lanes[element].inside || !is_last(&outcome);
}

/* Leases the lowest element that isn't taken. */
int lts_lease(struct lts *shared, uint16_t *element) {
    uint16_t elements = ltf_limits(shared->file).elements;
    int refusal;
    pthread_mutex_lock(&shared->lock);
    take_file(shared);
    for (*element = 0; *element < elements && is_taken(shared, *element);) ++*element;
    refusal = shared->closed ? LT_DEVICE : *element == elements ? LT_NO_ELEMENT : 0;
    if (refusal == 0) shared->lanes[*element].leased = 1;
    if (refusal == 0) shared->lanes[*element].open = 0;
    leave_file(shared);
    pthread_mutex_unlock(&shared->lock);
    return refusal;
}

void lts_give_back(struct lts *shared, uint16_t element) {
    pthread_mutex_lock(&shared->lock);
    if (element < ELEMENTS) shared->lanes[element].leased = 0;
    pthread_mutex_unlock(&shared->lock);
}

/* Takes the file for one who looks. Returns why it shows nothing, or 0. */
static int begin_look(struct lts *shared) {
    int refusal;
    pthread_mutex_lock(&shared->lock);
    take_file(shared);
    refusal = shared->closed == LT_DEVICE ? LT_DEVICE : 0;
    pthread_mutex_unlock(&shared->lock);
    return refusal;
}

static void end_look(struct lts *shared) {
    pthread_mutex_lock(&shared->lock);
    leave_file(shared);
    pthread_mutex_unlock(&shared->lock);
}

int lts_look(struct lts *shared, lts_looks *looks, void *given) {
    int refusal = begin_look(shared);
    if (refusal == 0) looks(shared->file, given);
    end_look(shared);
    return refusal;
}

struct lt_sizes lts_limits(struct lts *shared) {
    return ltf_limits(shared->file);
}

struct ltf_counts lts_work(struct lts *shared) {
    struct ltf_counts work;
    begin_look(shared);
    work = ltf_work(shared->file);
    end_look(shared);
    return work;
}

struct ltf_fault lts_failure(struct lts *shared) {
    struct ltf_fault failure;
    begin_look(shared);
    failure = ltf_failure(shared->file);
    end_look(shared);
    return failure;
}

/* ---- Its life */

/* Shares a file, if it was opened. Returns the answer to that, or why it can't be shared; then it is closed. */
static int share(int answer, struct ltf *file, struct lts **made) {
    struct lts *shared = answer ? NULL : calloc(1, sizeof *shared);
    pthread_condattr_t how;
    if (answer) return answer;
    answer = ENOMEM;
    if (shared) {
        shared->file = file;
        ltf_tell_of_syncs(file, note_sync, shared);
        pthread_mutex_init(&shared->lock, NULL);
        pthread_condattr_init(&how);
        pthread_condattr_setclock(&how, CLOCK_MONOTONIC);
        pthread_cond_init(&shared->changed, &how);
        pthread_condattr_destroy(&how);
        answer = pthread_create(&shared->owner, NULL, own, shared);
    }
    if (answer == 0) {
        *made = shared;
        return 0;
    }
    free(shared);
    ltf_close(file);
    return -answer;
}

int lts_create(const char *path, uint32_t cells, uint16_t elements, uint32_t slots, struct lts **made) {
    struct ltf *file = NULL;
    int answer = ltf_create(path, cells, elements, slots, &file);
    return share(answer, file, made);
}

int lts_open(const char *path, struct lts **made) {
    struct ltf *file = NULL;
    int answer = ltf_open(path, &file);
    return share(answer, file, made);
}

int lts_open_or_create(const char *path, uint32_t cells, uint16_t elements, uint32_t slots, struct lts **made) {
    struct ltf *file = NULL;
    int answer = ltf_open_or_create(path, cells, elements, slots, &file);
    return share(answer, file, made);
}

void lts_close(struct lts *shared) {
    pthread_mutex_lock(&shared->lock);
    if (!shared->closed) shared->closed = LT_NO_CALL;
    pthread_cond_broadcast(&shared->changed);
    pthread_mutex_unlock(&shared->lock);
    pthread_join(shared->owner, NULL);
    ltf_close(shared->file);
    pthread_mutex_destroy(&shared->lock);
    pthread_cond_destroy(&shared->changed);
    free(shared);
}
