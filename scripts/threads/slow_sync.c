/* Replaces calls of the system. A sync takes SYNC_US microseconds and does nothing else, so that figures don't depend
 * on the machine's disk. The write or sync with the number FAIL_AT after fail_now fails, and no later one does. */
#include <errno.h>
#include <stdatomic.h>
#include <stdlib.h>
#include <sys/prctl.h>
#include <sys/types.h>
#include <sys/uio.h>
#include <time.h>
#include <unistd.h>

void fail_now(void);

static atomic_long left = -1;

void fail_now(void) {
    const char *word = getenv("FAIL_AT");
    atomic_store(&left, word ? atol(word) : -1);
}

static int fails(void) {
    if (atomic_load(&left) < 0 || atomic_fetch_sub(&left, 1) != 1) return 0;
    errno = EIO;
    return 1;
}

/* Else the kernel lets a thread sleep on for 50 microseconds more. */
static void sleep_no_longer(void) {
    static _Thread_local int is_exact;
    if (!is_exact) is_exact = prctl(PR_SET_TIMERSLACK, 1UL, 0UL, 0UL, 0UL) == 0;
}

static int slow_sync(void) {
    const char *word = getenv("SYNC_US");
    struct timespec time = {0, (word ? atol(word) : 0) * 1000};
    if (time.tv_nsec > 0) {
        sleep_no_longer();
        clock_nanosleep(CLOCK_MONOTONIC, 0, &time, NULL);
    }
    return fails() ? -1 : 0;
}

int fsync(int file) {
    (void)file;
    return slow_sync();
}

int fdatasync(int file) {
    (void)file;
    return slow_sync();
}

ssize_t pwrite(int file, const void *bytes, size_t length, off_t place) {
    struct iovec all = {(void *)(size_t)bytes, length};
    return fails() ? -1 : pwritev(file, &all, 1, place);
}
