/* Syncs that all take SYNC_US microseconds and don't use the disk, so that all stores have the same one. A write to a
 * file that is opened to be written through (LMDB's header) is a sync, too. It is loaded before the C library
 * (LD_PRELOAD). */
#include <fcntl.h>
#include <stdatomic.h>
#include <stdlib.h>
#include <sys/mman.h>
#include <sys/prctl.h>
#include <sys/syscall.h>
#include <sys/uio.h>
#include <time.h>
#include <unistd.h>

static atomic_long syncs;
static long nanoseconds;

__attribute__((constructor)) static void begin(void) {
    const char *word = getenv("SYNC_US");
    nanoseconds = word ? 1000 * atol(word) : 0;
}

long counted_syncs(void);
long counted_syncs(void) { return atomic_load(&syncs); }

static int even_sync(void) {
    static _Thread_local int is_exact;
    atomic_fetch_add(&syncs, 1);
    if (nanoseconds == 0) return 0;
    /* Else the kernel lets a thread sleep on for 50 microseconds more. */
    if (!is_exact) is_exact = prctl(PR_SET_TIMERSLACK, 1UL, 0UL, 0UL, 0UL) == 0;
    struct timespec time = {0, nanoseconds};
    clock_nanosleep(CLOCK_MONOTONIC, 0, &time, NULL);
    return 0;
}

int fsync(int file) { return (void)file, even_sync(); }
int fdatasync(int file) { return (void)file, even_sync(); }
int msync(void *at, size_t length, int flags) { return (void)at, (void)length, flags & MS_SYNC ? even_sync() : 0; }
int sync_file_range(int file, off64_t at, off64_t length, unsigned flags) {
    return (void)file, (void)at, (void)length, (void)flags, 0;
}

static ssize_t told(int file, ssize_t written) {
    int flags = fcntl(file, F_GETFL);
    if (written >= 0 && flags >= 0 && flags & O_DSYNC) even_sync();
    return written;
}

ssize_t pwrite(int file, const void *bytes, size_t length, off_t at) {
    return told(file, syscall(SYS_pwrite64, file, bytes, length, at));
}
ssize_t pwrite64(int file, const void *bytes, size_t length, off64_t at) {
    return told(file, syscall(SYS_pwrite64, file, bytes, length, at));
}
