// Syncs that all take the same time: fdatasync and fsync sleep for EVEN_SYNC_US microseconds, or do nothing, and don't
// use the disk. So all programs that are compared have the same disk, however busy the real one is.
//
// It is loaded before the C library (LD_PRELOAD). At the program's end it writes three numbers to the file that
// EVEN_SYNC_TOLD names: the syncs, the gates that were opened, which are writes of one byte A5, and the gates of a
// header, which are in the first two pages.
#include <stdatomic.h>
#include <stdio.h>
#include <stdlib.h>
#include <sys/prctl.h>
#include <sys/syscall.h>
#include <time.h>
#include <unistd.h>

enum { OPEN = 0xA5, HEADERS = 8192 };
static atomic_llong syncs, gates, headers;
static long long nanoseconds;

__attribute__((constructor)) static void begin(void) {
    const char *us = getenv("EVEN_SYNC_US");
    nanoseconds = us ? 1000 * strtoll(us, NULL, 10) : 0;
}

static int even_sync(void) {
    static _Thread_local int is_exact;
    syncs++;
    if (nanoseconds == 0)
        return 0;
    // Else the kernel lets a thread sleep on for 50 microseconds more.
    if (!is_exact)
        is_exact = prctl(PR_SET_TIMERSLACK, 1UL, 0UL, 0UL, 0UL) == 0;
    struct timespec end;
    clock_gettime(CLOCK_MONOTONIC, &end);
    long long at = end.tv_nsec + nanoseconds;
    end.tv_sec += at / 1000000000LL;
    end.tv_nsec = at % 1000000000LL;
    while (clock_nanosleep(CLOCK_MONOTONIC, TIMER_ABSTIME, &end, NULL) != 0)
        ;
    return 0;
}

int fdatasync(int file) { return (void)file, even_sync(); }
int fsync(int file) { return (void)file, even_sync(); }

static long counted(int file, const void *bytes, size_t length, long long at) {
    if (length == 1 && *(const unsigned char *)bytes == OPEN) {
        gates++;
        headers += at < HEADERS;
    }
    return syscall(SYS_pwrite64, file, bytes, length, at);
}

ssize_t pwrite(int file, const void *bytes, size_t length, off_t at) { return counted(file, bytes, length, at); }
ssize_t pwrite64(int file, const void *bytes, size_t length, off64_t at) { return counted(file, bytes, length, at); }

__attribute__((destructor)) static void tell(void) {
    const char *path = getenv("EVEN_SYNC_TOLD");
    FILE *out = path ? fopen(path, "w") : NULL;
    if (!out)
        return;
    fprintf(out, "%lld %lld %lld\n", (long long)syncs, (long long)gates, (long long)headers);
    fclose(out);
}

// A program may end without calling destructors.
void _exit(int status) {
    tell();
    for (;;)
        syscall(SYS_exit_group, status);
}
