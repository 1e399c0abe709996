// Writes down each call of the disk: its thread, and when it began and ended, in nanoseconds.
//
// It is loaded before the C library (LD_PRELOAD), and before a library that replaces syncs, if there is one. At the
// program's end it writes a line for each write and each sync to the file that CALLS_TOLD names, in their order.
#include <dlfcn.h>
#include <stdatomic.h>
#include <stdio.h>
#include <stdlib.h>
#include <sys/syscall.h>
#include <time.h>
#include <unistd.h>

enum { MOST = 1 << 20 };
typedef struct { long thread; long long begin, end; } Call;
static Call calls[MOST];
static atomic_long count;

static long long now(void) {
    struct timespec at;
    clock_gettime(CLOCK_MONOTONIC, &at);
    return at.tv_sec * 1000000000LL + at.tv_nsec;
}

static void note(long long begin) {
    long long end = now();
    long at = atomic_fetch_add(&count, 1);
    if (at < MOST)
        calls[at] = (Call){syscall(SYS_gettid), begin, end};
}

static int synced(const char *name, int file) {
    int (*next)(int) = (int (*)(int))dlsym(RTLD_NEXT, name);
    long long begin = now();
    int status = next(file);
    return note(begin), status;
}

int fdatasync(int file) { return synced("fdatasync", file); }
int fsync(int file) { return synced("fsync", file); }

static ssize_t written(const char *name, int file, const void *bytes, size_t length, off_t at) {
    ssize_t (*next)(int, const void *, size_t, off_t) = (ssize_t(*)(int, const void *, size_t, off_t))dlsym(RTLD_NEXT, name);
    long long begin = now();
    ssize_t many = next(file, bytes, length, at);
    return note(begin), many;
}

ssize_t pwrite(int file, const void *bytes, size_t length, off_t at) { return written("pwrite", file, bytes, length, at); }
ssize_t pwrite64(int file, const void *bytes, size_t length, off64_t at) { return written("pwrite64", file, bytes, length, at); }

__attribute__((destructor)) static void tell(void) {
    const char *path = getenv("CALLS_TOLD");
    FILE *out = path ? fopen(path, "w") : NULL;
    if (!out)
        return;
    for (long at = 0; at < count && at < MOST; at++)
        fprintf(out, "%ld %lld %lld\n", calls[at].thread, calls[at].begin, calls[at].end);
    fclose(out);
}

// A program may end without calling destructors.
void _exit(int status) {
    tell();
    for (;;)
        syscall(SYS_exit_group, status);
}
