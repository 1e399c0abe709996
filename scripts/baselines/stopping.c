// A disk that stops: after a given number of reads, writes and syncs of one file, all later ones fail with EIO, in all
// threads.
//
// It is loaded before the C library (LD_PRELOAD). STOPPING_AT is the path of the file, and STOPPING_AFTER the number of
// calls that pass. STOPPING_TOLD is a file that gets each write that passed, the first one that failed, and each sync
// that passed: a letter (w, f, s), and for a write its place and length in eight bytes each, and its bytes.
#define _GNU_SOURCE
#include <errno.h>
#include <fcntl.h>
#include <pthread.h>
#include <stdlib.h>
#include <string.h>
#include <sys/stat.h>
#include <sys/syscall.h>
#include <unistd.h>

static pthread_mutex_t held = PTHREAD_MUTEX_INITIALIZER;
static long long calls, most = -1;
static int told = -1;
static struct stat its;

static int begins(void) {
    const char *path = getenv("STOPPING_AT"), *after = getenv("STOPPING_AFTER"), *out = getenv("STOPPING_TOLD");
    if (!path || !after || !out || stat(path, &its) != 0)
        return 0;
    most = strtoll(after, NULL, 10);
    told = (int)syscall(SYS_openat, AT_FDCWD, out, O_WRONLY | O_CREAT | O_TRUNC, 0644);
    return told >= 0;
}

// Whether a call is on the file. The lock is held.
static int is_its(int file) {
    struct stat found;
    if (most < 0 && !begins())
        return 0;
    return fstat(file, &found) == 0 && found.st_ino == its.st_ino && found.st_dev == its.st_dev;
}

static void tell(char letter, const void *bytes, long long length, long long at) {
    char head[17] = {letter};
    memcpy(head + 1, &at, 8);
    memcpy(head + 9, &length, 8);
    size_t count = letter == 's' ? 1 : sizeof head;
    if (syscall(SYS_write, told, head, count) != (long)count || (bytes && syscall(SYS_write, told, bytes, length) != length))
        _exit(9);
}

static long call(int kind, int file, void *bytes, size_t length, off_t at) {
    pthread_mutex_lock(&held);
    int ours = is_its(file), passes = !ours || calls++ < most;
    long done = -1;
    if (passes)
        done = kind == SYS_pread64 || kind == SYS_pwrite64 ? syscall(kind, file, bytes, length, at) : syscall(kind, file);
    if (ours && kind == SYS_pwrite64 && calls <= most + 1)
        tell(passes ? 'w' : 'f', bytes, (long long)length, at);
    if (ours && passes && done == 0 && (kind == SYS_fdatasync || kind == SYS_fsync))
        tell('s', NULL, 0, 0);
    pthread_mutex_unlock(&held);
    if (!passes)
        errno = EIO;
    return done;
}

ssize_t pread(int file, void *bytes, size_t length, off_t at) { return call(SYS_pread64, file, bytes, length, at); }
ssize_t pread64(int file, void *bytes, size_t length, off64_t at) { return call(SYS_pread64, file, bytes, length, at); }
ssize_t pwrite(int file, const void *bytes, size_t length, off_t at) { return call(SYS_pwrite64, file, (void *)bytes, length, at); }
ssize_t pwrite64(int file, const void *bytes, size_t length, off64_t at) { return call(SYS_pwrite64, file, (void *)bytes, length, at); }
int fdatasync(int file) { return (int)call(SYS_fdatasync, file, NULL, 0, 0); }
int fsync(int file) { return (int)call(SYS_fsync, file, NULL, 0, 0); }
