// When a program writes to the journal of its image, in nanoseconds. A command takes the time from its first write to
// that of the next command. That includes the calls of the disk and what follows them.
//
// It is loaded before the C library (LD_PRELOAD). At the program's end the file that WRITE_TIMES_TOLD names gets a line
// for each write of more than one byte at or past the offset WRITE_TIMES_FROM.
#include <stdio.h>
#include <stdlib.h>
#include <sys/syscall.h>
#include <time.h>
#include <unistd.h>

enum { MOST = 4096 };
static long long begun[MOST];
static int commands;

ssize_t pwrite64(int file, const void *bytes, size_t length, off64_t at) {
    const char *from = getenv("WRITE_TIMES_FROM");
    if (from && length > 1 && commands < MOST && at >= strtoll(from, NULL, 10)) {
        struct timespec time;
        clock_gettime(CLOCK_MONOTONIC, &time);
        begun[commands++] = time.tv_sec * 1000000000LL + time.tv_nsec;
    }
    return syscall(SYS_pwrite64, file, bytes, length, at);
}

ssize_t pwrite(int file, const void *bytes, size_t length, off_t at) {
    return pwrite64(file, bytes, length, at);
}

__attribute__((destructor)) static void tell(void) {
    const char *path = getenv("WRITE_TIMES_TOLD");
    FILE *out = path ? fopen(path, "w") : NULL;
    for (int i = 0; out && i < commands; i++)
        fprintf(out, "%lld\n", begun[i]);
    if (out)
        fclose(out);
}

// A program may end without calling destructors.
void _exit(int status) {
    tell();
    for (;;)
        syscall(SYS_exit_group, status);
}
