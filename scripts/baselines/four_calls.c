// The four calls that put a command into a journal, made in C on the file of a program that makes them too: a slot's
// body, a sync, its gate, a sync. A group has FOUR_CALLS_BODIES bodies.
//
// It is loaded before the C library (LD_PRELOAD). A command or group of the program ends at each second sync after the
// opening's. After it, the library makes the calls itself, twice, into slots from the offset FOUR_CALLS_AT on. So the
// program's command and those two meet the same disk at the same time. At the program's end the file that
// FOUR_CALLS_TOLD names gets a line for each command but the first: the nanoseconds of the program's command, of the
// first calls, and of the second.
#include <stdio.h>
#include <stdlib.h>
#include <string.h>
#include <sys/syscall.h>
#include <time.h>
#include <unistd.h>

enum { MOST = 4096 };
static long long taken[MOST][3];
static int syncs, commands, bodies = 1;
static long long last;

static long long now(void) {
    struct timespec time;
    clock_gettime(CLOCK_MONOTONIC, &time);
    return time.tv_sec * 1000000000LL + time.tv_nsec;
}

static long long since_last(void) {
    long long before = last;
    last = now();
    return last - before;
}

static int puts_body(int file, off_t at) {
    static unsigned char body[63] = {1, 5};
    memcpy(body + 7, &at, sizeof at);
    return pwrite(file, body, sizeof body, at + 1) == sizeof body;
}

static void four_calls(int file, off_t at) {
    static const unsigned char gate = 0xA5;
    int good = 1;
    for (int i = 0; i < bodies; i++)
        good = good && puts_body(file, at + 64L * i);
    if (!good || syscall(SYS_fdatasync, file) != 0 || pwrite(file, &gate, 1, at) != 1
        || syscall(SYS_fdatasync, file) != 0) {
        perror("four_calls");
        _exit(1);
    }
}

int fdatasync(int file) {
    int result = (int)syscall(SYS_fdatasync, file);
    const char *from = getenv("FOUR_CALLS_AT");
    // The first sync is the opening's, which reads the slots after it.
    if (result != 0 || from == NULL || ++syncs == 1 || syncs % 2 == 0 || commands == MOST)
        return result;
    const char *many = getenv("FOUR_CALLS_BODIES");
    bodies = many ? atoi(many) : 1;
    long long *times = taken[commands++];
    off_t at = strtoll(from, NULL, 10) + 128LL * bodies * commands;
    times[0] = since_last();
    four_calls(file, at);
    times[1] = since_last();
    four_calls(file, at + 64LL * bodies);
    times[2] = since_last();
    return result;
}

// The time of the first command includes the opening, so it isn't used.
__attribute__((destructor)) static void tell(void) {
    const char *path = getenv("FOUR_CALLS_TOLD");
    FILE *out = path ? fopen(path, "w") : NULL;
    for (int i = 1; out && i < commands; i++)
        fprintf(out, "%lld %lld %lld\n", taken[i][0], taken[i][1], taken[i][2]);
    if (out)
        fclose(out);
}

// A program may end without calling destructors.
void _exit(int status) {
    tell();
    for (;;)
        syscall(SYS_exit_group, status);
}
