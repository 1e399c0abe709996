// Groups as a journal has them, made in C without anything else: sixteen bodies, a sync, one gate, a sync.
//
// usage: raw_groups FILE OFFSET GROUPS      prints the nanoseconds of all groups together
#include <fcntl.h>
#include <stdio.h>
#include <stdlib.h>
#include <time.h>
#include <unistd.h>

enum { MEMBERS = 16, SLOT = 64 };

static long long now(void) {
    struct timespec time;
    clock_gettime(CLOCK_MONOTONIC, &time);
    return time.tv_sec * 1000000000LL + time.tv_nsec;
}

static int group(int file, off_t at) {
    static const unsigned char body[SLOT - 1] = {1, 5}, gate = 0xA5;
    for (int i = 0; i < MEMBERS; i++)
        if (pwrite(file, body, sizeof body, at + SLOT * i + 1) != sizeof body)
            return 0;
    return fdatasync(file) == 0 && pwrite(file, &gate, 1, at) == 1 && fdatasync(file) == 0;
}

int main(int count, char **words) {
    if (count != 4)
        return 2;
    int file = open(words[1], O_RDWR);
    off_t at = strtoll(words[2], NULL, 10);
    long groups = strtol(words[3], NULL, 10);
    long long start = now();
    for (long i = 0; i < groups; i++)
        if (file < 0 || !group(file, at + SLOT * MEMBERS * (i % 256))) {
            perror("raw_groups");
            return 1;
        }
    printf("%lld\n", now() - start);
    return 0;
}
