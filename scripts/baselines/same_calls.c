// The calls that a program made on a file, made again in C: same_calls FILE CALLS.
//
// Each line of CALLS is a call: `w OFFSET LENGTH` writes bytes there, `r OFFSET LENGTH` reads them, `s` syncs. It
// writes zeros and a counter, because only the time matters.
#include <fcntl.h>
#include <stdio.h>
#include <string.h>
#include <unistd.h>

enum { MOST = 8 << 20 };
static unsigned char bytes[MOST];

static int fails(const char *what) {
    perror(what);
    return 1;
}

int main(int count, char **words) {
    if (count != 3)
        return 2;
    int file = open(words[1], O_RDWR);
    FILE *calls = fopen(words[2], "r");
    if (file < 0 || calls == NULL)
        return fails("same_calls");
    char kind, line[64];
    unsigned long number = 0;
    while (fgets(line, sizeof line, calls) != NULL) {
        long long at = 0;
        size_t length = 0;
        if (sscanf(line, "%c %lld %zu", &kind, &at, &length) < 1 || length > MOST)
            return fails(line);
        memcpy(bytes, &number, sizeof number);
        number += 1;
        if (kind == 's' && fdatasync(file) != 0)
            return fails("fdatasync");
        if (kind == 'w' && pwrite(file, bytes, length, at) != (ssize_t)length)
            return fails("pwrite");
        if (kind == 'r' && pread(file, bytes, length, at) != (ssize_t)length)
            return fails("pread");
    }
    return 0;
}
