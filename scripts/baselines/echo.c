/* The floor of a server over pipes: it reads lines, makes the four calls of a command for each on the image's journal,
 * and answers it. It parses nothing and keeps nothing.
 *
 * usage: echo IMAGE      the image has 4,096 slots, which stand at its end */
#include <fcntl.h>
#include <stdlib.h>
#include <string.h>
#include <sys/stat.h>
#include <unistd.h>

enum { SLOTS = 4096, SLOT = 64 };
static const char answer[] = "1.1 stored\n";
static int file;
static off_t journal;
static unsigned long commands;

static void serve(void) {
    static const char body[SLOT - 1] = {1}, gate = (char)0xA5;
    off_t at = journal + SLOT * (off_t)(commands++ % SLOTS);
    if (pwrite(file, body, sizeof body, at + 1) != sizeof body || fdatasync(file) || pwrite(file, &gate, 1, at) != 1 ||
        fdatasync(file) || write(1, answer, strlen(answer)) != (ssize_t)strlen(answer))
        abort();
}

int main(int count, char **words) {
    struct stat of;
    char lines[65536];
    ssize_t got;
    if (count != 2 || (file = open(words[1], O_RDWR)) < 0 || fstat(file, &of)) return 2;
    journal = of.st_size - SLOTS * SLOT;
    while ((got = read(0, lines, sizeof lines)) > 0)
        for (char *end = lines; (end = memchr(end, '\n', (size_t)(lines + got - end))); end++) serve();
    return 0;
}
