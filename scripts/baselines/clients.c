// Many clients of a socket in one process, each with one step under way: of a server of Luntrebis, or of Redis.
//
// usage: clients SOCKET KIND CLIENTS MILLISECONDS      KIND is counter or pass, behind it -redis for Redis
//
// In a step of `counter` a client adds one to a counter of its own: take, then put and confirm; or INCR. In a step of
// `pass` two clients hand a value to each other, and each waits for the other: put and take, with a confirmation; or
// RPUSH and BLPOP. It prints the steps, the milliseconds, and how many microseconds a step took: the middle one, one of
// a hundred at least, and the longest. The status is 1 if an answer isn't as it has to be.
#include <errno.h>
#include <inttypes.h>
#include <poll.h>
#include <stdio.h>
#include <stdlib.h>
#include <string.h>
#include <sys/socket.h>
#include <sys/un.h>
#include <time.h>
#include <unistd.h>

enum { MOST = 256, TIMES = 4000000 };

struct client {
    int socket, element, lacks, has_taken;     // lacks: lines of the answer to this step that aren't there yet
    uint64_t number, value, steps;
    int64_t begun;
    char text[4096];
    size_t length;
};

static struct client clients[MOST];
static struct pollfd polled[MOST];
static uint32_t *times;
static size_t measured;
static int is_redis, is_pass;

static void stop(const char *what, const char *said) {
    fprintf(stderr, "clients: %s: %s\n", what, said);
    exit(1);
}

static int64_t now(void) {
    struct timespec at;
    clock_gettime(CLOCK_MONOTONIC, &at);
    return at.tv_sec * 1000000LL + at.tv_nsec / 1000;
}

static int connect_to(const char *path) {
    struct sockaddr_un address = {.sun_family = AF_UNIX};
    int it = socket(AF_UNIX, SOCK_STREAM, 0);
    snprintf(address.sun_path, sizeof address.sun_path, "%s", path);
    if (it < 0 || connect(it, (struct sockaddr *)&address, sizeof address) != 0)
        stop(path, strerror(errno));
    return it;
}

static void say(struct client *it, const char *text, int lacks) {
    size_t length = strlen(text);
    if (send(it->socket, text, length, MSG_NOSIGNAL) != (ssize_t)length)
        stop("send", strerror(errno));
    it->lacks = lacks;
}

// The cells of a pair: its first client fills `own` and empties `other`, and the second one the other way round.
static void begin_step(struct client *it, int is_first_step) {
    char text[256];
    int own = it->element, other = (it->element - 1) / 2 * 2 + (it->element % 2 ? 2 : 1), leads = it->element % 2;
    it->begun = now();
    it->has_taken = 0;
    if (!is_pass && is_redis) {
        snprintf(text, sizeof text, "INCR counter%d\r\n", own);
        say(it, text, 1);
    } else if (!is_pass) {
        snprintf(text, sizeof text, "%d.%" PRIu64 " take %d\n", own, it->number++, own);
        say(it, text, 1);
    } else if (is_redis) {
        snprintf(text, sizeof text, "RPUSH queue%d 1\r\nBLPOP queue%d 0\r\n", own, other);
        int rests = is_first_step && !leads;
        say(it, rests ? strchr(text, '\n') + 1 : text, rests ? 5 : 6);
    } else if (is_first_step && !leads) {
        snprintf(text, sizeof text, "%d.%" PRIu64 " take %d\n", own, it->number++, other);
        say(it, text, 1);
    } else {
        snprintf(text, sizeof text, "confirm %d %" PRIu64 "\n%d.%" PRIu64 " put %d 1\n%d.%" PRIu64 " take %d\n", own, it->number,
                 own, it->number, own, own, it->number + 1, other);
        it->number += 2;
        say(it, text, 3);
    }
}

static void end_step(struct client *it) {
    if (!is_pass && !is_redis && it->has_taken == 1) { // The second half: what was taken goes back, with one more.
        char text[256];
        snprintf(text, sizeof text, "%d.%" PRIu64 " put %d %" PRIu64 "\nconfirm %d %" PRIu64 "\n", it->element, it->number,
                 it->element, it->value + 1, it->element, it->number + 1);
        it->number++;
        it->has_taken = 2;
        say(it, text, 2);
        return;
    }
    if (measured < TIMES)
        times[measured++] = (uint32_t)(now() - it->begun);
    it->steps++;
    begin_step(it, 0);
}

static void hear_line(struct client *it, const char *line) {
    if (line[0] == '-' || strstr(line, "refused") || !strncmp(line, "error", 5) || strstr(line, "clash"))
        stop("answer", line);
    if (!is_redis && strstr(line, " waiting"))
        return;
    const char *value = is_redis ? NULL : strstr(line, " value ");
    if (value) {
        it->value = strtoull(value + 7, NULL, 10);
        it->has_taken = 1;
    }
    it->lacks--;
}

static void hear(struct client *it) {
    ssize_t more = recv(it->socket, it->text + it->length, sizeof it->text - 1 - it->length, 0);
    if (more <= 0)
        stop("recv", more ? strerror(errno) : "closed");
    it->length += (size_t)more;
    it->text[it->length] = 0;
    char *line = it->text, *end;
    while ((end = strchr(line, '\n'))) {
        *end = 0;
        hear_line(it, line);
        line = end + 1;
        if (it->lacks == 0)
            end_step(it);
    }
    it->length = strlen(line);
    memmove(it->text, line, it->length + 1);
}

// Asks a line alone, and returns its answer.
static char *asked(struct client *it, const char *line) {
    static char answer[4096];
    if (send(it->socket, line, strlen(line), MSG_NOSIGNAL) < 0)
        stop("send", strerror(errno));
    ssize_t length = recv(it->socket, answer, sizeof answer - 1, 0);
    answer[length < 0 ? 0 : length] = 0;
    return answer;
}

// Element 0 makes the cells, and each client finds the number that it goes on with.
static void make(int count) {
    char line[128];
    for (int at = 0; at < count && !is_redis; at++) {
        struct client *it = &clients[at];
        uint64_t base;
        if (at == 0)
            asked(it, is_pass ? "0.1 alloc m 128\n" : "0.1 alloc m 128\n");
        snprintf(line, sizeof line, "%d.1 put %d 0\n", it->element, it->element);
        if (!is_pass) {
            asked(it, line);
            snprintf(line, sizeof line, "confirm %d 2\n", it->element);
            asked(it, line);
        }
        snprintf(line, sizeof line, "window %d\n", it->element);
        if (sscanf(asked(it, line), "%*d window %" SCNu64 " %" SCNu64, &base, &it->number) != 2)
            stop("window", "it isn't told");
    }
}

static int by_length(const void *one, const void *other) {
    uint32_t a = *(const uint32_t *)one, b = *(const uint32_t *)other;
    return (a > b) - (a < b);
}

int main(int argc, char **argv) {
    if (argc != 5 || atoi(argv[3]) < 1 || atoi(argv[3]) > MOST)
        stop("usage", "clients SOCKET KIND CLIENTS MILLISECONDS");
    int count = atoi(argv[3]);
    is_redis = strstr(argv[2], "-redis") != NULL;
    is_pass = !strncmp(argv[2], "pass", 4);
    times = calloc(TIMES, sizeof *times);
    for (int at = 0; at < count; at++) {
        clients[at] = (struct client){.socket = connect_to(argv[1]), .element = at + 1};
        polled[at] = (struct pollfd){.fd = clients[at].socket, .events = POLLIN};
    }
    make(count);
    int64_t start = now(), end = start + 1000LL * atoi(argv[4]);
    for (int at = 0; at < count; at++)
        begin_step(&clients[at], 1);
    while (now() < end) {
        if (poll(polled, (nfds_t)count, 100) < 0)
            stop("poll", strerror(errno));
        for (int at = 0; at < count; at++)
            if (polled[at].revents)
                hear(&clients[at]);
    }
    double spent = (double)(now() - start) / 1000;
    qsort(times, measured, sizeof *times, by_length);
    if (measured == 0)
        stop("steps", "none was done");
    printf("%zu %.0f %u %u %u\n", measured, spent, times[measured / 2], times[measured * 99 / 100], times[measured - 1]);
    return 0;
}
