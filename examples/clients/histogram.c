/* A histogram by three elements over `imem serve`, which is killed at random moments and started again. Each element takes
   a counter, adds one and puts it back: a counter that is away is waited for.

   usage: histogram KILLS SEED IMEM IMAGE      IMAGE is new, made by `imem format --new`

   A line is sent with its number until it is answered: what was done acts once, what wasn't is done then. */
#define _DEFAULT_SOURCE
#include <signal.h>
#include <stdio.h>
#include <stdlib.h>
#include <string.h>
#include <sys/time.h>
#include <sys/wait.h>
#include <unistd.h>

enum { NAMES = 4, ELEMENTS = 3, WORDS = 4, WHAT = 64, LINE = 128 };
static const char *const names[NAMES] = {"to", "be", "or", "not"};
static const int lines[ELEMENTS][WORDS] = {{0, 1, 2, 3}, {2, 0, 1, 0}, {3, 0, 2, 0}}; /* by their names' places */

static const char *imem, *image;
static volatile pid_t program;       /* 0 where none runs: it is waited for behind that */
static volatile sig_atomic_t left;   /* so many kills are still to come */
static FILE *to_program, *from_program;
static unsigned long asked, again;
static double opening; /* microseconds until a first answer */

static void stop(const char *why, const char *line) {
    fprintf(stderr, "%s: %s\n", why, line);
    exit(1);
}

static void on_alarm(int number) {
    (void)number;
    if (program && left) {
        left--;
        kill(program, SIGKILL);
    }
}

/* A random moment of the program's opening or of its work. */
static void wait_for_kill(void) {
    long moment = 100 + (long)(drand48() * 4 * opening);
    struct itimerval timer = {{0, 0}, {moment / 1000000, moment % 1000000}};
    if (left) setitimer(ITIMER_REAL, &timer, NULL);
}

static void start(void) {
    int in[2], out[2];
    if (pipe(in) || pipe(out)) stop("no pipe", image);
    pid_t child = fork();
    if (child < 0) stop("no process", imem);
    if (child == 0) {
        dup2(in[0], 0), dup2(out[1], 1);
        close(in[0]), close(in[1]), close(out[0]), close(out[1]);
        execl(imem, imem, "serve", image, (char *)NULL);
        _exit(127);
    }
    close(in[0]), close(out[1]);
    to_program = fdopen(in[1], "w"), from_program = fdopen(out[0], "r");
    if (!to_program || !from_program) stop("no stream", image);
    program = child;
    wait_for_kill();
}

/* Lets the program end. Whether it was killed. */
static int end(void) {
    pid_t child = program;
    int status = 0;
    program = 0;
    fclose(to_program), fclose(from_program);
    while (waitpid(child, &status, 0) < 0) {}
    return WIFSIGNALED(status);
}

/* Sends a line until it is answered. The answer's words behind the first, which says whose it is; kept until the next. */
static const char *ask(const char *line) {
    static char answer[LINE];
    for (asked++;; again++) {
        if (!program) start();
        if (fprintf(to_program, "%s\n", line) > 0 && fflush(to_program) == 0 && fgets(answer, LINE, from_program)
            && strchr(answer, '\n') && strncmp(answer, "refused", 7) != 0)
            break;
        if (!end()) stop("the program ended by itself at", line);
    }
    const char *words = strchr(answer, ' ');
    if (!words || strncmp(words, " refused", 8) == 0) stop(line, answer);
    return words + 1;
}

struct element {
    unsigned id;
    unsigned long long next;    /* its next number */
    int word, holds, waits;     /* where it is in its line; whether it has the counter, or waits for it */
    unsigned long long value;
};

/* Asks a request, which is confirmed once it is answered: then its value, if it has one. Whether it waits. */
static int request(struct element *it, const char *what) {
    char line[LINE + WHAT];
    if (it->waits) snprintf(line, LINE, "collect %u.%llu", it->id, it->next - 1);
    else snprintf(line, LINE, "%u.%llu %s", it->id, it->next++, what);
    const char *reply = ask(line);
    it->waits = strncmp(reply, "waiting", 7) == 0;
    if (it->waits) return 1;
    const char *value = strchr(reply, ' ');
    it->value = value ? strtoull(value, NULL, 10) : 0;
    snprintf(line, LINE, "confirm %u %llu", it->id, it->next);
    ask(line);
    return 0;
}

static unsigned long long request_at(struct element *it, const char *form, unsigned long long at, unsigned long long value) {
    char what[WHAT];
    snprintf(what, WHAT, form, at, value);
    request(it, what);
    return it->value;
}

int main(int words, char **word) {
    if (words != 5) stop("usage", "histogram KILLS SEED IMEM IMAGE");
    int kills = atoi(word[1]);
    srand48(atol(word[2]));
    imem = word[3], image = word[4];
    signal(SIGPIPE, SIG_IGN);
    struct sigaction alarms = {.sa_handler = on_alarm, .sa_flags = SA_RESTART};
    sigaction(SIGALRM, &alarms, NULL);

    struct timeval from, to;
    gettimeofday(&from, NULL);
    ask("count");
    gettimeofday(&to, NULL);
    opening = (double)(to.tv_sec - from.tv_sec) * 1e6 + (double)(to.tv_usec - from.tv_usec);
    left = kills;
    wait_for_kill();

    struct element maker = {.id = 0, .next = 1}, elements[ELEMENTS] = {{.id = 1, .next = 1}, {.id = 2, .next = 1}, {.id = 3, .next = 1}};
    unsigned long long base = request_at(&maker, "alloc m 4", 0, 0), counts[NAMES] = {0}, losses = 0;
    for (int at = 0; at < NAMES; at++) request_at(&maker, "put %llu %llu", base + at, 0);
    for (int busy = 1; busy;) { /* each element takes a step in turn, until its line has ended and no kill is left */
        busy = 0;
        for (int e = 0; e < ELEMENTS; e++) {
            struct element *it = &elements[e];
            if (it->word == 0 && !it->holds && !it->waits && !left) continue;
            busy = 1;
            int name = lines[e][it->word];
            if (!it->holds) {
                request_at(it, "take %llu", base + name, 0);
                it->holds = !it->waits;
            } else {
                request_at(it, "put %llu %llu", base + name, it->value + 1);
                it->holds = 0, it->word = (it->word + 1) % WORDS, counts[name]++;
            }
        }
    }
    unsigned long long kept[NAMES];
    for (int at = 0; at < NAMES; at++) {
        kept[at] = request_at(&maker, "take %llu", base + at, 0);
        losses += kept[at] > counts[at] ? kept[at] - counts[at] : counts[at] - kept[at];
    }
    end();
    printf("kills %d requests %lu again %lu losses %llu\n", kills, asked, again, losses);
    for (int at = 0; at < NAMES; at++) printf("%s %llu of %llu\n", names[at], kept[at], counts[at]);
    return losses != 0;
}
