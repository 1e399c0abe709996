/* Runs the threads of a program one at a time, in an order that a seed gives: a library for LD_PRELOAD.
 *
 * A thread goes on until it waits, wakes, yields, begins or joins another, reads its input, writes its output or calls
 * the disk, and by half of the seeds until an instruction that changes a word for all threads. There the seed says who
 * goes on: anyone at random, or who has the highest priority, which is lost at a few places, at one in so many, or for a
 * while: where a thread comes to an instruction by one of the ways that the seed picks, it rests. A wait may end for no
 * reason, as a futex's may; one that has an end ends when nobody else can go on. The client at the other end of the input
 * is idle (a line comes when nobody else can go on), busy (all is there at once) or both, and the input may be one that
 * doesn't block. The output takes a part of what is written, often. Syncs aren't made.
 *
 * SCHEDULE is the seed. Where they are set: SCHEDULE_RECORD, a file that gets, one after another, each write of the disk (`w`,
 * its place and length in eight bytes each, its bytes), each sync (`s`), each call of it that fails (`f`) and what is written to
 * standard output (`o`, its length, its bytes); SCHEDULE_FAULT, the number from 0 of the call of the disk that fails: of a
 * write some bytes may be written then; SCHEDULE_FOR_GOOD, that each later one fails too; SCHEDULE_STEPS, how many steps are
 * too many; SCHEDULE_SITES, a file with the address in the program of each such instruction, in eight bytes. A trap stands in
 * its place, behind which the instruction itself is stepped over.
 *
 * Where no thread can go on the program ends with status 99, and after too many steps with 98; standard error says where
 * each thread is. */
#define _GNU_SOURCE
#include <dlfcn.h>
#include <errno.h>
#include <fcntl.h>
#include <link.h>
#include <linux/futex.h>
#include <pthread.h>
#include <signal.h>
#include <stdarg.h>
#include <stdint.h>
#include <stdio.h>
#include <stdlib.h>
#include <sys/mman.h>
#include <sys/syscall.h>
#include <time.h>
#include <ucontext.h>
#include <unistd.h>

enum { MOST = 256, PLACES = 32, STUCK = 99, ENDLESS = 98, MANY = 97, LONG_TIME = 1000000000 };
enum { MOST_SITES = 4096, TRAP = 0xCC, STEPPING = 0x100, PATIENCE = 100, PAGE = 4096, CALLERS = 8, LOOKED_AT = 1024 };
enum state { RUNS, WAITS, JOINS, ENDED };
enum client { BOTH, IDLE, BUSY };
enum does { AT_FUTEX = 1, WOKE, YIELDS, NAPS, JOINING, CALLS_DISK, SYNCED, WROTE, READS, HAS_READ, PRINTS, HAS_PRINTED };

struct member {
    enum state state;
    int go;         /* 1: it may go on */
    void *at;       /* what it waits for */
    int joins;      /* whose end it waits for */
    int ends;       /* its wait has an end */
    int is_late;    /* its wait came to that end */
    long priority;
    long rests;     /* until so many steps were made, it goes on only if nobody else can */
    const uintptr_t *base; /* of its stack */
    uint64_t before[2]; /* what it did at its last two steps, the last one first */
    pthread_t thread;
};

static struct member members[MOST];
static int count;
static __thread int own = -1;

static uint64_t dice;
static int by_priority;
static unsigned losses;   /* one in so many that the priority is lost; 0: at the places alone */
static unsigned ways;     /* one in so many ways to an instruction on which a thread rests; 0: on none */
static uint64_t picked;   /* which of the ways */
static long rest_length;
static unsigned odds;     /* one in so many that another goes on */
static unsigned spurious; /* one in so many that a wait ends for no reason; 0: none does */
static long places[PLACES], lowest;
static int place_count;
static long steps, most_steps, switches, disk_calls;
static long fault = -1;
static int for_good, record = -1, disk = -1; /* disk: the file that was written first */
static int input; /* what whoever reads standard input waits for */
static enum client client;
static int is_fine;    /* 1: such instructions are steps too */
static int blocks = 1; /* 0: an input that has nothing yet says so */

static long bare(long which, long a, long b, long c, long d, long e, long f) {
    long result;
    register long fourth __asm__("r10") = d;
    register long fifth __asm__("r8") = e;
    register long sixth __asm__("r9") = f;
    __asm__ volatile("syscall" : "=a"(result)
                     : "a"(which), "D"(a), "S"(b), "d"(c), "r"(fourth), "r"(fifth), "r"(sixth) : "rcx", "r11", "memory");
    return result;
}

static long answered(long result) {
    if (result >= 0 || result <= -4096) return result;
    errno = (int)-result;
    return -1;
}

static uint64_t roll(void) {
    dice ^= dice << 13;
    dice ^= dice >> 7;
    dice ^= dice << 17;
    return dice * 2685821657736338717ull;
}

static unsigned below(unsigned bound) { return (unsigned)((roll() >> 33) % bound); }

static long number_of(const char *name, long other) {
    const char *text = getenv(name);
    return text && *text ? atol(text) : other;
}

static void rest(int who) {
    while (!__atomic_exchange_n(&members[who].go, 0, __ATOMIC_SEQ_CST))
        bare(SYS_futex, (long)&members[who].go, FUTEX_WAIT_PRIVATE, 0, 0, 0, 0);
}

static void let_go(int who) {
    __atomic_store_n(&members[who].go, 1, __ATOMIC_SEQ_CST);
    bare(SYS_futex, (long)&members[who].go, FUTEX_WAKE_PRIVATE, 1, 0, 0, 0);
}

/* Ends the program, and says where each thread is. */
static void stop(int status, const char *why) {
    static const char *const names[] = {"runs", "waits", "joins", "ended"};
    char text[8192];
    int length = snprintf(text, sizeof text, "%s after %ld steps, %ld switches, %ld calls of the disk\n", why, steps, switches, disk_calls);
    for (int who = 0; who < count && length < 7900; who++)
        length += snprintf(text + length, sizeof text - (size_t)length, "  thread %d %s\n", who, names[members[who].state]);
    bare(SYS_write, 2, (long)text, length, 0, 0, 0);
    bare(SYS_exit_group, status, 0, 0, 0, 0, 0);
}

static int can_go(int who) { return members[who].state == RUNS; }

/* One of those that can go on by this test, or -1. */
static int any(int (*is_one)(int)) {
    int found[MOST], length = 0;
    for (int who = 0; who < count; who++)
        if (is_one(who)) found[length++] = who;
    return length ? found[below((unsigned)length)] : -1;
}

static int has_end(int who) { return members[who].state == WAITS && members[who].ends; }

static int is_before(int who, int other) {
    int rests = members[who].rests > steps, other_rests = members[other].rests > steps;
    return rests == other_rests ? members[who].priority > members[other].priority : other_rests;
}

static int highest(void) {
    int best = -1;
    for (int who = 0; who < count; who++)
        if (can_go(who) && (best < 0 || is_before(who, best))) best = who;
    return best;
}

/* Who goes on. Where nobody can, a wait that has an end comes to it. */
static int next(void) {
    int who = any(can_go);
    if (who < 0) {
        who = any(has_end);
        if (who < 0) stop(STUCK, "nobody can go on");
        members[who].is_late = 1;
        members[who].state = RUNS;
        return who;
    }
    if (by_priority) return highest();
    return own >= 0 && can_go(own) && below(odds) ? own : who;
}

static void pass_on(void) {
    int who = next();
    if (who == own) return;
    switches++;
    let_go(who);
    if (members[own].state != ENDED) rest(own);
}

static int waits(int who) { return members[who].state == WAITS; }

/* A place where another thread may go on: what a thread does there. */
static void step(uint64_t what) {
    if (own < 0) return;
    members[own].before[1] = members[own].before[0];
    members[own].before[0] = what;
    if (++steps > most_steps) stop(ENDLESS, "no end");
    for (int at = 0; by_priority && at < place_count; at++)
        if (places[at] == steps) members[own].priority = --lowest;
    if (losses && below(losses) == 0) members[own].priority = --lowest;
    if (spurious && below(spurious) == 0) {
        int who = any(waits);
        if (who >= 0) members[who].state = RUNS;
    }
    pass_on();
}

/* Waits until it is woken there. Whether it was, or woke for no reason; not where the wait came to its end. */
static int wait_at(void *at, int ends) {
    struct member *me = &members[own];
    me->at = at;
    me->ends = ends;
    me->is_late = 0;
    me->state = WAITS;
    pass_on();
    me->at = NULL;
    return !me->is_late;
}

static long wake(void *at, long most) {
    long woken = 0;
    for (; woken < most; woken++) {
        int found[MOST], length = 0;
        for (int who = 0; who < count; who++)
            if (members[who].state == WAITS && members[who].at == at) found[length++] = who;
        if (length == 0) break;
        members[found[below((unsigned)length)]].state = RUNS;
    }
    return woken;
}

/* The system's calls. */

static long on_futex(uint32_t *at, int operation, uint32_t value, const struct timespec *time) {
    int what = operation & FUTEX_CMD_MASK;
    step(AT_FUTEX);
    if (what == FUTEX_WAIT || what == FUTEX_WAIT_BITSET) {
        if (__atomic_load_n(at, __ATOMIC_SEQ_CST) != value) return answered(-EAGAIN);
        return wait_at(at, time != NULL && time->tv_sec < LONG_TIME) ? 0 : answered(-ETIMEDOUT);
    }
    if (what == FUTEX_WAKE || what == FUTEX_WAKE_BITSET) {
        long woken = wake(at, (long)value);
        step(WOKE);
        return woken;
    }
    return answered(-ENOSYS);
}

long syscall(long which, ...) {
    va_list list;
    va_start(list, which);
    long a = va_arg(list, long), b = va_arg(list, long), c = va_arg(list, long);
    long d = va_arg(list, long), e = va_arg(list, long), f = va_arg(list, long);
    va_end(list);
    if (which == SYS_futex && own >= 0) return on_futex((uint32_t *)a, (int)b, (uint32_t)c, (const struct timespec *)d);
    return answered(bare(which, a, b, c, d, e, f));
}

int sched_yield(void) {
    if (own < 0) return (int)answered(bare(SYS_sched_yield, 0, 0, 0, 0, 0, 0));
    if (by_priority) members[own].priority = --lowest;
    step(YIELDS);
    return 0;
}

int nanosleep(const struct timespec *time, struct timespec *left) {
    if (own < 0) return (int)answered(bare(SYS_nanosleep, (long)time, (long)left, 0, 0, 0, 0));
    step(NAPS);
    wait_at(&steps, 1);
    return 0;
}

int clock_nanosleep(clockid_t clock, int flags, const struct timespec *time, struct timespec *left) {
    if (own < 0) return (int)-bare(SYS_clock_nanosleep, clock, flags, (long)time, (long)left, 0, 0);
    step(NAPS);
    wait_at(&steps, 1);
    return 0;
}

struct beginning {
    void *(*run)(void *);
    void *given;
    int who;
};

static int waits_for_own(int who) { return members[who].state == JOINS && members[who].joins == own; }

static void end_own(void) {
    members[own].state = ENDED;
    for (int who = 0; who < count; who++)
        if (waits_for_own(who)) members[who].state = RUNS;
    pass_on();
    own = -1;
}

static void *begin(void *given) {
    struct beginning beginning = *(struct beginning *)given;
    free(given);
    own = beginning.who;
    members[own].base = __builtin_frame_address(0);
    rest(own);
    void *result = beginning.run(beginning.given);
    end_own();
    return result;
}

static void join_in(void) {
    if (count == MOST) stop(MANY, "too many threads");
    members[count].state = RUNS;
    members[count].priority = 1 + (long)below(1000000);
    count++;
}

int pthread_create(pthread_t *thread, const pthread_attr_t *attributes, void *(*run)(void *), void *given) {
    static int (*create)(pthread_t *, const pthread_attr_t *, void *(*)(void *), void *);
    if (!create) create = dlsym(RTLD_NEXT, "pthread_create");
    if (own < 0) return create(thread, attributes, run, given);
    struct beginning *beginning = malloc(sizeof *beginning);
    int who = count;
    if (!beginning) return ENOMEM;
    *beginning = (struct beginning){run, given, who};
    join_in();
    int result = create(thread, attributes, begin, beginning);
    if (result) members[who].state = ENDED;
    else members[who].thread = *thread;
    return result; /* No step: a sanitizer's lock is held here that a new thread wants. */
}

int pthread_join(pthread_t thread, void **result) {
    static int (*join)(pthread_t, void **);
    if (!join) join = dlsym(RTLD_NEXT, "pthread_join");
    int who = own < 0 ? 0 : count - 1;
    while (who > 0 && !pthread_equal(members[who].thread, thread)) who--;
    if (who > 0) {
        step(JOINING);
        members[own].joins = who;
        if (members[who].state != ENDED) {
            members[own].state = JOINS;
            pass_on();
        }
    }
    return join(thread, result);
}

/* Instructions that change a word for all threads. One thread runs at a time, so that a trap can be taken away for a moment. */

static uint8_t *sites[MOST_SITES], firsts[MOST_SITES]; /* in order, and the byte under each trap */
static int site_count, stepped = -1;                   /* stepped: whose instruction is stepped over */
static uintptr_t program, code, code_end;              /* where the program lies, and its instructions */

static int site_at(const uint8_t *at) {
    int low = 0, high = site_count;
    while (low < high) {
        int middle = (low + high) / 2;
        if (sites[middle] < at) low = middle + 1;
        else high = middle;
    }
    return low < site_count && sites[low] == at ? low : -1;
}

static uint64_t mixed(uint64_t sum, uint64_t more) {
    sum = (sum ^ more) * 0x9e3779b97f4a7c15ull;
    return sum ^ sum >> 29;
}

/* A number for the place where the program is: an instruction, and those of the last callers on the stack. */
static uint64_t place_of(const greg_t *registers) {
    const uintptr_t *at = (const uintptr_t *)registers[REG_RSP], *end = at + LOOKED_AT;
    uint64_t sum = (uint64_t)registers[REG_RIP] - program;
    if (end > members[own].base) end = members[own].base;
    for (int found = 0; at < end && found < CALLERS; at++)
        if (*at >= code && *at < code_end) {
            sum = mixed(sum, *at - program);
            found++;
        }
    return sum;
}

/* A number for the way on which a thread comes to a place: from its last two steps. */
static uint64_t way_to(uint64_t what) { return mixed(mixed(what, members[own].before[0]), members[own].before[1]); }

static void on_trap(int signal, siginfo_t *info, void *given) {
    static __thread int last = -1, times;
    greg_t *registers = ((ucontext_t *)given)->uc_mcontext.gregs;
    (void)info;
    if (stepped >= 0) {
        *sites[stepped] = TRAP;
        stepped = -1;
        registers[REG_EFL] &= ~(greg_t)STEPPING;
        return;
    }
    int site = site_at((uint8_t *)registers[REG_RIP] - 1);
    if (site < 0) { /* It is the program's own. */
        struct sigaction other = {.sa_handler = SIG_DFL};
        sigaction(signal, &other, NULL);
        return;
    }
    times = site == last ? times + 1 : 0;
    last = site;
    if (by_priority && times > PATIENCE && own >= 0) members[own].priority = --lowest; /* It may wait for another one here. */
    uint64_t what = own >= 0 ? place_of(registers) : 0;
    if (ways && own >= 0 && (way_to(what) ^ picked) % ways == 0) members[own].rests = steps + rest_length;
    step(what);
    registers[REG_RIP]--;
    *sites[site] = firsts[site];
    stepped = site;
    registers[REG_EFL] |= STEPPING;
}

static int find_program(struct dl_phdr_info *info, size_t size, void *given) {
    (void)size;
    (void)given;
    program = info->dlpi_addr;
    for (int at = 0; at < info->dlpi_phnum; at++) {
        const ElfW(Phdr) *part = &info->dlpi_phdr[at];
        if (part->p_type != PT_LOAD || !(part->p_flags & PF_X)) continue;
        code = program + part->p_vaddr;
        code_end = code + part->p_memsz;
    }
    return 1; /* The first one is the program. */
}

static void set_traps(const char *path) {
    uintptr_t found[MOST_SITES];
    struct sigaction action = {.sa_sigaction = on_trap, .sa_flags = SA_SIGINFO};
    int file = open(path, O_RDONLY | O_CLOEXEC);
    long length = file < 0 ? 0 : bare(SYS_read, file, (long)found, sizeof found, 0, 0, 0);
    dl_iterate_phdr(find_program, NULL);
    if (length <= 0 || sigaction(SIGTRAP, &action, NULL) != 0) return;
    close(file);
    for (site_count = 0; site_count < length / (long)sizeof found[0]; site_count++) {
        uint8_t *at = (uint8_t *)(program + found[site_count]);
        if (mprotect((void *)((uintptr_t)at & ~(uintptr_t)(PAGE - 1)), PAGE, PROT_READ | PROT_WRITE | PROT_EXEC) != 0) stop(MANY, "no trap can be set");
        sites[site_count] = at;
        firsts[site_count] = *at;
        *at = TRAP;
    }
}

/* The disk. */

static void note(const void *bytes, size_t length) {
    if (record >= 0 && bare(SYS_write, record, (long)bytes, (long)length, 0, 0, 0) != (long)length) stop(MANY, "the record can't be written");
}

static int fails(void) {
    if (own < 0) return 0;
    step(CALLS_DISK);
    long call = disk_calls++;
    return fault >= 0 && (call == fault || (for_good && call > fault));
}

static long write_down(int file, const void *bytes, size_t length, off_t place) {
    long written = bare(SYS_pwrite64, file, (long)bytes, (long)length, place, 0, 0);
    if (written > 0) {
        uint64_t head[2] = {(uint64_t)place, (uint64_t)written};
        note("w", 1);
        note(head, sizeof head);
        note(bytes, (size_t)written);
    }
    return written;
}

static int synced(int file) {
    if (file != disk) return 0;
    if (fails()) {
        note("f", 1);
        return (int)answered(-EIO);
    }
    note("s", 1);
    step(SYNCED);
    return 0;
}

int fsync(int file) { return synced(file); }
int fdatasync(int file) { return synced(file); }

static ssize_t put(int file, const void *bytes, size_t length, off_t place) {
    if (disk < 0) disk = file;
    if (file != disk) return answered(bare(SYS_pwrite64, file, (long)bytes, (long)length, place, 0, 0));
    if (fails()) {
        if (length > 0) write_down(file, bytes, below((unsigned)length + 1), place);
        note("f", 1);
        return answered(-EIO);
    }
    long written = write_down(file, bytes, length, place);
    step(WROTE);
    return answered(written);
}

ssize_t pwrite(int file, const void *bytes, size_t length, off_t place) { return put(file, bytes, length, place); }
ssize_t pwrite64(int file, const void *bytes, size_t length, off_t place) { return put(file, bytes, length, place); }

/* Standard input and output. */

/* How much of what was read is given now: a byte, the first line, or all. */
static long given_now(const char *bytes, long length) {
    unsigned how = client == BUSY ? 0 : client == IDLE ? 2 : below(4);
    if (how == 0) return length;
    if (how == 1) return 1;
    for (long at = 0; at < length; at++)
        if (bytes[at] == '\n') return at + 1;
    return length;
}

ssize_t read(int file, void *bytes, size_t length) {
    if (file != 0 || own < 0) return answered(bare(SYS_read, file, (long)bytes, (long)length, 0, 0, 0));
    step(READS);
    if (client == IDLE || (client == BOTH && below(3) == 0)) {
        if (!blocks && below(2)) return answered(-EAGAIN);
        wait_at(&input, 1);
    }
    long found = bare(SYS_read, file, (long)bytes, (long)length, 0, 0, 0);
    if (found > 0) {
        long now = given_now(bytes, found);
        if (now < found && bare(SYS_lseek, file, now - found, SEEK_CUR, 0, 0, 0) >= 0) found = now;
    }
    step(HAS_READ);
    return answered(found);
}

ssize_t write(int file, const void *bytes, size_t length) {
    if (file != 1 || own < 0) return answered(bare(SYS_write, file, (long)bytes, (long)length, 0, 0, 0));
    step(PRINTS);
    if (length > 1 && below(4) == 0) length = 1 + below((unsigned)length);
    long written = bare(SYS_write, file, (long)bytes, (long)length, 0, 0, 0);
    if (written > 0) {
        uint64_t head = (uint64_t)written;
        note("o", 1);
        note(&head, sizeof head);
        note(bytes, (size_t)written);
    }
    step(HAS_PRINTED);
    return answered(written);
}

/* What a seed says. */

static void settle(long seed) {
    static const unsigned all_odds[] = {1, 2, 4, 16, 64, 400}, all_losses[] = {16, 64, 128, 256}, all_ways[] = {4, 8, 16, 32};
    dice = (uint64_t)seed * 0x9e3779b97f4a7c15ull + 88172645463325252ull;
    for (int at = 0; at < 8; at++) roll();
    unsigned way = below(3);
    by_priority = way > 0;
    is_fine = (int)below(2);
    losses = way == 2 ? all_losses[below(4)] * (is_fine ? 4 : 1) : 0; /* There are more steps then. */
    odds = all_odds[below(6)];
    spurious = below(4) ? 0 : 50;
    place_count = 1 + (int)below(12);
    unsigned span = 1u << (8 + below(9));
    for (int at = 0; at < place_count; at++) places[at] = 1 + (long)below(span);
    client = (enum client)below(3);
    blocks = below(3) > 0;
    if (seed % 6 != 0) return;
    by_priority = is_fine = 1;
    place_count = 0;
    losses = 0;
    ways = all_ways[below(4)];
    picked = roll();
    rest_length = 8l << below(8);
}

__attribute__((constructor)) static void load(void) {
    const char *path = getenv("SCHEDULE_RECORD"), *finely = getenv("SCHEDULE_SITES");
    long seed = number_of("SCHEDULE", -1);
    if (seed < 0) return;
    settle(seed);
    most_steps = number_of("SCHEDULE_STEPS", 3000000);
    fault = number_of("SCHEDULE_FAULT", -1);
    for_good = number_of("SCHEDULE_FOR_GOOD", 0) != 0;
    if (path) record = open(path, O_WRONLY | O_CREAT | O_TRUNC | O_CLOEXEC, 0600);
    join_in();
    members[0].thread = pthread_self();
    members[0].base = (const uintptr_t *)environ;
    if (finely && is_fine) set_traps(finely);
    own = 0;
}
