// Reads an image and parses it: the header in force, and each cell, node, window and journal slot of its area into a struct,
// with the checks of its spelling and that cells of a block stand together. It joins nothing.
//
// read_image IMAGE          prints how many there are
// read_image IMAGE report   prints the blocks, the cells, the elements and the entries of the area, a line for each
// read_image IMAGE time     syncs the file, reads it, and replays its stores and confirmations, in memory that was touched before; prints
//                           how many commands those are, and the nanoseconds
#include <fcntl.h>
#include <stdbool.h>
#include <stdint.h>
#include <stdio.h>
#include <stdlib.h>
#include <string.h>
#include <sys/stat.h>
#include <time.h>
#include <unistd.h>

enum { PAGE = 4096, GATE = 0xA5, WINDOW = 64, STORE = 5, CONFIRM = 8, STORED = 5 };
enum { CELLS = 1048576, ELEMENTS = 64, SLOTS = 4096, PAGES = 8272, RECORD = 4096 };
#define NONE 0xFFFFFFFFu

struct header {
    uint64_t generation, count;
    uint32_t cells, slots;
    uint16_t elements;
};

struct cell {
    uint64_t value;
    uint32_t base, length, first, last;
    uint8_t tag, kind;
};

struct node {
    uint64_t number;
    uint32_t next;
    uint16_t element;
    bool listed;
};

struct entry {
    uint64_t value, answer;
    uint32_t address;
    uint8_t operation, reply;
};

struct window {
    uint64_t base;
    struct entry entries[WINDOW];
    uint8_t kept;
};

struct command {
    uint64_t number, value;
    uint32_t address;
    uint16_t element;
    uint8_t operation;
};

// The sizes of the largest image.
static uint8_t headers[2][64], area[PAGES * PAGE], journal[SLOTS * 64];
static struct cell cells[CELLS];
static struct node nodes[WINDOW * ELEMENTS];
static struct window windows[ELEMENTS];
static struct command commands[SLOTS];

static uint16_t two(const uint8_t *p) { uint16_t n; memcpy(&n, p, sizeof n); return n; }
static uint32_t four(const uint8_t *p) { uint32_t n; memcpy(&n, p, sizeof n); return n; }
static uint64_t eight(const uint8_t *p) { uint64_t n; memcpy(&n, p, sizeof n); return n; }

static bool read_header(const uint8_t *p, struct header *h) {
    *h = (struct header){eight(p + 8), eight(p + 16), four(p + 24), four(p + 32), two(p + 28)};
    return p[0] == GATE && two(p + 2) == 2 && memcmp(p + 4, "IMEM", 4) == 0 && two(p + 30) == 0;
}

static bool read_cell(const uint8_t *p, uint32_t cells, struct cell *c) {
    *c = (struct cell){eight(p + 24), four(p + 4), four(p + 8), four(p + 12), four(p + 16), p[0], p[1]};
    if (two(p + 2) != 0 || four(p + 20) != 0)
        return false;
    bool alone = c->first == NONE && c->last == NONE;
    if (c->tag == 0)
        return c->kind == 0 && c->base <= cells && (c->length == NONE || c->length < cells) && alone && c->value == 0;
    return c->tag <= 4 && (c->kind == 1 || c->kind == 2) && (c->tag == 2 || alone) && (c->tag > 2 || c->value == 0);
}

// Whether a cell is the first of its block, or continues the block of the cell before it.
static bool goes_on(uint32_t a) {
    const struct cell *c = &cells[a];
    if (c->tag == 0)
        return true;
    return a - c->base < c->length && (c->base == a || (a > 0 && cells[a - 1].base == c->base && cells[a - 1].length == c->length));
}

static bool read_node(const uint8_t *p, uint32_t nodes, struct node *n) {
    uint16_t mark = two(p + 6);
    *n = (struct node){eight(p + 8), four(p), two(p + 4), mark == 1};
    if (n->next != NONE && n->next >= nodes)
        return false;
    return mark == 1 || (mark == 0 && n->element == 0 && n->number == 0);
}

static bool read_entry(const uint8_t *p, struct entry *e) {
    *e = (struct entry){eight(p + 8), eight(p + 16), four(p + 4), p[0], p[2]};
    return p[1] == 0 && p[3] == 0 && eight(p + 24) == 0 && e->operation <= 9 && e->operation != CONFIRM && e->reply <= 12;
}

static bool read_window(const uint8_t *p, struct window *w) {
    w->base = eight(p);
    w->kept = p[8];
    for (int i = 0; i < WINDOW; i++)
        if (!read_entry(p + 32 + 32 * i, &w->entries[i]))
            return false;
    return w->base >= 1 && w->kept <= WINDOW;
}

static bool read_slot(const uint8_t *p, uint64_t sequence, struct command *c) {
    *c = (struct command){eight(p + 16), eight(p + 32), four(p + 24), two(p + 4), p[2]};
    return p[0] == GATE && p[1] == 1 && p[3] == 0 && two(p + 6) == 0 && eight(p + 8) == sequence && four(p + 28) == 0
        && eight(p + 40) == 0 && eight(p + 48) == 0 && eight(p + 56) == 0 && c->operation >= 1 && c->operation <= 9;
}

static void fail(const char *what) {
    fprintf(stderr, "read_image: %s\n", what);
    exit(1);
}

static void read_bytes(int file, uint8_t *bytes, size_t most, off_t at, size_t length) {
    if (length > most || pread(file, bytes, length, at) != (ssize_t)length)
        fail("the file is too short, or too long");
}

static const char *const OPERATIONS[] = {"", "alloc i", "alloc m", "release", "fetch", "store", "take", "put", "confirm", "reset"};
static const char *const REPLIES[] = {"waiting", "base", "nospace", "badlength", "value", "stored",
                                      "clash", "nocell", "wrongkind", "released", "noblock", "stillwaiting", "cleared"};

static void print_cell(uint32_t a, const struct cell *c, const struct node *nodes) {
    if (c->tag == 3 || c->tag == 4)
        printf("cell %u %s %llu\n", a, c->tag == 3 ? "full" : "clashed", (unsigned long long)c->value);
    if (c->tag != 2)
        return;
    printf("cell %u waiting", a);
    for (uint32_t n = c->first; n != NONE; n = nodes[n].next)
        printf(" %u.%llu", nodes[n].element, (unsigned long long)nodes[n].number);
    printf("\n");
}

static void print_entry(uint32_t element, uint64_t number, const struct entry *e) {
    printf("entry %u.%llu %s %u", element, (unsigned long long)number, OPERATIONS[e->operation], e->address);
    if (e->operation == 5 || e->operation == 7)
        printf(" %llu", (unsigned long long)e->value);
    printf(" -> %s", REPLIES[e->reply]);
    if (e->reply == 1 || e->reply == 4)
        printf(" %llu", (unsigned long long)e->answer);
    printf("\n");
}

static void print_report(const struct header *h) {
    for (uint32_t a = 0; a < h->cells; a++)
        if (cells[a].kind != 0 && cells[a].base == a)
            printf("block %u %c %u\n", a, cells[a].kind == 1 ? 'i' : 'm', cells[a].length);
    for (uint32_t a = 0; a < h->cells; a++)
        print_cell(a, &cells[a], nodes);
    for (uint32_t e = 0; e < h->elements; e++) {
        const struct window *w = &windows[e];
        printf("element %u base %llu kept %u\n", e, (unsigned long long)w->base, w->kept);
        for (uint64_t number = w->base; number < w->base + w->kept; number++)
            print_entry(e, number, &w->entries[number % WINDOW]);
    }
}

// Reads the header in force and the records of its area. Returns how many commands follow it.
static uint32_t read_parts(int file, struct header *h) {
    read_bytes(file, headers[0], 64, 0, 64);
    read_bytes(file, headers[1], 64, PAGE, 64);
    bool second = headers[1][0] == GATE && (headers[0][0] != GATE || eight(headers[0] + 8) < eight(headers[1] + 8));
    if (!read_header(headers[second], h) || h->cells > CELLS || h->elements > ELEMENTS || h->slots > SLOTS)
        fail("bad header");
    size_t cell_pages = (h->cells + 127) / 128, node_pages = (h->elements + 3) / 4, window_pages = h->elements;
    size_t pages = cell_pages + node_pages + window_pages;
    read_bytes(file, area, sizeof area, 2 * PAGE + second * pages * PAGE, pages * PAGE);
    read_bytes(file, journal, sizeof journal, 2 * PAGE + 2 * pages * PAGE, 64 * (size_t)h->slots);
    for (uint32_t a = 0; a < h->cells; a++)
        if (!read_cell(area + 32 * (size_t)a, h->cells, &cells[a]) || !goes_on(a))
            fail("bad cell");
    for (uint32_t n = 0; n < WINDOW * h->elements; n++)
        if (!read_node(area + cell_pages * PAGE + 16 * (size_t)n, WINDOW * h->elements, &nodes[n]))
            fail("bad node");
    for (uint32_t e = 0; e < h->elements; e++)
        if (!read_window(area + (cell_pages + node_pages) * PAGE + RECORD * (size_t)e, &windows[e]))
            fail("bad window");
    uint32_t run = 0;
    while (run < h->slots && read_slot(journal + 64 * (size_t)((h->count + run) % h->slots), h->count + run, &commands[run]))
        run++;
    return run;
}

static void replay(const struct header *h, const struct command *c) {
    struct window *w = &windows[c->element % ELEMENTS];
    if (c->operation == CONFIRM && c->number > w->base && c->number <= w->base + w->kept) {
        w->kept -= (uint8_t)(c->number - w->base);
        w->base = c->number;
    } else if (c->operation == STORE && c->number == w->base + w->kept && w->kept < WINDOW && c->address < h->cells
               && cells[c->address].tag == 1) {
        cells[c->address].tag = 3;
        cells[c->address].value = c->value;
        w->entries[c->number % WINDOW] = (struct entry){c->value, 0, c->address, STORE, STORED};
        w->kept++;
    } else {
        fail("a command that is neither a store nor a confirmation, or isn't accepted");
    }
}

static long long now(void) {
    struct timespec time;
    clock_gettime(CLOCK_MONOTONIC, &time);
    return time.tv_sec * 1000000000LL + time.tv_nsec;
}

static int tell_time(int file) {
    memset(area, 1, sizeof area);
    memset(journal, 1, sizeof journal);
    memset(cells, 1, sizeof cells);
    memset(nodes, 1, sizeof nodes);
    memset(windows, 1, sizeof windows);
    memset(commands, 1, sizeof commands);
    long long start = now();
    if (fdatasync(file) != 0)
        fail("no sync");
    struct header h;
    uint32_t run = read_parts(file, &h);
    for (uint32_t i = 0; i < run; i++)
        replay(&h, &commands[i]);
    long long end = now();
    printf("%u %lld\n", run, end - start);
    return 0;
}

int main(int argc, char **argv) {
    int file = argc >= 2 ? open(argv[1], O_RDWR) : -1;
    if (file < 0)
        fail("usage: read_image IMAGE [report|time]");
    if (argc == 3 && strcmp(argv[2], "time") == 0)
        return tell_time(file);
    struct header h;
    uint32_t run = read_parts(file, &h);
    if (argc == 3) {
        print_report(&h);
        return 0;
    }
    uint64_t sum = cells[h.cells - 1].base + nodes[WINDOW * h.elements - 1].number + windows[h.elements - 1].base;
    for (uint32_t i = 0; i < run; i++)
        sum += commands[i].address;
    printf("%u cells, %u nodes, %u windows, %u commands, sum %llu\n", h.cells, WINDOW * h.elements, h.elements, run, (unsigned long long)sum);
    return 0;
}
