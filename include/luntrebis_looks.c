/* What is kept in an image that threads share, by lts_look. */
#include "luntrebis_shared.h"

enum sort { CELLS, STAT, STUCK, WAITERS, ENTRY, OUTCOME, WINDOW, ROOM, COUNT, BACKUP };

/* What a call here looks for, and what it sees. */
struct sight {
    enum sort sort;
    uint32_t address;
    uint16_t element;
    uint64_t number, count;
    const char *path;
    void *places;
    size_t room;
    struct lt_figures figures;
    struct lt_command entry;
    struct lt_outcome outcome;
    struct lt_bounds window;
    int answer;
};

static void see(const struct ltf *file, void *given) {
    struct sight *it = given;
    switch (it->sort) {
    case CELLS: it->count = ltf_cells(file, it->address, it->places, it->room); break;
    case STAT: it->figures = ltf_stat(file); break;
    case STUCK: it->count = ltf_stuck(file, it->places, it->room); break;
    case WAITERS: it->count = ltf_waiters(file, it->address, it->places, it->room); break;
    case ENTRY: it->entry = ltf_entry(file, it->element, it->number); break;
    case OUTCOME: ltf_collect(file, it->element, it->number, &it->outcome); break;
    case WINDOW: it->window = ltf_window(file, it->element); break;
    case ROOM: it->count = ltf_room(file); break;
    case COUNT: it->count = ltf_count(file); break;
    case BACKUP: it->answer = ltf_backup(file, it->path); break;
    }
}

static struct sight seen(struct lts *shared, struct sight it) {
    int refusal = lts_look(shared, see, &it);
    if (refusal) it.outcome = (struct lt_outcome){(uint8_t)refusal, 0, 0};
    if (refusal) it.window = (struct lt_bounds){(uint8_t)refusal, 0, 0};
    if (refusal) it.answer = refusal;
    return it;
}

size_t lts_cells(struct lts *shared, uint32_t from, struct lt_presence *cells, size_t room) {
    return seen(shared, (struct sight){.sort = CELLS, .address = from, .places = cells, .room = room}).count;
}

struct lt_presence lts_cell(struct lts *shared, uint32_t address) {
    struct lt_presence cell = {0, 0, 0, 0, 0};
    lts_cells(shared, address, &cell, 1);
    return cell;
}

struct lt_figures lts_stat(struct lts *shared) {
    return seen(shared, (struct sight){.sort = STAT}).figures;
}

size_t lts_stuck(struct lts *shared, struct lt_waiter *stuck, size_t room) {
    return seen(shared, (struct sight){.sort = STUCK, .places = stuck, .room = room}).count;
}

size_t lts_waiters(struct lts *shared, uint32_t address, struct lt_waiter *waiters, size_t room) {
    return seen(shared, (struct sight){.sort = WAITERS, .address = address, .places = waiters, .room = room}).count;
}

struct lt_command lts_entry(struct lts *shared, uint16_t element, uint64_t number) {
    return seen(shared, (struct sight){.sort = ENTRY, .element = element, .number = number}).entry;
}

struct lt_outcome lts_collect(struct lts *shared, uint16_t element, uint64_t number) {
    return seen(shared, (struct sight){.sort = OUTCOME, .element = element, .number = number}).outcome;
}

struct lt_bounds lts_window(struct lts *shared, uint16_t element) {
    return seen(shared, (struct sight){.sort = WINDOW, .element = element}).window;
}

uint32_t lts_room(struct lts *shared) {
    return (uint32_t)seen(shared, (struct sight){.sort = ROOM}).count;
}

uint64_t lts_count(struct lts *shared) {
    return seen(shared, (struct sight){.sort = COUNT}).count;
}

int lts_backup(struct lts *shared, const char *path) {
    return seen(shared, (struct sight){.sort = BACKUP, .path = path}).answer;
}
