#include "luntrebis.h"

#include <ctype.h>
#include <inttypes.h>
#include <stdio.h>

#ifndef LT_MADE
#define LT_MADE "commit ------------, not proved"
#endif

const char *lt_version_text(void) {
    return LT_VERSION ", " LT_MADE;
}

int lt_is_error(uint8_t tag) {
    return tag == LT_NO_SPACE || tag == LT_BAD_LENGTH || tag == LT_CLASH || tag == LT_NO_CELL || tag == LT_WRONG_KIND ||
           tag == LT_NO_BLOCK || tag == LT_STILL_WAITING;
}

/* Writes a command as a line of the program's dialogue. Returns its length. */
static size_t tell_command(const struct lt_command *command, char *buffer, size_t room) {
    static const char *const words[] = {"", "alloc i", "alloc m", "release", "fetch", "store", "take", "put", "", "reset"};
    unsigned element = command->element;
    const char *word = command->tag <= LT_RESET ? words[command->tag] : "";
    if (command->tag == LT_CONFIRM)
        return (size_t)snprintf(buffer, room, "confirm %u %" PRIu64, element, command->number);
    if (!*word) return (size_t)snprintf(buffer, room, "%u.%" PRIu64 " of tag %d", element, command->number, command->tag);
    if (command->tag == LT_STORE || command->tag == LT_PUT)
        return (size_t)snprintf(buffer, room, "%u.%" PRIu64 " %s %" PRIu32 " %" PRIu64, element, command->number, word,
                                command->address, command->value);
    return (size_t)snprintf(buffer, room, "%u.%" PRIu64 " %s %" PRIu32, element, command->number, word, command->address);
}

size_t lt_tell(const struct lt_command *command, const struct lt_outcome *outcome, char *buffer, size_t room) {
    char name[16] = {0}, asked[80];
    tell_command(command, asked, sizeof asked);
    if (outcome->refusal) {
        lt_refusal_name(outcome->refusal, name, sizeof name - 1);
        return (size_t)snprintf(buffer, room, "%s: refused %d %s", asked, outcome->refusal, name);
    }
    lt_answer_name(outcome->tag, name, sizeof name - 1);
    for (char *letter = name; *letter; letter++) *letter = (char)tolower((unsigned char)*letter);
    if (outcome->tag == LT_VALUE || outcome->tag == LT_BASE)
        return (size_t)snprintf(buffer, room, "%s: %s %" PRIu64, asked, name, outcome->value);
    return (size_t)snprintf(buffer, room, "%s: %s", asked, name);
}

/* ---- The calls that only read
 *
 * Each hands the handle to a proved call, which hands it out again as it was, in the same block. So the caller's handle,
 * which isn't written, still holds it. */

void lt_held_memory_collect(struct lt_memory memory, uint16_t element, uint64_t number, struct lt_memory *next,
                            struct lt_outcome *outcome);
void lt_held_memory_cell(struct lt_memory memory, uint32_t address, struct lt_memory *next, struct lt_presence *cell);
size_t lt_held_steps(struct lt_image image, struct lt_image *next);
void lt_held_step_at(struct lt_image image, size_t index, struct lt_image *next, struct lt_step *step);
uint8_t lt_held_step_bytes(struct lt_image image, size_t index, struct lt_image *next, uint8_t *buffer, size_t length);
void lt_held_collect(struct lt_image image, uint16_t element, uint64_t number, struct lt_image *next,
                     struct lt_outcome *outcome);
void lt_held_entry(struct lt_image image, uint16_t element, uint64_t number, struct lt_image *next,
                   struct lt_command *asked);
size_t lt_held_waiters(struct lt_image image, uint32_t address, struct lt_image *next, struct lt_waiter *waiters,
                       size_t room);
size_t lt_held_cells(struct lt_image image, uint32_t from, struct lt_image *next, struct lt_presence *cells, size_t room);
void lt_held_stat(struct lt_image image, struct lt_image *next, struct lt_figures *figures);
void lt_held_asked(struct lt_image image, size_t index, struct lt_image *next, struct lt_asked *asked);
void lt_held_window(struct lt_image image, uint16_t element, struct lt_image *next, struct lt_bounds *window);
uint32_t lt_held_room(struct lt_image image, struct lt_image *next);
uint64_t lt_held_count(struct lt_image image, struct lt_image *next);

uint8_t lt_memory_collect(const struct lt_memory *memory, uint16_t element, uint64_t number, struct lt_outcome *outcome) {
    struct lt_memory same = {0};
    lt_held_memory_collect(*memory, element, number, &same, outcome);
    return outcome->refusal;
}

struct lt_presence lt_memory_cell(const struct lt_memory *memory, uint32_t address) {
    struct lt_memory same = {0};
    struct lt_presence cell = {0, 0, 0, 0, 0};
    lt_held_memory_cell(*memory, address, &same, &cell);
    return cell;
}

size_t lt_steps(const struct lt_image *image) {
    struct lt_image same = {0};
    return lt_held_steps(*image, &same);
}

struct lt_step lt_step_at(const struct lt_image *image, size_t index) {
    struct lt_image same = {0};
    struct lt_step step = {0, 0, 0};
    lt_held_step_at(*image, index, &same, &step);
    return step;
}

uint8_t lt_step_bytes(const struct lt_image *image, size_t index, uint8_t *buffer, size_t length) {
    struct lt_image same = {0};
    return lt_held_step_bytes(*image, index, &same, buffer, length);
}

uint8_t lt_collect(const struct lt_image *image, uint16_t element, uint64_t number, struct lt_outcome *outcome) {
    struct lt_image same = {0};
    lt_held_collect(*image, element, number, &same, outcome);
    return outcome->refusal;
}

struct lt_command lt_entry(const struct lt_image *image, uint16_t element, uint64_t number) {
    struct lt_image same = {0};
    struct lt_command asked = {0, 0, 0, 0, 0};
    lt_held_entry(*image, element, number, &same, &asked);
    return asked;
}

struct lt_asked lt_front_asked(const struct lt_image *image, size_t index) {
    struct lt_image same = {0};
    struct lt_asked asked = {0, {0, 0, 0, 0, 0}, 0};
    lt_held_asked(*image, index, &same, &asked);
    return asked;
}

size_t lt_waiters(const struct lt_image *image, uint32_t address, struct lt_waiter *waiters, size_t room) {
    struct lt_image same = {0};
    return lt_held_waiters(*image, address, &same, waiters, room);
}

struct lt_presence lt_cell(const struct lt_image *image, uint32_t address) {
    struct lt_presence cell = {0, 0, 0, 0, 0};
    lt_cells(image, address, &cell, 1);
    return cell;
}

size_t lt_cells(const struct lt_image *image, uint32_t from, struct lt_presence *cells, size_t room) {
    struct lt_image same = {0};
    return lt_held_cells(*image, from, &same, cells, room);
}

struct lt_figures lt_stat(const struct lt_image *image) {
    struct lt_image same = {0};
    struct lt_figures figures = {0, 0, 0, 0, 0, 0, 0, 0, 0};
    lt_held_stat(*image, &same, &figures);
    return figures;
}

/* Whether an element keeps all entries that it may, and the oldest waits. */
static int is_stuck(const struct lt_image *image, uint16_t element, const struct lt_bounds *window) {
    struct lt_outcome oldest = {0, 0, 0};
    if (window->next - window->base < 64) return 0;
    return lt_collect(image, element, window->base, &oldest) == 0 && oldest.tag == LT_WAITING;
}

size_t lt_stuck(const struct lt_image *image, struct lt_waiter *stuck, size_t room) {
    struct lt_bounds window = {0, 0, 0};
    size_t count = 0;
    for (uint16_t element = 0; count < room && lt_window(image, element, &window) == 0; element++)
        if (is_stuck(image, element, &window)) stuck[count++] = (struct lt_waiter){element, window.base};
    return count;
}

uint8_t lt_window(const struct lt_image *image, uint16_t element, struct lt_bounds *window) {
    struct lt_image same = {0};
    lt_held_window(*image, element, &same, window);
    return window->refusal;
}

uint32_t lt_room(const struct lt_image *image) {
    struct lt_image same = {0};
    return lt_held_room(*image, &same);
}

uint64_t lt_count(const struct lt_image *image) {
    struct lt_image same = {0};
    return lt_held_count(*image, &same);
}
