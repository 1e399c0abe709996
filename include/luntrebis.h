/* Luntrebis for C: a memory of I- and M-structures. It has no disk, or is kept in an image file that the caller reads
 * and writes.
 *
 * docs/EMBEDDING.md describes the life of a handle, threads, and what each call promises.
 *
 * Every pointer points to what its type says, aligned. With a count, a length, a room or places after it, it points to
 * that many. During a call no other pointer overlaps it. What it points to is initialized; this holds for `next`,
 * outcomes and buffers too. No pointer is null, not even if the length is 0. A handle of zero bytes holds nothing. No
 * call aborts, and none keeps a pointer.
 *
 * A call that changes what a handle holds takes the handle by value and hands it out at `next`. `next` may be the place
 * that the handle came from. A handle that was handed over must not be handed over again, so write
 *     lt_memory_step(m, &command, &m, &outcome);
 * A handle that is overwritten is lost, and so is its memory. A call that only reads takes a pointer to the handle and
 * changes nothing. Several such calls may be in one expression.
 *
 * A call that may be refused returns the number of the refusal, or 0 if it isn't refused. It writes its other results
 * where its pointers say. A call that is never refused returns its result.
 */
#ifndef LUNTREBIS_H
#define LUNTREBIS_H

#include <stddef.h>
#include <stdint.h>

#ifdef __cplusplus
extern "C" {
#endif

/* The version of this header, and of the library that it belongs to. */
#define LT_VERSION "0.1.0"
#define LT_VERSION_NUMBER 100

/* The version of the library: 10,000 for each major version, 100 for each minor one, 1 for each patch. */
uint32_t lt_version(void);

/* What the library says of its own making, such as "0.1.0, commit 3f2a91c07d1b, all proved". A library that was built
 * with no proof says "not proved" at the end. */
const char *lt_version_text(void);

/* The version of the layout in which images are made and opened. */
uint16_t lt_layout_version(void);

/* What a command asks for, by `tag`. */
enum lt_tag {
    LT_ALLOC_I = 1, /* a block of `address` cells, to be fetched and stored */
    LT_ALLOC_M = 2, /* a block of `address` cells, to be taken and put */
    LT_RELEASE = 3, /* the block with the base `address` is given back */
    LT_FETCH = 4,
    LT_STORE = 5,
    LT_TAKE = 6,
    LT_PUT = 7,
    LT_CONFIRM = 8, /* the entries below `number` may be forgotten */
    LT_RESET = 9    /* the cells of the block with the base `address` are emptied */
};

/* The outcome of a command, by `tag`. */
enum lt_answer {
    LT_WAITING = 0, /* deferred: its answer is collected later */
    LT_BASE = 1,    /* the base of the new block, in `value` */
    LT_NO_SPACE = 2,
    LT_BAD_LENGTH = 3,
    LT_VALUE = 4, /* what was read, in `value` */
    LT_STORED = 5,
    LT_CLASH = 6,
    LT_NO_CELL = 7,
    LT_WRONG_KIND = 8,
    LT_RELEASED = 9,
    LT_NO_BLOCK = 10,
    LT_STILL_WAITING = 11,
    LT_CLEARED = 12,
    LT_CONFIRMED = 128
};

/* Whether an answer says that the program asked for something impossible: LT_NO_SPACE, LT_BAD_LENGTH, LT_CLASH,
 * LT_NO_CELL, LT_WRONG_KIND, LT_NO_BLOCK or LT_STILL_WAITING. Such a request is answered, and confirmed as any other. */
int lt_is_error(uint8_t tag);

/* Why a call is refused. 0 means that it isn't. The other numbers up to 24 are refusals of the program imem. No call
 * here returns them, but lt_refusal_name names them, too. */
enum lt_refusal {
    LT_OK = 0,
    LT_GAP = 1,           /* a number beyond the next one */
    LT_FORGOTTEN = 2,     /* a number below the window */
    LT_WINDOW_FULL = 3,   /* 64 entries are kept: confirm some */
    LT_MISMATCH = 4,      /* a number that was used, for another request */
    LT_NO_ELEMENT = 5,
    LT_NOT_ANSWERED = 6,  /* a confirmation of an entry that waits */
    LT_JOURNAL_FULL = 7,  /* the journal has no room: turns make some */
    LT_DEVICE = 8,        /* the steps couldn't be listed, or the caller lost one. Open the image again; if a sync
                           * failed, not before its file system is mounted anew or the machine is restarted */
    LT_FAILED = 9,        /* an earlier call failed; no call here returns it, because LT_DEVICE is returned again */
    LT_NO_MEMORY = 10,    /* of lt_memory_new, lt_format, lt_open and lt_inspect */
    LT_WRONG_LENGTH = 12, /* of lt_open and lt_inspect, as the next four: the image's first fault */
    LT_NO_HEADER = 13,    /* never finished, or damaged; this is no reason to call lt_format on an existing file */
    LT_BAD_HEADER = 14,
    LT_BAD_PAGE = 15,
    LT_BAD_RECORD = 16,
    LT_BAD_LIMITS = 17,   /* of lt_memory_new and lt_format */
    LT_OLD_VERSION = 21,  /* of lt_open: an image of the first layout; `imem migrate` makes one of this layout */
    LT_UNSERVED = 254,    /* of a member of lt_serve_group: it isn't served, and changed nothing; put it again. Of
                           * lt_front_submit and lt_front_next: it isn't asked; ask again after lt_front_advance */
    LT_NO_CALL = 255      /* an unknown tag, no such write, or no group */
};

/* A request of an element, under a number of its own: 1, 2, 3 and so on. Or a confirmation. */
struct lt_command {
    uint8_t tag;
    uint16_t element;
    uint32_t address;
    uint64_t number;
    uint64_t value;
};

/* If `refusal` isn't 0, the rest is 0. */
struct lt_outcome {
    uint8_t refusal;
    uint8_t tag;
    uint64_t value;
};

/* What a cell holds, by `state`. */
enum lt_state {
    LT_NOWHERE = 0, /* the address lies in no block */
    LT_EMPTY = 1,
    LT_AWAITED = 2, /* requests wait for it */
    LT_FULL = 3,    /* it has `value` */
    LT_CLASHED = 4  /* it had `value` when it was written once more */
};

/* A cell, and the block that it lies in. If it lies in none, all is 0. */
struct lt_presence {
    uint8_t kind;    /* LT_ALLOC_I or LT_ALLOC_M, by which the block was made */
    uint8_t state;
    uint32_t base;   /* the address of the block's first cell */
    uint32_t length; /* the number of its cells */
    uint64_t value;
};

/* A handle of a memory. Zero bytes hold nothing. */
struct lt_memory {
    void *block;
};

/* Makes a memory of 1 to 1,048,576 cells and 1 to 64 elements. Returns 0, and `next` holds the memory; else returns the
 * refusal, and `next` is as it was. */
uint8_t lt_memory_new(uint32_t cells, uint16_t elements, struct lt_memory *next);

/* Serves one command. Returns its refusal, and writes its outcome at `outcome`. This call and the next three take a
 * handle that holds a memory. */
uint8_t lt_memory_step(struct lt_memory memory, const struct lt_command *command, struct lt_memory *next,
                       struct lt_outcome *outcome);

/* Writes the entry that is kept under an element's number at `outcome`, or its refusal: LT_NO_ELEMENT, LT_FORGOTTEN or
 * LT_GAP. Returns the refusal. */
uint8_t lt_memory_collect(const struct lt_memory *memory, uint16_t element, uint64_t number, struct lt_outcome *outcome);

/* Returns the cell at an address. */
struct lt_presence lt_memory_cell(const struct lt_memory *memory, uint32_t address);

/* Frees the memory. */
void lt_memory_free(struct lt_memory memory);

/* ---- An image
 *
 * The caller reads the file, hands its bytes to lt_open, and does all writing. Each of lt_format, lt_open, lt_serve,
 * lt_serve_group, lt_front_advance, lt_turn and lt_sweep leaves a list of steps (lt_steps, lt_step_at, lt_step_bytes). The
 * caller carries out all of these steps on its file, in their order. It does so before it passes on any result of a call here, and
 * before the next such call, which begins a new list. If the caller can't carry out a step, it calls lt_failed, and
 * opens the file again. If there is a crash before all steps are carried out, the file means the memory before the call
 * or after it.
 *
 * After a failed sync the system may show bytes that aren't on the disk, and the next sync succeeds. So the file must
 * not be opened again before its file system is mounted anew or the machine is restarted. The caller opens the file
 * under a descriptor above 2: if the program was started with one of the first three closed, it would print into the
 * image. A lock (flock) keeps the file for the caller alone. Forked children and duplicates of the descriptor keep the
 * lock, too. */

/* A handle of an image. Zero bytes hold nothing. */
struct lt_image {
    void *block;
};

/* The window of an element: its entries are kept from `base` on, and `next` is the number of its next new request. If
 * `refusal` isn't 0, the rest is 0. */
struct lt_bounds {
    uint8_t refusal;
    uint64_t base;
    uint64_t next;
};

/* What lt_front_advance did. If `refusal` isn't 0, nothing is ahead. */
struct lt_advanced {
    uint8_t refusal;
    uint8_t ahead;    /* how many of those that are asked are ahead now */
    uint8_t answered; /* how many are told */
};

/* A command that was asked, by its ticket, and its outcome. */
struct lt_told {
    uint64_t ticket;
    struct lt_outcome outcome;
};

/* Where a command stands that is asked, by `state`. */
enum lt_asked_state {
    LT_NONE_ASKED = 0, /* there is none */
    LT_ASKED = 1,
    LT_AHEAD = 2 /* it acts with the next lt_front_advance */
};

struct lt_asked {
    uint64_t ticket;
    struct lt_command command;
    uint8_t state;
};

/* The sizes of an image. */
struct lt_sizes {
    uint32_t cells;
    uint16_t elements;
    uint32_t slots;
};

/* A request that waits. */
struct lt_waiter {
    uint16_t element;
    uint64_t number;
};

/* The numbers of an image. */
struct lt_figures {
    uint64_t blocks;
    uint64_t empty, awaited, full, clashed; /* cells of blocks, by their state */
    uint64_t kept;                          /* entries */
    uint64_t waiting;                       /* those of them that aren't answered */
    uint64_t full_windows;                  /* elements that keep 64 entries */
    uint64_t stuck;                         /* those of them whose oldest entry waits: lt_stuck says which */
};

/* What a step does on the file, by `kind`. */
enum lt_kind {
    LT_NO_STEP = 0, /* there is no such step */
    LT_WRITE = 1,   /* `length` bytes from the offset `place` on */
    LT_SYNC = 2     /* all that was written is put on the disk, as by fsync, before any later step */
};

struct lt_step {
    uint8_t kind;
    uint64_t place;
    uint64_t length;
};

/* What a turn of a checkpoint or a sweep did, by `tag` of its outcome. */
enum lt_turn_tag {
    LT_IDLE = 0,
    LT_BEGAN = 1,
    LT_PAGE = 2, /* the page with the number `value` was written */
    LT_SYNCED = 3,
    LT_IN_FORCE = 4,
    LT_SWEPT = 5
};

/* Returns the length of an image of 1 to 1,048,576 cells, 1 to 64 elements and 16 to 4,096 journal slots, or 0 if a
 * number is out of its range. */
uint64_t lt_image_length(uint32_t cells, uint16_t elements, uint32_t slots);

/* Reads the sizes of an image from its header in force. `bytes` are all bytes of its file. Returns 0, and the sizes are
 * at `limits`; else returns the refusal, and nothing is changed. The call works on a copy of the bytes, which is freed
 * before it returns. */
uint8_t lt_limits(const uint8_t *bytes, size_t length, struct lt_sizes *limits);

/* Makes the image of an empty memory. Returns 0, and `next` holds the image; else returns the refusal, and `next` is as
 * it was. The caller's file has the length of lt_image_length. It may hold any bytes, which are lost, so the caller
 * makes it just before, exclusively (O_EXCL). */
uint8_t lt_format(uint32_t cells, uint16_t elements, uint32_t slots, struct lt_image *next);

/* Opens an image. `bytes` are all bytes of its file, and are copied. Returns 0, and `next` holds the image; else
 * returns the refusal, and `next` is as it was. */
uint8_t lt_open(const uint8_t *bytes, size_t length, struct lt_image *next);

/* Serves one command. Returns its refusal, and writes its outcome at `outcome`. lt_steps returns how many steps it
 * left. This call and all that follow with a handle take one that holds an image. */
uint8_t lt_serve(struct lt_image image, const struct lt_command *command, struct lt_image *next,
                 struct lt_outcome *outcome);

/* Serves 1 to 16 commands together: requests, of one element or of several, and confirmations. Each gets the outcome
 * that lt_serve would give it after those before it. All that are accepted are put on the disk together. Returns 0, and
 * writes the outcome of each command at its place in `outcomes`. lt_steps returns how many steps it left.
 *
 * The first commands are served, at least one. The call ends before a confirmation if it isn't known, before the
 * commands ahead of it act, whether each entry that it would drop is answered. The outcome of each command from there
 * on is LT_UNSERVED: put them again. A program that confirms only what it was told never gets it. The outcome of each
 * command that would be served is LT_DEVICE if the steps couldn't be listed.
 *
 * It returns LT_DEVICE after a lost step, and LT_NO_CALL if a tag is unknown, `count` isn't 1 to 16, or `places` isn't
 * `count`. Then the outcomes are as they were. */
uint8_t lt_serve_group(struct lt_image image, const struct lt_command *commands, size_t count, struct lt_image *next,
                       struct lt_outcome *outcomes, size_t places);

/* Returns the index, from 0, of the first command with an unknown tag. Such a command keeps lt_serve_group from taking
 * them. Returns `count` if there is none. */
size_t lt_first_unknown(const struct lt_command *commands, size_t count);

/* ---- A front: what is asked of an image, in its order
 *
 * What is asked goes out in groups of at most 16, which are a chain: a group is put ahead while the one before it acts, by
 * one sync for both. So n groups need n + 1 syncs, where n calls of lt_serve_group need two each. What was asked first is
 * told first, each with its ticket, of which the library makes nothing.
 *
 * What is asked has no effect before it is told: until then a crash leaves it undone, or all of its group done. lt_serve
 * and lt_serve_group act before what is asked; if they put a command on the disk, what is ahead is put ahead again.
 * lt_turn and lt_sweep keep it. lt_close forgets what is asked. */

/* Asks for a command, behind all that is asked. Returns 0, LT_NO_CALL for an unknown tag, or LT_UNSERVED if 16 are asked
 * behind those that are ahead: ask again after lt_front_advance. It leaves no step, as the next call. */
uint8_t lt_front_submit(struct lt_image image, uint64_t ticket, const struct lt_command *command, struct lt_image *next);

/* Asks for a request under its element's next number, behind all that is asked. The number is written at `command`. If 64
 * entries are kept then, a confirmation is asked before it, with the ticket 0: up to the first entry that isn't answered
 * yet, and at most up to the number `most`. Returns 0, LT_UNSERVED as lt_front_submit, or the refusal: LT_WINDOW_FULL if
 * there is nothing to confirm, LT_NO_ELEMENT, LT_DEVICE, or LT_NO_CALL. Then nothing is asked. It is for an element of
 * which all requests come this way. The number is the next one then, unless a command asked before is told
 * LT_NOT_ANSWERED or LT_JOURNAL_FULL: behind such a one the request may be refused. */
uint8_t lt_front_next(struct lt_image image, uint64_t ticket, struct lt_command *command, uint64_t most,
                      struct lt_image *next);

/* Lets those that are ahead act, and puts the next ones ahead that are asked. Those that acted are asked no more: they are
 * told at the first places of `told`, which has 16, in their order, with the outcomes that lt_serve would give to one
 * after another. The others are as they were.
 *
 * The next ones are the first of those behind: as many as there is room for, up to a confirmation if it isn't known,
 * before those that were ahead act, whether each entry that it would drop is answered. If nothing is ahead, at least one
 * is put. If nothing is ahead and there is no room, the first that is asked is told alone: LT_JOURNAL_FULL if it
 * would change the memory, and else as before. If the steps couldn't be listed, each that is told has LT_DEVICE.
 *
 * Returns the refusal of `done`: 0, LT_DEVICE, or LT_NO_CALL if `places` isn't 16. */
uint8_t lt_front_advance(struct lt_image image, struct lt_image *next, struct lt_advanced *done, struct lt_told *told,
                         size_t places);

/* Returns what is asked, by its place from 0. Those that are ahead come first. This call only reads. */
struct lt_asked lt_front_asked(const struct lt_image *image, size_t index);

/* Makes one turn of a checkpoint. Returns its refusal, and writes what it did at `outcome`. */
uint8_t lt_turn(struct lt_image image, struct lt_image *next, struct lt_outcome *outcome);

/* Frees at most `most` slots of the journal that are to be swept: the area in force holds their commands. It needs one
 * sync for all of them, while a turn frees three slots. `outcome` is LT_SWEPT with the number of freed slots, which is
 * 0 while a checkpoint is under way. It leaves a step for each slot, and the sync. */
uint8_t lt_sweep(struct lt_image image, uint32_t most, struct lt_image *next, struct lt_outcome *outcome);

/* Says that a step couldn't be carried out. From then on each call on the image that may be refused returns LT_DEVICE
 * or LT_NO_CALL, and no call leaves a step. lt_room and lt_count return what they returned before. */
void lt_failed(struct lt_image image, struct lt_image *next);

/* Returns how many steps the last call left. This call and those that follow up to lt_count only read, and add no
 * steps. */
size_t lt_steps(const struct lt_image *image);

/* Returns the step with this index, from 0. If there is none, its kind is LT_NO_STEP and the rest is 0. */
struct lt_step lt_step_at(const struct lt_image *image, size_t index);

/* Copies the bytes of the write with this index into a buffer of just their length. Returns 0; else LT_NO_CALL, and the
 * buffer is as it was. */
uint8_t lt_step_bytes(const struct lt_image *image, size_t index, uint8_t *buffer, size_t length);

/* Writes the entry that is kept under an element's number at `outcome`, or its refusal: LT_NO_ELEMENT, LT_FORGOTTEN,
 * LT_GAP, or LT_DEVICE after a lost step. Returns the refusal. */
uint8_t lt_collect(const struct lt_image *image, uint16_t element, uint64_t number, struct lt_outcome *outcome);

/* Returns the request that is kept under an element's number. Its tag is 0 if there is none, and after a lost step. */
struct lt_command lt_entry(const struct lt_image *image, uint16_t element, uint64_t number);

/* Writes the requests that wait at a cell at `waiters`, in their order of arrival, as many as there is room for.
 * Returns how many it wrote, 0 after a lost step. A store answers all of them, a put the first. */
size_t lt_waiters(const struct lt_image *image, uint32_t address, struct lt_waiter *waiters, size_t room);

/* Returns the cell at an address, with its block. After a lost step it shows none, as the calls that follow up to
 * lt_stuck. */
struct lt_presence lt_cell(const struct lt_image *image, uint32_t address);

/* Writes the cells from an address on at `cells`, as many as there is room for. Returns how many it wrote: fewer at the
 * end of the memory. */
size_t lt_cells(const struct lt_image *image, uint32_t from, struct lt_presence *cells, size_t room);

/* Returns the numbers of the image. It looks at each cell several times. */
struct lt_figures lt_stat(const struct lt_image *image);

/* Writes the oldest entry of each element that is stuck: 64 entries are kept, and the oldest waits, so that nothing can
 * be confirmed or asked before it is answered. Writes as many as there is room for, of 64 at most. Returns how many it
 * wrote. lt_entry says for which cell each waits. */
size_t lt_stuck(const struct lt_image *image, struct lt_waiter *stuck, size_t room);

/* Writes the window of an element at `window`, or its refusal: LT_NO_ELEMENT, or LT_DEVICE after a lost step. Returns
 * the refusal. */
uint8_t lt_window(const struct lt_image *image, uint16_t element, struct lt_bounds *window);

/* Returns how many more commands there is room for. */
uint32_t lt_room(const struct lt_image *image);

/* Returns how many commands have been accepted since lt_format. */
uint64_t lt_count(const struct lt_image *image);

/* Frees the image. It leaves no steps to carry out. */
void lt_close(struct lt_image image);

/* Writes what the image in these bytes means, by its own layout, as `imem inspect` prints it. Returns 0. The text's
 * length is at `written`. The text is at the start of the buffer if there is room for it, and the rest of the buffer is
 * as it was. Else returns the refusal, and nothing is changed. */
uint8_t lt_inspect(const uint8_t *bytes, size_t length, char *buffer, size_t room, size_t *written);

/* Returns the length of the name of the refusal with this number: 1 to 24, LT_UNSERVED or LT_NO_CALL. The name is at
 * the start of the buffer if there is room for it, with no zero after it, and the rest of the buffer is as it was. The
 * name of LT_OK, and of any other number, is empty. No name has more than 11 letters. */
size_t lt_refusal_name(uint8_t refusal, char *buffer, size_t room);

/* Returns the length of the name of an answer, by its tag, in the same way. No name has more than 12 letters. */
size_t lt_answer_name(uint8_t tag, char *buffer, size_t room);

/* Writes what a command asked and how it was answered, such as "2.7 store 1 2: clash", as far as there is room, with a
 * zero at its end. Returns the length of the whole text. */
size_t lt_tell(const struct lt_command *command, const struct lt_outcome *outcome, char *buffer, size_t room);

#ifdef __cplusplus
}
#endif
#endif
