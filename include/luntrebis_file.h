/* Luntrebis for C, with its file: an image that is opened by its path. Each call returns once its steps are carried
 * out. Most programs use this header; luntrebis.h is for programs that do their own writing.
 *
 * Make one call at a time on each handle, from any thread. After fork, the child makes no call on it.
 *
 * A call that returns int returns 0, a number of enum lt_refusal, or the negative of an errno value. After a step that
 * couldn't be carried out, each call returns LT_DEVICE, and ltf_failure says why. Then close the file and open it
 * again. */
#ifndef LUNTREBIS_FILE_H
#define LUNTREBIS_FILE_H

#include "luntrebis.h"

#ifdef __cplusplus
extern "C" {
#endif

/* An image in its file. */
struct ltf;

/* The file has a note beside it (PATH.unsynced): a sync of the file failed since this machine was started. Mount its
 * file system anew and remove the note, or restart the machine. */
#define LTF_UNSYNCED 300

/* Makes an image of 1 to 1,048,576 cells, 1 to 64 elements and 16 to 4,096 slots at a path where nothing exists, and
 * opens it. The image is formed as PATH.new, and gets its name once it is whole. A PATH.new that a stopped run left is
 * removed if its lock is free. Returns -EEXIST if something has the name, and -EWOULDBLOCK if another run forms it. */
int ltf_create(const char *path, uint32_t cells, uint16_t elements, uint32_t slots, struct ltf **made);

/* Opens the image of an existing file, under the file's lock. Returns -EWOULDBLOCK if another program has the lock,
 * LTF_UNSYNCED, a refusal of lt_open, or an error of the system. A file that is no image is left as it is. */
int ltf_open(const char *path, struct ltf **made);

/* Opens the image of an existing file, or makes it if nothing has the name. */
int ltf_open_or_create(const char *path, uint32_t cells, uint16_t elements, uint32_t slots, struct ltf **made);

/* Serves one command. Returns its refusal, and writes its outcome at `outcome` once the outcome is on the disk. Before
 * the command it keeps at least half of the journal empty, with a bounded amount of work in each call. So it returns
 * LT_JOURNAL_FULL only if no checkpoint makes room. */
int ltf_serve(struct ltf *file, const struct lt_command *command, struct lt_outcome *outcome);

/* Serves any commands, in their order, with the outcomes that ltf_serve would give for one after another. Up to 16
 * neighbours are a group: requests, of one element or of several, and confirmations. The groups are a chain, in which
 * each shares a sync with the next: n groups need n + 1 syncs. Returns 0, and writes the outcome of each command at its
 * place in `outcomes`. Returns LT_DEVICE if a step failed: then each outcome may be
 * untrue. Returns LT_NO_MEMORY for more than 16 commands if there is no memory for them: then none was served. */
int ltf_serve_all(struct ltf *file, const struct lt_command *commands, size_t count, struct lt_outcome *outcomes);

/* Serves the first of these commands with two syncs, as ltf_serve_all does: at least one if there is any, and at most 16.
 * Their number is at `served`; the others are untouched, and are put again. It is for programs to which commands keep
 * coming. Returns 0, or LT_DEVICE if a step failed: then each of all outcomes is LT_DEVICE. */
int ltf_serve_group(struct ltf *file, const struct lt_command *commands, size_t count, struct lt_outcome *outcomes,
                    size_t *served);

/* ---- A front: what is asked, in its order, and goes out as a chain of groups
 *
 * As lt_front_submit, lt_front_next and lt_front_advance. What is asked acts in its turn; the other calls that serve act
 * before it, but for ltf_serve_all, which returns LT_NO_CALL while anything is asked. ltf_close forgets it. */
int ltf_front_submit(struct ltf *file, uint64_t ticket, const struct lt_command *command);
int ltf_front_next(struct ltf *file, uint64_t ticket, struct lt_command *command, uint64_t most);

/* Writes those that acted at `told`, which has 16 places, and their number at `count`. If anything is asked, then some are
 * told, or are ahead. It keeps at least half of the journal empty, and makes room if there is none. Returns 0, or
 * LT_DEVICE if a step failed: then nobody is told. */
int ltf_front_advance(struct ltf *file, struct lt_told *told, size_t *count);

/* Returns the requests that the last ltf_serve, ltf_serve_group, ltf_serve_all or ltf_front_advance resumed: they
 * waited before, and are answered now. Those of one cell are in the order in which they came. Their number is at
 * `count`. They stay there until the next of these calls. */
const struct lt_waiter *ltf_woken(const struct ltf *file, size_t *count);

/* Makes a sweep, or a turn of a checkpoint, if less than half of the journal is free. Returns 1, or 0 if there is
 * nothing to do. It is for a program that is idle; each call that serves does the same work. */
int ltf_tidy(struct ltf *file);

/* Writes the entry that is kept under an element's number at `outcome`, and returns its refusal, as lt_collect does. */
int ltf_collect(const struct ltf *file, uint16_t element, uint64_t number, struct lt_outcome *outcome);

/* Returns the request that is kept under an element's number. Its tag is 0 if there is none. */
struct lt_command ltf_entry(const struct ltf *file, uint16_t element, uint64_t number);

/* Writes the requests that wait at a cell at `waiters`, as lt_waiters does. */
size_t ltf_waiters(const struct ltf *file, uint32_t address, struct lt_waiter *waiters, size_t room);

struct lt_bounds ltf_window(const struct ltf *file, uint16_t element);

/* Show cells with their blocks, the numbers of the image, and who is stuck, as the calls of luntrebis.h. They make no
 * request, and show what is on the disk: what is ahead hasn't acted. */
struct lt_presence ltf_cell(const struct ltf *file, uint32_t address);
size_t ltf_cells(const struct ltf *file, uint32_t from, struct lt_presence *cells, size_t room);
struct lt_figures ltf_stat(const struct ltf *file);
size_t ltf_stuck(const struct ltf *file, struct lt_waiter *stuck, size_t room);

/* Return how many more commands there is room for, how many were accepted since the image was made, and its sizes. */
uint32_t ltf_room(const struct ltf *file);
uint64_t ltf_count(const struct ltf *file);
struct lt_sizes ltf_limits(const struct ltf *file);

/* Copies the image to a path where nothing exists, with all that was served, and returns once the copy is on the disk.
 * The copy is formed as PATH.new, is seen to open as an image, and gets its name once it is whole. What is ahead isn't
 * in it. Returns -EEXIST if something has the name, LT_DEVICE after a lost step, or why there is no copy. */
int ltf_backup(const struct ltf *file, const char *path);

/* The work that was done since the file was opened. */
struct ltf_counts {
    uint64_t groups;  /* of commands that shared their syncs, or one command alone */
    uint64_t syncs, writes, sweeps, turns;
};
struct ltf_counts ltf_work(const struct ltf *file);

/* Why a step failed: an errno value, or 0 if none failed. `sync` says whether the step was a sync, and `noted` whether
 * the note is left. */
struct ltf_fault {
    int error, sync, noted;
};
struct ltf_fault ltf_failure(const struct ltf *file);

/* Writes a sentence that says what a returned number means, as far as there is room, with a zero at its end. Returns
 * the length of the whole sentence. */
size_t ltf_say(int answer, char *buffer, size_t room);

void ltf_close(struct ltf *file);

#ifdef __cplusplus
}
#endif
#endif
