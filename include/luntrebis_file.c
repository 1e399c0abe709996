#define _GNU_SOURCE
#include "luntrebis_file.h"

#include <errno.h>
#include <fcntl.h>
#include <libgen.h>
#include <stdio.h>
#include <stdlib.h>
#include <string.h>
#include <sys/file.h>
#include <sys/stat.h>
#include <unistd.h>

enum { MEMBERS = 16, KEPT = 64, SWEPT_AT_ONCE = 1024, BOOT_NAME = 37 };

struct ltf {
    struct lt_image image;
    struct lt_sizes limits;
    struct ltf_counts work;
    struct ltf_fault failure;
    int file;
    off_t length; /* of the file, which an image keeps */
    char *note; /* the path of the note of a failed sync */
    uint8_t *bytes; /* of writes that touch */
    size_t room;
    void (*tell)(void *given, int begins); /* called before and after each sync */
    void *given;
    struct lt_waiter *woken, *waited; /* whom the last call resumed; who waited at the cells of a group before it */
    size_t woken_count, woken_room;
};

/* ---- Steps */

static int write_all(int file, const uint8_t *bytes, size_t length, off_t place) {
    while (length > 0) {
        ssize_t done = pwrite(file, bytes, length, place);
        if (done < 0 && errno == EINTR) continue;
        if (done == 0) errno = EIO;
        if (done <= 0) return -1;
        bytes += done;
        place += done;
        length -= (size_t)done;
    }
    return 0;
}

static ssize_t read_short(const char *path, char *bytes, size_t room) {
    int file = open(path, O_RDONLY | O_CLOEXEC | O_NONBLOCK);
    ssize_t length = file < 0 ? -1 : read(file, bytes, room);
    if (file >= 0) close(file);
    return length;
}

static ssize_t boot_name(char *name) {
    return read_short("/proc/sys/kernel/random/boot_id", name, 64);
}

/* Leaves the note, which contains the kernel's name of its present run. Returns whether it is left. */
static int leave_note(const char *path) {
    char name[64];
    int file, left;
    if (boot_name(name) != BOOT_NAME) return 0;
    unlink(path);
    file = open(path, O_WRONLY | O_CREAT | O_EXCL | O_CLOEXEC, 0666);
    if (file < 0) return 0;
    left = write_all(file, (const uint8_t *)name, BOOT_NAME, 0) == 0;
    close(file);
    if (!left) unlink(path);
    return left;
}

/* Whether the note keeps the file from being opened. A note of an earlier run of the machine is removed. */
static int note_stands(const char *path) {
    char was[64], is[64];
    struct stat seen;
    if (lstat(path, &seen) < 0 && errno == ENOENT) return 0;
    if (!S_ISREG(seen.st_mode)) return 1;
    if (read_short(path, was, sizeof was) != BOOT_NAME || boot_name(is) != BOOT_NAME) return 1;
    if (memcmp(was, is, BOOT_NAME) == 0) return 1;
    unlink(path);
    return 0;
}

static int lost(const struct ltf *file) {
    return file->failure.error != 0;
}

static void lose(struct ltf *file, int sync) {
    file->failure.error = errno ? errno : EIO;
    file->failure.sync = sync;
    if (sync) file->failure.noted = leave_note(file->note);
    lt_failed(file->image, &file->image);
}

/* Appends the bytes of a write to those of the writes before it. */
static int add_bytes(struct ltf *file, size_t index, size_t used, size_t length) {
    if (used + length > file->room) {
        size_t room = 2 * (used + length);
        uint8_t *more = realloc(file->bytes, room);
        if (!more) return -1;
        memset(more + file->room, 0, room - file->room);
        file->bytes = more;
        file->room = room;
    }
    return lt_step_bytes(&file->image, index, file->bytes + used, length) ? -1 : 0;
}

/* Makes the write with this index, together with the writes after it that begin where the one before ends. Returns the
 * index after them, or 0 at a fault. */
static size_t carry_out_writes(struct ltf *file, size_t index) {
    struct lt_step step = lt_step_at(&file->image, index);
    uint64_t begin = step.place, end = step.place;
    errno = ENOMEM;
    while (step.kind == LT_WRITE && step.place == end) {
        if (add_bytes(file, index, (size_t)(end - begin), (size_t)step.length) < 0) return 0;
        end += step.length;
        step = lt_step_at(&file->image, ++index);
    }
    file->work.writes++;
    return write_all(file->file, file->bytes, (size_t)(end - begin), (off_t)begin) < 0 ? 0 : index;
}

/* Whether the file has its length. One that another program cuts isn't made to grow again, with zeros in a hole: they
 * would read as free cells. */
static int has_length(const struct ltf *file) {
    struct stat seen;
    if (fstat(file->file, &seen) < 0) return 0;
    errno = EIO;
    return seen.st_size == file->length;
}

/* For luntrebis_shared.c alone. What the function asks of the file's front leaves the steps as they are. */
void ltf_tell_of_syncs(struct ltf *file, void (*tell)(void *given, int begins), void *given);
void ltf_tell_of_syncs(struct ltf *file, void (*tell)(void *given, int begins), void *given) {
    file->tell = tell;
    file->given = given;
}

static void sync_file(struct ltf *file) {
    int answer, error;
    if (file->tell) file->tell(file->given, 1);
    answer = fdatasync(file->file);
    error = errno;
    if (file->tell) file->tell(file->given, 0);
    errno = error;
    file->work.syncs++;
    if (answer < 0) lose(file, 1);
}

/* Carries out all steps of the last call, in their order. One look at the length is for all its writes. Returns 0 or
 * LT_DEVICE. */
static int carry_out(struct ltf *file) {
    size_t count = lt_steps(&file->image);
    if (count > 0 && !lost(file) && !has_length(file)) lose(file, 0);
    for (size_t index = 0; index < count && !lost(file);) {
        if (lt_step_at(&file->image, index).kind == LT_SYNC) {
            sync_file(file);
            index++;
        } else {
            index = carry_out_writes(file, index);
            if (index == 0) lose(file, 0);
        }
    }
    return lost(file) ? LT_DEVICE : 0;
}

/* ---- Commands */

/* Whether a call returned LT_DEVICE, or its steps weren't carried out. The library may have had no memory for them. */
static int is_lost(struct ltf *file, int refusal) {
    if (refusal == LT_DEVICE && !lost(file)) {
        errno = ENOMEM;
        lose(file, 0);
    }
    return carry_out(file) != 0;
}

/* Makes a sweep, or if there is nothing to sweep a turn of a checkpoint. Returns 1 if something was done, 0, or
 * LT_DEVICE. */
static int make_room(struct ltf *file) {
    struct lt_outcome outcome = {0, 0, 0};
    if (is_lost(file, lt_sweep(file->image, SWEPT_AT_ONCE, &file->image, &outcome))) return LT_DEVICE;
    if (outcome.value > 0) {
        file->work.sweeps++;
        return 1;
    }
    if (is_lost(file, lt_turn(file->image, &file->image, &outcome))) return LT_DEVICE;
    if (outcome.tag == LT_IDLE) return 0;
    file->work.turns++;
    return 1;
}

int ltf_tidy(struct ltf *file) {
    if (lost(file)) return LT_DEVICE;
    return ltf_room(file) < file->limits.slots / 2 ? make_room(file) : 0;
}

/* Makes room for one more command. Returns 1, 0 if no room can be made, or LT_DEVICE. */
static int find_room(struct ltf *file) {
    int made = 1;
    while (made == 1 && ltf_room(file) == 0) made = make_room(file);
    return made;
}

static int is_answered(const struct ltf *file, uint16_t element, uint64_t number) {
    struct lt_outcome outcome = {0, 0, 0};
    return lt_collect(&file->image, element, number, &outcome) == 0 && outcome.tag != LT_WAITING;
}

static int wakes(const struct lt_command *command) {
    return command->tag == LT_STORE || command->tag == LT_PUT;
}

/* How many of those who wait at a command's cell these commands may resume: all of them if one stores, and one for each
 * that puts; none if an earlier command has the same cell. */
static size_t most_woken(const struct ltf *file, const struct lt_command *commands, size_t count, size_t at) {
    size_t most = 0;
    if (!wakes(&commands[at])) return 0;
    for (size_t other = 0; other < count; other++) {
        if (!wakes(&commands[other]) || commands[other].address != commands[at].address) continue;
        if (other < at) return 0;
        most += commands[other].tag == LT_STORE ? (size_t)KEPT * file->limits.elements : 1;
    }
    return most;
}

/* Notes who waits at the cells where these commands store or put, and how many wait at the cell of each. */
static void note_waiters(struct ltf *file, const struct lt_command *commands, size_t count, size_t *waited) {
    size_t room = (size_t)KEPT * file->limits.elements, used = 0;
    for (size_t at = 0; at < count; at++) {
        size_t most = most_woken(file, commands, count, at);
        if (most > room - used) most = room - used;
        waited[at] = most ? lt_waiters(&file->image, commands[at].address, file->waited + used, most) : 0;
        used += waited[at];
    }
}

static int is_woken(const struct ltf *file, uint16_t element, uint64_t number) {
    for (size_t at = 0; at < file->woken_count; at++)
        if (file->woken[at].element == element && file->woken[at].number == number) return 1;
    return 0;
}

/* Notes which of those who waited are answered, up to the first who isn't: they are resumed in their order. */
static void note_woken(struct ltf *file, const struct lt_waiter *waited, size_t count) {
    for (size_t at = 0; at < count && is_answered(file, waited[at].element, waited[at].number); at++)
        file->woken[file->woken_count++] = waited[at];
}

/* Notes whom these commands resumed: those who waited before them, and then those who came to wait with them. */
static void note_all_woken(struct ltf *file, const struct lt_command *commands, size_t count,
                           const struct lt_outcome *outcomes, const size_t *waited) {
    for (size_t at = 0, used = 0; at < count; used += waited[at++]) note_woken(file, file->waited + used, waited[at]);
    for (size_t at = 0; at < count; at++) {
        struct lt_waiter came = {commands[at].element, commands[at].number};
        if (outcomes[at].refusal || outcomes[at].tag != LT_WAITING || is_woken(file, came.element, came.number)) continue;
        note_woken(file, &came, 1);
    }
}

/* Empties the list of those who are resumed, and makes room for all who may wait and for each command. Returns 0 or
 * LT_NO_MEMORY. The memory that an opening takes is enough for a group. */
static int forget_woken(struct ltf *file, size_t commands) {
    size_t room = (size_t)KEPT * file->limits.elements + (commands < MEMBERS ? MEMBERS : commands);
    file->woken_count = 0;
    if (!file->waited) file->waited = calloc(room, sizeof *file->waited);
    if (!file->waited) return LT_NO_MEMORY;
    if (room > file->woken_room) {
        struct lt_waiter *more = realloc(file->woken, room * sizeof *more);
        if (!more) return LT_NO_MEMORY;
        memset(more, 0, room * sizeof *more);
        file->woken = more;
        file->woken_room = room;
    }
    return 0;
}

const struct lt_waiter *ltf_woken(const struct ltf *file, size_t *count) {
    *count = file->woken_count;
    return file->woken;
}

static int serve_once(struct ltf *file, const struct lt_command *command, struct lt_outcome *outcome) {
    size_t waited = 0;
    *outcome = (struct lt_outcome){0, 0, 0};
    note_waiters(file, command, 1, &waited);
    file->work.groups++;
    if (is_lost(file, lt_serve(file->image, command, &file->image, outcome)))
        *outcome = (struct lt_outcome){LT_DEVICE, 0, 0};
    else
        note_all_woken(file, command, 1, outcome, &waited);
    return outcome->refusal;
}

static int serve_alone(struct ltf *file, const struct lt_command *command, struct lt_outcome *outcome) {
    int refusal;
    ltf_tidy(file);
    refusal = serve_once(file, command, outcome);
    if (refusal == LT_JOURNAL_FULL && find_room(file) != 0) refusal = serve_once(file, command, outcome);
    return refusal;
}

int ltf_serve(struct ltf *file, const struct lt_command *command, struct lt_outcome *outcome) {
    file->woken_count = 0;
    return serve_alone(file, command, outcome);
}

/* How many of the first members count as served: up to one that isn't served, or for which the journal had no room.
 * After that one no member was accepted. */
static size_t count_served(const struct lt_outcome *outcomes, size_t members) {
    size_t served = 0;
    while (served < members && outcomes[served].refusal != LT_UNSERVED && outcomes[served].refusal != LT_JOURNAL_FULL)
        served++;
    return served;
}

/* Serves commands together. Returns how many of the first ones are served, or -1 after a lost step. */
static int serve_members(struct ltf *file, const struct lt_command *commands, size_t members, struct lt_outcome *outcomes) {
    size_t waited[MEMBERS] = {0}, served = 0;
    int refusal;
    if (ltf_tidy(file) == LT_DEVICE) return -1;
    memset(outcomes, 0, members * sizeof *outcomes);
    note_waiters(file, commands, members, waited);
    refusal = lt_serve_group(file->image, commands, members, &file->image, outcomes, members);
    file->work.groups++;
    if (is_lost(file, refusal ? refusal : outcomes[0].refusal)) return -1;
    if (refusal == 0) served = count_served(outcomes, members);
    note_all_woken(file, commands, served, outcomes, waited);
    return (int)served;
}

/* Serves the first of these commands, at least one: 2 to 16 of them together, or one alone if its tag is unknown or the
 * journal has no room for it. Returns how many, or 0 after a lost step. */
static size_t serve_first(struct ltf *file, const struct lt_command *commands, size_t count, struct lt_outcome *outcomes) {
    size_t members = lt_first_unknown(commands, count < MEMBERS ? count : MEMBERS);
    int served = members > 1 ? serve_members(file, commands, members, outcomes) : 0;
    if (served == 0) served = serve_alone(file, commands, outcomes) == LT_DEVICE ? -1 : 1;
    return served < 0 ? 0 : (size_t)served;
}

static void refuse_all(struct lt_outcome *outcomes, size_t count, uint8_t refusal) {
    for (size_t at = 0; at < count; at++) outcomes[at] = (struct lt_outcome){refusal, 0, 0};
}

int ltf_serve_group(struct ltf *file, const struct lt_command *commands, size_t count, struct lt_outcome *outcomes,
                    size_t *served) {
    file->woken_count = 0;
    *served = count ? serve_first(file, commands, count, outcomes) : 0;
    if (*served || !count) return 0;
    *served = count;
    refuse_all(outcomes, count, LT_DEVICE);
    return LT_DEVICE;
}

int ltf_front_submit(struct ltf *file, uint64_t ticket, const struct lt_command *command) {
    return lt_front_submit(file->image, ticket, command, &file->image);
}

int ltf_front_next(struct ltf *file, uint64_t ticket, struct lt_command *command, uint64_t most) {
    return lt_front_next(file->image, ticket, command, most, &file->image);
}

/* The commands that act with the next call. Returns how many there are. */
static size_t find_ahead(const struct ltf *file, struct lt_command *ahead) {
    struct lt_asked asked;
    size_t count = 0;
    while (count < MEMBERS && (asked = lt_front_asked(&file->image, count)).state == LT_AHEAD) ahead[count++] = asked.command;
    return count;
}

/* Goes on with the chain. Returns how many are told, or -1 after a lost step. */
static int advance(struct ltf *file, struct lt_told *told) {
    struct lt_command ahead[MEMBERS];
    struct lt_outcome outcomes[MEMBERS] = {{0, 0, 0}};
    size_t waited[MEMBERS] = {0}, were = find_ahead(file, ahead);
    struct lt_advanced done = {0, 0, 0};
    if (ltf_tidy(file) == LT_DEVICE || (were == 0 && find_room(file) == LT_DEVICE)) return -1;
    note_waiters(file, ahead, were, waited);
    if (is_lost(file, lt_front_advance(file->image, &file->image, &done, told, MEMBERS))) return -1;
    for (size_t at = 0; at < were; at++) outcomes[at] = told[at].outcome;
    note_all_woken(file, ahead, were, outcomes, waited);
    if (were) file->work.groups++;
    return done.answered;
}

int ltf_front_advance(struct ltf *file, struct lt_told *told, size_t *count) {
    int answered;
    file->woken_count = 0;
    answered = advance(file, told);
    *count = answered < 0 ? 0 : (size_t)answered;
    return answered < 0 ? LT_DEVICE : 0;
}

/* Asks for these commands from the first one on, until a group is full. Returns how many that are; the outcome of one
 * with an unknown tag is told at once. */
static size_t ask_first(struct ltf *file, const struct lt_command *commands, size_t count, uint64_t from,
                        struct lt_outcome *outcomes, size_t *told) {
    size_t at = 0;
    for (; at < count; at++) {
        int refusal = ltf_front_submit(file, from + at, &commands[at]);
        if (refusal == LT_UNSERVED) break;
        if (refusal) outcomes[at] = (struct lt_outcome){(uint8_t)refusal, 0, 0};
        if (refusal) ++*told;
    }
    return at;
}

/* Serves these commands as a chain of groups. Returns 0 or LT_DEVICE. */
static int serve_chain(struct ltf *file, const struct lt_command *commands, size_t count, struct lt_outcome *outcomes) {
    struct lt_told told[MEMBERS] = {{0, {0, 0, 0}}};
    size_t asked = 0, answered = 0;
    while (answered < count) {
        int some;
        asked += ask_first(file, commands + asked, count - asked, asked, outcomes + asked, &answered);
        some = advance(file, told);
        if (some < 0) return LT_DEVICE;
        for (int at = 0; at < some; at++) outcomes[told[at].ticket] = told[at].outcome;
        answered += (size_t)some;
    }
    return 0;
}

int ltf_serve_all(struct ltf *file, const struct lt_command *commands, size_t count, struct lt_outcome *outcomes) {
    int refusal = lt_front_asked(&file->image, 0).state ? LT_NO_CALL : forget_woken(file, count);
    if (refusal == 0) refusal = serve_chain(file, commands, count, outcomes);
    if (refusal) refuse_all(outcomes, count, (uint8_t)refusal);
    return refusal;
}

/* ---- What is kept */

int ltf_collect(const struct ltf *file, uint16_t element, uint64_t number, struct lt_outcome *outcome) {
    *outcome = (struct lt_outcome){0, 0, 0};
    return lt_collect(&file->image, element, number, outcome);
}

struct lt_command ltf_entry(const struct ltf *file, uint16_t element, uint64_t number) {
    return lt_entry(&file->image, element, number);
}

size_t ltf_waiters(const struct ltf *file, uint32_t address, struct lt_waiter *waiters, size_t room) {
    return lt_waiters(&file->image, address, waiters, room);
}

struct lt_bounds ltf_window(const struct ltf *file, uint16_t element) {
    struct lt_bounds window = {0, 0, 0};
    lt_window(&file->image, element, &window);
    return window;
}

struct lt_presence ltf_cell(const struct ltf *file, uint32_t address) {
    return lt_cell(&file->image, address);
}

size_t ltf_cells(const struct ltf *file, uint32_t from, struct lt_presence *cells, size_t room) {
    return lt_cells(&file->image, from, cells, room);
}

struct lt_figures ltf_stat(const struct ltf *file) {
    return lt_stat(&file->image);
}

size_t ltf_stuck(const struct ltf *file, struct lt_waiter *stuck, size_t room) {
    return lt_stuck(&file->image, stuck, room);
}

uint32_t ltf_room(const struct ltf *file) {
    return lt_room(&file->image);
}

uint64_t ltf_count(const struct ltf *file) {
    return lt_count(&file->image);
}

struct lt_sizes ltf_limits(const struct ltf *file) {
    return file->limits;
}

struct ltf_counts ltf_work(const struct ltf *file) {
    return file->work;
}

struct ltf_fault ltf_failure(const struct ltf *file) {
    return file->failure;
}

/* ---- The file */

/* Moves a descriptor above the three standard ones, in case one of those was closed. What is printed would else be
 * written into the file. */
static int above(int file) {
    int kept = file;
    if (file >= 0 && file < 3) {
        kept = fcntl(file, F_DUPFD_CLOEXEC, 3);
        close(file);
    }
    return kept;
}

/* Opens the file for this program alone, if it is one that asks for the lock. Returns the descriptor, or -errno. */
static int open_alone(const char *path, int flags) {
    struct stat seen;
    int file = above(open(path, O_RDWR | O_CLOEXEC | O_NONBLOCK | flags, 0600));
    int error = 0;
    if (file < 0) return -errno;
    if (fstat(file, &seen) < 0)
        error = errno;
    else if (!S_ISREG(seen.st_mode))
        error = EINVAL;
    else if (flock(file, LOCK_EX | LOCK_NB) < 0)
        error = errno;
    if (error == 0) return file;
    close(file);
    return -error;
}

/* Whether the path still names the open file. */
static int is_named(int file, const char *path) {
    struct stat open, named;
    return fstat(file, &open) == 0 && stat(path, &named) == 0 && open.st_ino == named.st_ino && open.st_dev == named.st_dev;
}

/* Makes the file in which an image is formed. A file that exists was left by a run that was stopped, if its lock is
 * free. */
static int make_alone(const char *path) {
    int file = open_alone(path, 0);
    if (file >= 0) {
        int gone = is_named(file, path) && unlink(path) == 0;
        close(file);
        if (!gone) return -EWOULDBLOCK;
    } else if (file != -ENOENT) {
        return file;
    }
    file = open_alone(path, O_CREAT | O_EXCL);
    if (file >= 0 && !is_named(file, path)) {
        close(file);
        return -EWOULDBLOCK;
    }
    return file;
}

/* Syncs the folder of a file, so that its name is on the disk. */
static int sync_folder(const char *path) {
    char *copy = strdup(path);
    int folder = copy ? open(dirname(copy), O_RDONLY | O_DIRECTORY | O_CLOEXEC) : -1;
    int error = folder < 0 || fsync(folder) < 0 ? errno : 0;
    if (folder >= 0) close(folder);
    free(copy);
    return -error;
}

/* A path with a suffix, or none if there is no memory. */
static char *path_with(const char *path, const char *added) {
    size_t room = strlen(path) + strlen(added) + 1;
    char *joined = malloc(room);
    if (joined) snprintf(joined, room, "%s%s", path, added);
    return joined;
}

/* The path of the note. If the path is a link to a file, the note is beside that file. */
static char *note_of(const char *path) {
    struct stat seen;
    char *target = lstat(path, &seen) == 0 && S_ISLNK(seen.st_mode) ? realpath(path, NULL) : NULL;
    char *note = path_with(target ? target : path, ".unsynced");
    free(target);
    return note;
}

static struct ltf *with_no_image(const char *path) {
    struct ltf *file = calloc(1, sizeof *file);
    if (!file) return NULL;
    file->file = -1;
    file->note = note_of(path);
    if (file->note) return file;
    ltf_close(file);
    return NULL;
}

/* Carries out the image's steps, so that the file means the image. */
static int begin(struct ltf *file) {
    if (carry_out(file) == 0) return 0;
    return -file->failure.error;
}

/* Names the file that was formed, if it was. Returns the answer, or why it has no name. */
static int name(int answer, const char *path, const char *forming) {
    if (answer == 0 && link(forming, path) < 0) answer = -errno;
    unlink(forming);
    return answer ? answer : sync_folder(path);
}

/* Forms the image, and then names it: a run that is stopped leaves no half image under that name. */
static int form(struct ltf *file, const char *path, const char *forming) {
    int answer;
    struct lt_sizes sizes = file->limits;
    off_t length = (off_t)lt_image_length(sizes.cells, sizes.elements, sizes.slots);
    file->file = make_alone(forming);
    if (file->file < 0) return file->file;
    answer = lt_format(sizes.cells, sizes.elements, sizes.slots, &file->image);
    if (answer == 0) answer = forget_woken(file, MEMBERS);
    if (answer == 0 && (ftruncate(file->file, length) < 0 || fsync(file->file) < 0)) answer = -errno;
    file->length = length;
    if (answer == 0) answer = begin(file);
    answer = name(answer, path, forming);
    if (answer == 0) unlink(file->note);
    return answer;
}

int ltf_create(const char *path, uint32_t cells, uint16_t elements, uint32_t slots, struct ltf **made) {
    struct stat seen;
    struct ltf *file;
    char *forming;
    int answer;
    if (lt_image_length(cells, elements, slots) == 0) return LT_BAD_LIMITS;
    if (lstat(path, &seen) == 0) return -EEXIST;
    file = with_no_image(path);
    forming = path_with(path, ".new");
    answer = -ENOMEM;
    if (file && forming) {
        file->limits = (struct lt_sizes){cells, elements, slots};
        answer = form(file, path, forming);
    }
    free(forming);
    if (answer == 0)
        *made = file;
    else
        ltf_close(file);
    return answer;
}

/* Reads all bytes of the file. */
static int read_all(int file, uint8_t **bytes, size_t *length) {
    struct stat seen;
    if (fstat(file, &seen) < 0) return -errno;
    *length = (size_t)seen.st_size;
    *bytes = calloc(*length + 1, 1);
    if (!*bytes) return -ENOMEM;
    for (size_t at = 0; at < *length;) {
        ssize_t done = pread(file, *bytes + at, *length - at, (off_t)at);
        if (done < 0 && errno == EINTR) continue;
        if (done <= 0) return done ? -errno : -EIO;
        at += (size_t)done;
    }
    return 0;
}

/* Reads the bytes of the file, all of which are on the disk, and sees that they open as an image. */
static int read_whole(const struct ltf *file, uint8_t **bytes, size_t *length) {
    struct lt_image opened = {0};
    int answer = read_all(file->file, bytes, length);
    if (answer == 0) answer = lt_open(*bytes, *length, &opened);
    if (opened.block) lt_close(opened);
    return answer;
}

/* Writes a copy, and names it. */
static int copy(const struct ltf *file, const char *path, const char *forming) {
    uint8_t *bytes = NULL;
    size_t length = 0;
    int answer = read_whole(file, &bytes, &length), made = answer ? -1 : make_alone(forming);
    if (answer == 0 && made < 0) answer = made;
    if (answer == 0 && (write_all(made, bytes, length, 0) < 0 || fsync(made) < 0)) answer = -errno;
    if (made >= 0) {
        answer = name(answer, path, forming);
        close(made);
    }
    free(bytes);
    return answer;
}

int ltf_backup(const struct ltf *file, const char *path) {
    struct stat seen;
    char *forming, *note;
    int answer = -ENOMEM;
    if (lost(file)) return LT_DEVICE;
    if (lstat(path, &seen) == 0) return -EEXIST;
    forming = path_with(path, ".new");
    note = note_of(path);
    if (forming && note) answer = copy(file, path, forming);
    if (answer == 0) unlink(note);
    free(forming);
    free(note);
    return answer;
}

/* Puts what an earlier run wrote on the disk. Then it asks the system to drop its pages of the file, so that the file
 * shows what the disk has. The system need not: pages that are dirty, locked or mapped stay. */
static int settle(const struct ltf *file) {
    int error = fsync(file->file) < 0 ? errno : 0;
    if (error)
        leave_note(file->note);
    else
        (void)posix_fadvise(file->file, 0, 0, POSIX_FADV_DONTNEED);
    return -error;
}

static int read_image(struct ltf *file) {
    uint8_t *bytes = NULL;
    size_t length = 0;
    int answer = note_stands(file->note) ? LTF_UNSYNCED : settle(file);
    if (answer == 0) answer = read_all(file->file, &bytes, &length);
    file->length = (off_t)length;
    if (answer == 0) answer = lt_open(bytes, length, &file->image);
    if (answer == 0) answer = lt_limits(bytes, length, &file->limits);
    if (answer == 0) answer = forget_woken(file, MEMBERS);
    free(bytes);
    return answer ? answer : begin(file);
}

int ltf_open(const char *path, struct ltf **made) {
    struct ltf *file = with_no_image(path);
    int answer = -ENOMEM;
    if (file) {
        file->file = open_alone(path, 0);
        answer = file->file < 0 ? file->file : read_image(file);
    }
    if (answer == 0)
        *made = file;
    else
        ltf_close(file);
    return answer;
}

int ltf_open_or_create(const char *path, uint32_t cells, uint16_t elements, uint32_t slots, struct ltf **made) {
    int answer = ltf_open(path, made);
    return answer == -ENOENT ? ltf_create(path, cells, elements, slots, made) : answer;
}

void ltf_close(struct ltf *file) {
    if (!file) return;
    if (file->image.block) lt_close(file->image);
    if (file->file >= 0) close(file->file);
    free(file->note);
    free(file->bytes);
    free(file->woken);
    free(file->waited);
    free(file);
}

/* What a refusal means, as a sentence. */
static const char *sentence(int refusal) {
    switch (refusal) {
    case LT_GAP: return "the number is beyond the element's next one";
    case LT_FORGOTTEN: return "the number is below the window: its entry was confirmed";
    case LT_WINDOW_FULL: return "64 entries of the element are kept: confirm some";
    case LT_MISMATCH: return "the number was used for another request";
    case LT_NO_ELEMENT: return "the image has no such element";
    case LT_NOT_ANSWERED: return "an entry below the number still waits";
    case LT_JOURNAL_FULL: return "the journal has no room";
    case LT_DEVICE: return "a step was lost: close the image and open it again";
    case LT_NO_MEMORY: return "there wasn't enough memory";
    case LT_WRONG_LENGTH: return "the file doesn't have the length of an image";
    case LT_NO_HEADER: return "the file is no image, or one that was never finished, or is damaged";
    case LT_BAD_HEADER: return "the image is damaged in a header";
    case LT_BAD_PAGE: return "the image is damaged in a page";
    case LT_BAD_RECORD: return "the image is damaged in a record";
    case LT_BAD_LIMITS: return "there are 1 to 1048576 cells, 1 to 64 elements and 16 to 4096 slots";
    case LT_OLD_VERSION: return "an image of the first layout: imem migrate makes one of this layout";
    case LT_UNSERVED: return "the command wasn't served, and changed nothing: put it again";
    default: return "an unknown tag, or no group";
    }
}

size_t ltf_say(int answer, char *buffer, size_t room) {
    char name[16] = "";
    int length;
    if (answer == 0)
        length = snprintf(buffer, room, "done");
    else if (answer == LTF_UNSYNCED)
        length = snprintf(buffer, room, "a sync failed: mount the file system anew and remove the note, or restart the machine");
    else if (answer == -EWOULDBLOCK)
        length = snprintf(buffer, room, "the image is in use by another program");
    else if (answer < 0)
        length = snprintf(buffer, room, "%s", strerror(-answer));
    else {
        lt_refusal_name((uint8_t)answer, name, sizeof name - 1);
        length = snprintf(buffer, room, "refused %d %s: %s", answer, name, sentence(answer));
    }
    return length < 0 ? 0 : (size_t)length;
}
