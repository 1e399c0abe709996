// Preloaded into a program in a guest of scripts/power-cut. Each of its writes to a file, syncs, cuts and prints becomes a record on the
// second disk, which the server of the first one serves: so all stand in one order. A write is noted before it is made, a sync once it has
// answered (S a file's, D a folder's, F one that failed), a print before it is made. A name that a file gets is noted as OLD, a byte 0, NEW.
// Wrong bodies that have to be found: NO_SYNC=all leaves the file's syncs out; NO_SYNC=gates those behind a gate alone, so that a command
// is answered before its gate is on the disk; NO_SYNC=data those by fdatasync, so that a log grows before it is on the disk.
// KILL_AT=N kills the program behind its N-th gate of the journal, before the sync.
#define _GNU_SOURCE
#include <errno.h>
#include <fcntl.h>
#include <pthread.h>
#include <signal.h>
#include <stdint.h>
#include <stdio.h>
#include <stdlib.h>
#include <string.h>
#include <sys/stat.h>
#include <sys/syscall.h>
#include <unistd.h>

enum { HEAD = 32, CHUNK = 32768, SECTOR = 512, GATE = 0xA5, PAGE = 4096, FILES = 64 };
static int records = -1, no_sync, no_gates_sync, no_data_sync, behind_gate;
static long kill_at;
static char *page;
static pthread_mutex_t turn = PTHREAD_MUTEX_INITIALIZER;

static __attribute__((constructor)) void begin(void) {
    int file = open("/dev/vdb", O_RDWR | O_DIRECT | O_CLOEXEC);
    if (file < 0 || posix_memalign((void **)&page, 4096, 2 * CHUNK)) return;
    records = fcntl(file, F_DUPFD_CLOEXEC, 900);
    close(file);
    const char *left_out = getenv("NO_SYNC");
    no_sync = left_out && strcmp(left_out, "all") == 0;
    no_gates_sync = left_out && strcmp(left_out, "gates") == 0;
    no_data_sync = left_out && strcmp(left_out, "data") == 0;
    kill_at = getenv("KILL_AT") ? atol(getenv("KILL_AT")) : 0;
}

static void put(uint64_t kind, uint64_t at, const void *bytes, uint64_t length, uint64_t file) {
    if (records < 0) return;
    int before = errno;
    const char *from = bytes;
    pthread_mutex_lock(&turn);
    do {
        uint64_t part = length > CHUNK ? CHUNK : length, head[4] = { kind, at, part, file };
        size_t whole = (HEAD + part + SECTOR - 1) / SECTOR * SECTOR;
        memset(page, 0, whole);
        memcpy(page, head, HEAD);
        memcpy(page + HEAD, from, part);
        syscall(SYS_pwrite64, records, page, whole, 0);
        at += part, from += part, length -= part;
    } while (length);
    pthread_mutex_unlock(&turn);
    errno = before;
}

// Notes once which file a descriptor is, and anew if another file has its number.
static void name(int file) {
    static ino_t seen[FILES];
    struct stat found;
    if (file < 0 || file >= FILES || fstat(file, &found) || !S_ISREG(found.st_mode) || seen[file] == found.st_ino) return;
    char link[64], path[512];
    snprintf(link, sizeof link, "/proc/self/fd/%d", file);
    ssize_t length = readlink(link, path, sizeof path);
    if (length < 0) return;
    seen[file] = found.st_ino;
    put('O', found.st_size, path, length, file);
}

static int is_gate(const void *bytes, size_t length, off_t at) {
    return length == 1 && *(const unsigned char *)bytes == GATE && at > PAGE;
}

static int synced(int file, int number) {
    struct stat found;
    name(file);
    int is_folder = fstat(file, &found) == 0 && S_ISDIR(found.st_mode);
    int is_left_out = !is_folder && (no_sync || (no_gates_sync && behind_gate) || (no_data_sync && number == SYS_fdatasync));
    int answer = is_left_out ? 0 : syscall(number, file);
    put(answer ? 'F' : is_folder ? 'D' : 'S', answer ? errno : 0, "", 0, file);
    return answer;
}

ssize_t pwrite64(int file, const void *bytes, size_t length, off64_t at) {
    name(file);
    put('W', at, bytes, length, file);
    ssize_t answer = syscall(SYS_pwrite64, file, bytes, length, at);
    behind_gate = is_gate(bytes, length, at);
    if (behind_gate && kill_at && --kill_at == 0) kill(getpid(), SIGKILL);
    return answer;
}

ssize_t pwrite(int file, const void *bytes, size_t length, off_t at) {
    return pwrite64(file, bytes, length, at);
}

ssize_t write(int file, const void *bytes, size_t length) {
    if (file == 1) put('P', 0, bytes, length, file);
    return syscall(SYS_write, file, bytes, length);
}

int fdatasync(int file) {
    return synced(file, SYS_fdatasync);
}

int fsync(int file) {
    return synced(file, SYS_fsync);
}

int ftruncate64(int file, off64_t length) {
    name(file);
    put('T', length, "", 0, file);
    return syscall(SYS_ftruncate, file, length);
}

int ftruncate(int file, off_t length) {
    return ftruncate64(file, length);
}

int link(const char *old, const char *new) {
    char names[512];
    size_t length = snprintf(names, sizeof names, "%s%c%s", old, 0, new);
    int answer = syscall(SYS_link, old, new);
    if (answer == 0 && length < sizeof names) put('N', 0, names, length, 0);
    return answer;
}
