// The first process of the guests of scripts/power-cut. It loads modules, then takes lines of the host, each answered by what it prints
// and a line "#STATUS":
//   mount TYPE OPTIONS              mounts the disk at /m
//   umount
//   show FILE..                     the length and bytes of each file of /m
//   probe TYPE OPTIONS|FILE..       mount, show and umount
//   anything else                   is run by the shell
// In qemu it talks over the second serial line, and files are shown as records on the second disk. In user-mode Linux it talks over the
// first one, and files go to the host's folder /h.
// As a program it is also: mark TEXT (leaves a record), marks - (one of each line that it reads, which it says then), fsync FILE,
// direct FILE (prints a file past the system's pages).
#define _GNU_SOURCE
#include <errno.h>
#include <fcntl.h>
#include <linux/fs.h>
#include <stdint.h>
#include <stdio.h>
#include <stdlib.h>
#include <string.h>
#include <sys/ioctl.h>
#include <sys/mount.h>
#include <sys/stat.h>
#include <sys/syscall.h>
#include <sys/wait.h>
#include <termios.h>
#include <unistd.h>

enum { HEAD = 32, CHUNK = 32768, SECTOR = 512 };
static int line = -1, records = -1, in_uml;
static const char *disk = "/dev/vda";

static void put(uint64_t kind, uint64_t at, const void *bytes, uint64_t length, uint64_t file) {
    static char *page;
    if (records < 0) {
        records = open("/dev/vdb", O_RDWR | O_DIRECT);
        if (records < 0 || posix_memalign((void **)&page, 4096, 2 * CHUNK)) return;
    }
    const char *from = bytes;
    do {
        uint64_t part = length > CHUNK ? CHUNK : length, head[4] = { kind, at, part, file };
        size_t whole = (HEAD + part + SECTOR - 1) / SECTOR * SECTOR;
        memset(page, 0, whole);
        memcpy(page, head, HEAD);
        memcpy(page + HEAD, from, part);
        if (pwrite(records, page, whole, 0) != (ssize_t)whole) perror("records");
        at += part, from += part, length -= part;
    } while (length);
}

static void say(const char *text) {
    for (size_t left = strlen(text); left;) {
        ssize_t some = write(line, text, left);
        if (some <= 0) return;
        text += some, left -= some;
    }
}

static int do_mount(char *words) {
    char *type = strtok(words, " "), *options = strtok(NULL, " ");
    if (mount(disk, "/m", type, 0, options ? options : "") == 0) return 0;
    int error = errno;
    say(strerror(error));
    say("\n");
    return error;
}

static int do_umount(void) {
    int error = umount2("/m", 0) ? errno : 0, file = open(disk, O_RDONLY);
    if (file >= 0) {
        ioctl(file, BLKFLSBUF, 0);
        close(file);
    }
    return error;
}

// Reads a file of /m. Returns its length, or below 0 the error.
static ssize_t read_file(const char *name, char *bytes, size_t most) {
    char path[300];
    snprintf(path, sizeof path, "/m/%s", name);
    int file = open(path, O_RDONLY);
    if (file < 0) return -errno;
    ssize_t some, length = 0;
    while ((some = pread(file, bytes + length, most - length, length)) > 0) length += some;
    int error = errno;
    close(file);
    return some < 0 ? -error : length;
}

static void do_show(char *names) {
    static char bytes[4 << 20];
    int out = in_uml ? open("/h/out", O_WRONLY | O_CREAT | O_TRUNC, 0600) : -1;
    for (char *name = strtok(names, " "); name; name = strtok(NULL, " ")) {
        ssize_t length = read_file(name, bytes, sizeof bytes);
        if (!in_uml) {
            put(length < 0 ? '?' : 'L', length < 0 ? -length : length, name, strlen(name), 0);
            if (length > 0) put('R', 0, bytes, length, 0);
            continue;
        }
        char head[400];
        int some = snprintf(head, sizeof head, "%s %zd %zd\n", name, length < 0 ? -length : 0, length < 0 ? 0 : length);
        if (write(out, head, some) != some || (length > 0 && write(out, bytes, length) != length)) perror("out");
    }
    if (out >= 0) close(out);
}

static int run(const char *words) {
    int status = 0;
    pid_t child = fork();
    if (child == 0) {
        dup2(line, 1), dup2(line, 2), dup2(open("/dev/null", O_RDONLY), 0);
        setenv("PATH", "/bin", 1), setenv("HOME", "/t", 1);
        execl("/bin/busybox", "sh", "-c", words, NULL);
        _exit(127);
    }
    waitpid(child, &status, 0);
    return WIFEXITED(status) ? WEXITSTATUS(status) : 128 + WTERMSIG(status);
}

static int serve(char *words) {
    if (strncmp(words, "mount ", 6) == 0) return do_mount(words + 6);
    if (strcmp(words, "umount") == 0) return do_umount();
    if (strncmp(words, "show ", 5) == 0) return do_show(words + 5), 0;
    if (strncmp(words, "probe ", 6) != 0) return run(words);
    char *names = strchr(words, '|');
    *names++ = 0;
    int status = do_mount(words + 6);
    if (status) return status;
    do_show(names);
    if (do_umount()) say("umount failed\n");
    return 0;
}

static int marks(void) {
    char text[300];
    while (fgets(text, sizeof text, stdin)) {
        put('M', 0, text, strcspn(text, "\n"), 0);
        if (fputs(text, stdout) < 0 || fflush(stdout)) return 1;
    }
    return 0;
}

static int as_program(char **words) {
    if (strcmp(words[1], "mark") == 0) return put('M', 0, words[2], strlen(words[2]), 0), 0;
    if (strcmp(words[1], "marks") == 0) return marks();
    int direct = strcmp(words[1], "direct") == 0, file = open(words[2], O_RDONLY | (direct ? O_DIRECT : 0));
    if (!direct) return file < 0 || fsync(file) ? perror("fsync"), 1 : 0;
    void *bytes;
    ssize_t some = -1;
    if (file >= 0 && posix_memalign(&bytes, 4096, 1 << 20) == 0)
        for (off_t at = 0; (some = pread(file, bytes, 1 << 20, at)) > 0; at += some)
            if (write(1, bytes, some) != some) return 1;
    return some < 0 ? perror("direct"), 1 : 0;
}

static void load_modules(void) {
    char path[4096];
    FILE *list = fopen("/modules.list", "r");
    while (list && fgets(path, sizeof path, list)) {
        path[strcspn(path, "\n")] = 0;
        int module = open(path, O_RDONLY);
        if (syscall(SYS_finit_module, module, "", 0)) fprintf(stderr, "module %s: %s\n", path, strerror(errno));
        close(module);
    }
}

static void begin(void) {
    const char *folders[] = { "/proc", "/sys", "/dev", "/m", "/t", "/h" };
    for (size_t it = 0; it < sizeof folders / sizeof *folders; it++) mkdir(folders[it], 0755);
    mount("proc", "/proc", "proc", 0, "");
    mount("sysfs", "/sys", "sysfs", 0, "");
    mount("devtmpfs", "/dev", "devtmpfs", 0, "");
    mount("tmpfs", "/t", "tmpfs", 0, "");
    int console = open("/dev/console", O_RDWR);
    for (int it = 0; console >= 0 && it < 3; it++) dup2(console, it);
    load_modules();
    if (getenv("uml")) {
        in_uml = 1, disk = "/dev/ubda";
        mount("none", "/h", "hostfs", 0, getenv("uml"));
    }
    line = open(in_uml ? "/dev/ttyS0" : "/dev/ttyS1", O_RDWR | O_NOCTTY);
    struct termios raw;
    tcgetattr(line, &raw);
    cfmakeraw(&raw);
    tcsetattr(line, TCSANOW, &raw);
}

int main(int count, char **words) {
    if (count > 2) return as_program(words);
    begin();
    say("#READY\n");
    char text[4096], status[32];
    FILE *in = fdopen(dup(line), "r");
    while (fgets(text, sizeof text, in)) {
        text[strcspn(text, "\r\n")] = 0;
        snprintf(status, sizeof status, "#%d\n", serve(text));
        say(status);
    }
    for (;;) pause();
}
