/* SPDX-License-Identifier: ISC */
/* Loaded into a program before the C library: calls of the system and requests for memory are
 * counted from 1, and some of them fail, as run.py asks in the environment. A process can be killed
 * at a call, reads and writes can be short, a path can be shut or gone, a file can be cut short or
 * grow behind the first read, the clock can go on by equal steps, and random bytes can be known. */
#define _GNU_SOURCE
#include <errno.h>
#include <fcntl.h>
#include <signal.h>
#include <stdarg.h>
#include <stdio.h>
#include <stdlib.h>
#include <string.h>
#include <sys/stat.h>
#include <sys/syscall.h>
#include <sys/sysmacros.h>
#include <sys/types.h>
#include <time.h>
#include <unistd.h>

/* The names of the calls that are counted: of all, where there are none. */
static const char *counted;
/* Of the counted calls, the one that fails, the one that is interrupted, and the one before which
 * the process is killed; the write that takes nothing, and the one that takes half of its bytes and
 * is the last. Each is 0 where there is none. */
static long failed_call, interrupted_call, killed_call, empty_write, torn_write;
/* The first of so many calls is interrupted, and so on; 0 is none. */
static long interrupted_every;
/* The request for memory that is refused; 0 is none. */
static long refused_request;
/* At most so many bytes a read or a write; 0 is no limit. */
static long step;
/* The path that cannot be opened, the one at which nothing stands, although its folder has its name,
 * and that of a file with the inode of standard output on another device. */
static const char *shut_path, *gone_path, *twin_path;
/* A file, and the length that it gets behind the first read of at least a byte; -1 is none. */
static const char *changed_file;
static long changed_length = -1;
/* By how many milliseconds the clock goes on each time that it is read; 0 is the system's clock. */
static long clock_step;
/* Where the random bytes begin among those of random_byte; -1 is the system's random bytes. */
static long random_from = -1;
/* Where the name of each counted call goes, and at the end the count of requests; -1 is nowhere. */
static long report_to = -1;

static const struct {
    const char *name;
    long *value;
} NUMBERS[] = {
    {"FAILED_CALL", &failed_call}, {"INTERRUPTED_CALL", &interrupted_call},
    {"KILLED_CALL", &killed_call}, {"EMPTY_WRITE", &empty_write},
    {"TORN_WRITE", &torn_write}, {"INTERRUPTED_EVERY", &interrupted_every},
    {"REFUSED_REQUEST", &refused_request}, {"STEP", &step},
    {"CHANGED_LENGTH", &changed_length}, {"CLOCK_STEP", &clock_step},
    {"RANDOM_FROM", &random_from}, {"REPORT_TO", &report_to},
};

static long calls, requests, looks;

static void prepare(void) {
    static int is_ready;
    if (is_ready) return;
    is_ready = 1;
    for (size_t i = 0; i < sizeof NUMBERS / sizeof *NUMBERS; i++) {
        const char *text = getenv(NUMBERS[i].name);
        if (text) *NUMBERS[i].value = atol(text);
    }
    counted = getenv("COUNTED");
    shut_path = getenv("SHUT_PATH");
    gone_path = getenv("GONE_PATH");
    twin_path = getenv("TWIN_PATH");
    changed_file = getenv("CHANGED_FILE");
}

/* Writes a line. By the system alone: the C library's calls count here, and ask for memory. */
static void report(const char *line) {
    if (report_to >= 0 && syscall(SYS_write, report_to, line, strlen(line)) < 0) _exit(98);
}

__attribute__((destructor)) static void report_requests(void) {
    char line[24];
    snprintf(line, sizeof line, "%ld\n", requests);
    report(line);
}

extern void *__libc_malloc(size_t);
extern void *__libc_calloc(size_t, size_t);
extern void *__libc_realloc(void *, size_t);
extern void *__libc_memalign(size_t, size_t);

static int is_refused(void) {
    prepare();
    if (++requests != refused_request) return 0;
    errno = ENOMEM;
    return 1;
}

void *malloc(size_t size) { return is_refused() ? NULL : __libc_malloc(size); }
void *calloc(size_t count, size_t size) { return is_refused() ? NULL : __libc_calloc(count, size); }
void *realloc(void *old, size_t size) { return is_refused() ? NULL : __libc_realloc(old, size); }
void *memalign(size_t align, size_t size) {
    return is_refused() ? NULL : __libc_memalign(align, size);
}
void *aligned_alloc(size_t align, size_t size) { return memalign(align, size); }
int posix_memalign(void **out, size_t align, size_t size) {
    void *block = memalign(align, size);
    if (!block) return ENOMEM;
    *out = block;
    return 0;
}

/* Counts a call, where its name is counted: its number, or -1. */
static long number_of(const char *name) {
    prepare();
    if (counted && !strstr(counted, name)) return -1;
    report(name), report("\n");
    return ++calls;
}

/* Whether the call with this number fails, with this error or by an interruption. */
static int fails(long number, int with) {
    if (number == killed_call) kill(getpid(), SIGKILL);
    int is_turn = number > 0 && interrupted_every && number % interrupted_every == 1;
    if (number != interrupted_call && !is_turn && number != failed_call) return 0;
    errno = number == failed_call ? with : EINTR;
    return 1;
}

static int fails_by_name(const char *name, int with) { return fails(number_of(name), with); }

static size_t shortened(size_t len) { return step > 0 && len > (size_t)step ? (size_t)step : len; }

/* Whether the path is that one, be it with a slash behind it. */
static int is_shut(const char *path) {
    size_t len = shut_path ? strlen(shut_path) : 0;
    if (len == 0 || strncmp(path, shut_path, len) != 0) return 0;
    return strcmp(path + len, "") == 0 || strcmp(path + len, "/") == 0;
}

static int open_in(int folder, const char *path, int flags, mode_t mode) {
    if (fails_by_name("open", EACCES)) return -1;
    if (is_shut(path)) return errno = EACCES, -1;
    return (int)syscall(SYS_openat, folder, path, flags, mode);
}

int openat(int folder, const char *path, int flags, ...) {
    va_list rest;
    va_start(rest, flags);
    mode_t mode = va_arg(rest, mode_t);
    va_end(rest);
    return open_in(folder, path, flags, mode);
}

int open(const char *path, int flags, ...) {
    va_list rest;
    va_start(rest, flags);
    mode_t mode = va_arg(rest, mode_t);
    va_end(rest);
    return open_in(AT_FDCWD, path, flags, mode);
}

int open64(const char *path, int flags, ...) __attribute__((alias("open")));
int openat64(int folder, const char *path, int flags, ...) __attribute__((alias("openat")));

int statx(int folder, const char *path, int flags, unsigned mask, struct statx *found) {
    if (fails_by_name("statx", EACCES)) return -1;
    if (gone_path && strcmp(path, gone_path) == 0) return errno = ENOENT, -1;
    int status = (int)syscall(SYS_statx, folder, path, flags, mask, found);
    struct stat output;
    if (status == 0 && twin_path && strcmp(path, twin_path) == 0) {
        if (fstat(STDOUT_FILENO, &output)) _exit(97);
        found->stx_ino = output.st_ino;
        found->stx_dev_minor = minor(output.st_dev) + 1;
    }
    return status;
}

ssize_t getdents64(int folder, void *room, size_t len) {
    return fails_by_name("getdents64", EIO) ? -1 : syscall(SYS_getdents64, folder, room, len);
}

ssize_t read(int file, void *room, size_t len) {
    if (fails_by_name("read", EIO)) return -1;
    ssize_t count = syscall(SYS_read, file, room, shortened(len));
    if (count > 0 && changed_length >= 0 && changed_file) {
        if (truncate(changed_file, changed_length)) _exit(99);
        changed_length = -1;
    }
    return count;
}

ssize_t write(int file, const void *bytes, size_t len) {
    if (file == STDERR_FILENO) return syscall(SYS_write, file, bytes, len);
    long number = number_of("write");
    if (fails(number, ENOSPC)) return -1;
    if (number == empty_write) return 0;
    if (number == torn_write) {
        syscall(SYS_write, file, bytes, len / 2);
        kill(getpid(), SIGKILL);
    }
    return syscall(SYS_write, file, bytes, shortened(len));
}

ssize_t __write(int file, const void *bytes, size_t len) __attribute__((alias("write")));

/* A folder is told from a file. */
int fsync(int file) {
    struct stat found;
    int is_folder = fstat(file, &found) == 0 && S_ISDIR(found.st_mode);
    if (fails_by_name(is_folder ? "syncdir" : "fsync", ENOSPC)) return -1;
    return syscall(SYS_fsync, file);
}

int flock(int file, int how) {
    return fails_by_name("flock", ENOSPC) ? -1 : syscall(SYS_flock, file, how);
}

int unlink(const char *path) {
    return fails_by_name("unlink", ENOSPC) ? -1 : syscall(SYS_unlinkat, AT_FDCWD, path, 0);
}

int fchmod(int file, mode_t mode) {
    return fails_by_name("fchmod", ENOSPC) ? -1 : syscall(SYS_fchmod, file, mode);
}

int rename(const char *from, const char *to) {
    if (fails_by_name("rename", ENOSPC)) return -1;
    return (int)syscall(SYS_renameat2, AT_FDCWD, from, AT_FDCWD, to, 0);
}

static unsigned char random_byte(long at) { return (unsigned char)(at * 167 + 13); }

int getentropy(void *bytes, size_t len) {
    if (fails_by_name("getentropy", ENOSPC)) return -1;
    if (random_from >= 0) {
        for (size_t i = 0; i < len; i++) ((unsigned char *)bytes)[i] = random_byte(random_from++);
        return 0;
    }
    return syscall(SYS_getrandom, bytes, len, 0) == (long)len ? 0 : -1;
}

int clock_gettime(clockid_t clock, struct timespec *time) {
    prepare();
    if (clock_step <= 0) return (int)syscall(SYS_clock_gettime, clock, time);
    long millis = ++looks * clock_step;
    time->tv_sec = millis / 1000;
    time->tv_nsec = millis % 1000 * 1000000;
    return 0;
}
