/*
 * Stands between a hall's program and the system (LD_PRELOAD): writes down what the program does to the files of its folder, makes
 * calls fail, and plays the slips of a program that keeps a worse order. Everything is told by environment variables:
 *
 *   HALLS_FOLDER=DIR        the folder whose files are followed
 *   HALLS_TRACE=FILE        each operation is appended there, a line each, with its bytes in hex
 *   HALLS_STOP=N            SIGKILL to itself behind the N-th operation
 *   HALLS_DELAY=N           each operation takes N microseconds longer
 *   HALLS_SPACE=N           no space is left behind N bytes: a write takes fewer, and the next one none
 *   HALLS_SYNC_FAILS=N      the N-th sync and all behind it fail
 *   HALLS_READ_FAILS=N      the N-th read from a file and all behind it fail
 *   HALLS_STEP=N            a read or write takes at most N bytes
 *   HALLS_INTERRUPT=N       every N-th read, or write to a file, is interrupted by a signal
 *   HALLS_ANSWER_INTERRUPTED=N  the N-th answer is
 *   HALLS_DENY=E            whatever would change the folder's files fails with the error of this number
 *   HALLS_SLIP=NAME         a slip: see the functions that ask for it
 *
 * In any other program, as the shell that starts one, it does nothing.
 */
#define _GNU_SOURCE
#include <errno.h>
#include <fcntl.h>
#include <signal.h>
#include <stdarg.h>
#include <stdio.h>
#include <stdlib.h>
#include <string.h>
#include <sys/syscall.h>
#include <sys/types.h>
#include <unistd.h>

enum { MOST_FDS = 1024, LONGEST_WRITE = 65536 };
enum role { OTHER, LOG, REGISTER, NEW_REGISTER, FOLDER, SHIPPED };

static int active;
static int trace = -1;
static const char *folder;
static const char *slip;
static long stop, delay, space = -1, sync_fails, read_fails, step, interrupt, answer_interrupted, deny;
static long operations, syncs, reads, moves, answers;
static enum role roles[MOST_FDS];
static int followed[MOST_FDS];

static long number_in(const char *name, long otherwise) {
    const char *text = getenv(name);
    return text ? atol(text) : otherwise;
}

__attribute__((constructor)) static void begin(void) {
    char program[4096];
    ssize_t n = readlink("/proc/self/exe", program, sizeof program - 1);
    const char *file = getenv("HALLS_TRACE");
    const char *name;
    if (n < 0) return;
    program[n] = 0;
    name = strrchr(program, '/') + 1;
    folder = getenv("HALLS_FOLDER");
    if (!folder || (strcmp(name, "counter") && strcmp(name, "standby"))) return;
    active = 1;
    slip = getenv("HALLS_SLIP");
    stop = number_in("HALLS_STOP", 0);
    delay = number_in("HALLS_DELAY", 0);
    space = number_in("HALLS_SPACE", -1);
    sync_fails = number_in("HALLS_SYNC_FAILS", 0);
    read_fails = number_in("HALLS_READ_FAILS", 0);
    step = number_in("HALLS_STEP", 0);
    interrupt = number_in("HALLS_INTERRUPT", 0);
    answer_interrupted = number_in("HALLS_ANSWER_INTERRUPTED", 0);
    deny = number_in("HALLS_DENY", 0);
    if (file) trace = (int)syscall(SYS_openat, AT_FDCWD, file, O_WRONLY | O_CREAT | O_APPEND, 0600);
    if (trace >= 0) syscall(SYS_write, trace, "start\n", (size_t)6);
}

static int slips(const char *name) { return active && slip && !strcmp(slip, name); }

static int follows(int fd) { return active && fd >= 0 && fd < MOST_FDS && followed[fd]; }

static enum role role_of(int fd) { return follows(fd) ? roles[fd] : OTHER; }

/* The name in the folder, `.` for the folder itself; null for what is elsewhere. */
static const char *inside(const char *path) {
    size_t n = folder ? strlen(folder) : 0;
    if (!active || strncmp(path, folder, n)) return NULL;
    if (!path[n]) return ".";
    return path[n] == '/' ? path + n + 1 : NULL;
}

static enum role role_named(const char *name) {
    if (!strcmp(name, "log")) return LOG;
    if (!strcmp(name, "register")) return REGISTER;
    if (!strcmp(name, "register.new")) return NEW_REGISTER;
    return strcmp(name, ".") ? OTHER : FOLDER;
}

/* Behind an operation, also one that a slip leaves out. */
static void count_operation(void) {
    operations++;
    if (stop && operations == stop) {
        syscall(SYS_kill, getpid(), SIGKILL);
        for (;;) pause();
    }
    if (delay) usleep((useconds_t)delay);
}

/* An operation that was done: a line, with bytes in hex behind it. */
static void did(const void *bytes, size_t count, const char *format, ...) {
    static char line[LONGEST_WRITE * 2 + 4096];
    const unsigned char *from = bytes;
    va_list words;
    int n;
    va_start(words, format);
    n = vsnprintf(line, 4000, format, words);
    va_end(words);
    for (size_t i = 0; i < count && i < LONGEST_WRITE; i++) n += sprintf(line + n, "%02x", from[i]);
    line[n++] = '\n';
    if (trace >= 0) syscall(SYS_write, trace, line, (size_t)n);
    count_operation();
}

static int fails_with(int error) {
    errno = error;
    return -1;
}

/* Whether this read or write is interrupted. */
static int is_interrupted(void) { return interrupt && ++moves % interrupt == 0; }

static size_t at_most(size_t count) { return step && count > (size_t)step ? (size_t)step : count; }

/* ---- opening */

static int opened(const char *path, int flags, int mode) {
    const char *name = inside(path);
    int fd, changes = flags & (O_CREAT | O_TRUNC | O_WRONLY | O_RDWR);
    char other[4096];
    if (name && deny && changes) return fails_with((int)deny);
    /* slip: the register file is written over in its place */
    if (name && role_named(name) == NEW_REGISTER && slips("in-place")) {
        snprintf(other, sizeof other, "%s/register", folder);
        path = other;
        name = "register";
    }
    fd = (int)syscall(SYS_openat, AT_FDCWD, path, flags, mode);
    if (!active || fd < 0 || fd >= MOST_FDS) return fd;
    followed[fd] = name != NULL;
    roles[fd] = name ? role_named(name) : SHIPPED;
    if (name) did(NULL, 0, "open %s %d %d", name, fd, (flags & O_CREAT ? 1 : 0) + (flags & O_TRUNC ? 2 : 0));
    return fd;
}

int open(const char *path, int flags, ...) {
    va_list words;
    int mode;
    va_start(words, flags);
    mode = flags & O_CREAT ? va_arg(words, int) : 0;
    va_end(words);
    return opened(path, flags, mode);
}

int close(int fd) {
    if (follows(fd)) {
        followed[fd] = 0;
        did(NULL, 0, "close %d", fd);
    }
    return (int)syscall(SYS_close, fd);
}

/* ---- reading */

static int read_is_broken(int fd) { return active && fd > 2 && read_fails && ++reads >= read_fails; }

ssize_t pread(int fd, void *to, size_t count, off_t offset) {
    off_t end;
    if (!active) return syscall(SYS_pread64, fd, to, count, offset);
    /* slip: a read that fails is taken for the end */
    if (read_is_broken(fd)) return slips("failure-is-the-end") ? 0 : fails_with(EIO);
    if (is_interrupted()) return fails_with(EINTR);
    /* slip: the last bytes of a log are not seen */
    if (slips("short-sight") && fd < MOST_FDS && roles[fd] == SHIPPED) {
        end = syscall(SYS_lseek, fd, 0, SEEK_END) - 17;
        if (offset >= end) return 0;
        if ((off_t)count > end - offset) count = (size_t)(end - offset);
    }
    return syscall(SYS_pread64, fd, to, at_most(count), offset);
}

ssize_t read(int fd, void *to, size_t count) {
    if (!active) return syscall(SYS_read, fd, to, count);
    if (is_interrupted()) return fails_with(EINTR);
    return syscall(SYS_read, fd, to, at_most(count));
}

/* ---- writing */

/* Bytes that a slip holds back, until the answer is out. */
static struct {
    int fd;
    size_t count;
    off_t offset;
    char bytes[LONGEST_WRITE];
} held = {.fd = -1};

static ssize_t put(int fd, const void *from, size_t count, off_t offset) {
    ssize_t done = syscall(SYS_pwrite64, fd, from, count, offset);
    if (done > 0) did(from, (size_t)done, "write %d %ld ", fd, (long)offset);
    return done;
}

ssize_t pwrite(int fd, const void *from, size_t count, off_t offset) {
    size_t whole = count;
    ssize_t done;
    if (!follows(fd)) return syscall(SYS_pwrite64, fd, from, count, offset);
    if (is_interrupted()) return fails_with(EINTR);
    /* slip: a record is answered and never written */
    if (role_of(fd) == LOG && slips("lost-record")) {
        count_operation();
        return (ssize_t)count;
    }
    /* slip: a record is written after its answer */
    if (role_of(fd) == LOG && slips("answer-first") && count <= LONGEST_WRITE) {
        held.fd = fd;
        held.count = count;
        held.offset = offset;
        memcpy(held.bytes, from, count);
        return (ssize_t)count;
    }
    count = at_most(count);
    if (space >= 0) {
        if (space == 0) return fails_with(ENOSPC);
        if (count > (size_t)space) count = (size_t)space;
        space -= (long)count;
    }
    done = put(fd, from, count, offset);
    /* slip: a write that took fewer bytes counts as whole */
    return done > 0 && slips("short-is-whole") ? (ssize_t)whole : done;
}

ssize_t write(int fd, const void *from, size_t count) {
    ssize_t done;
    if (!active) return syscall(SYS_write, fd, from, count);
    if (fd == STDOUT_FILENO && answer_interrupted && ++answers == answer_interrupted) return fails_with(EINTR);
    done = syscall(SYS_write, fd, from, at_most(count));
    if (fd == STDOUT_FILENO && done > 0) did(from, (size_t)done, "answer ");
    if (fd == STDOUT_FILENO && held.fd >= 0) {
        put(held.fd, held.bytes, held.count, held.offset);
        if (!syscall(SYS_fdatasync, held.fd)) did(NULL, 0, "sync %d", held.fd);
        held.fd = -1;
    }
    return done;
}

int ftruncate(int fd, off_t length) {
    int result;
    /* slip: a torn record is told and stays */
    if (role_of(fd) == LOG && slips("tear-stays")) return 0;
    /* slip: more is cut off than the torn record */
    if (role_of(fd) == LOG && slips("cut-too-far")) length = length > 20 ? length - 20 : 0;
    result = (int)syscall(SYS_ftruncate, fd, length);
    if (!result && follows(fd)) did(NULL, 0, "cut %d %ld", fd, (long)length);
    return result;
}

/* ---- syncing and names */

static int renamed(const char *from, const char *to) {
    int result = (int)syscall(SYS_rename, from, to);
    if (!result && inside(from) && inside(to)) did(NULL, 0, "rename %s %s", inside(from), inside(to));
    return result;
}

static void rename_early(void) {
    char from[4096], to[4096];
    snprintf(from, sizeof from, "%s/register.new", folder);
    snprintf(to, sizeof to, "%s/register", folder);
    renamed(from, to);
}

/* Whether a slip leaves this sync out. */
static int is_left_out(enum role role) {
    if (held.fd >= 0) return 1;
    if (role == LOG) return slips("log-not-synced") || (slips("start-not-synced") && syncs == 1);
    if (role == FOLDER) return slips("folder-not-synced");
    return role == NEW_REGISTER && slips("file-not-synced");
}

static int synced(int fd, long call) {
    int result;
    if (!follows(fd)) return (int)syscall(call, fd);
    syncs++;
    if (is_left_out(role_of(fd))) {
        count_operation();
        return 0;
    }
    /* slip: a sync that fails is passed over */
    if (sync_fails && syncs >= sync_fails) return slips("failed-sync-passes") ? 0 : fails_with(EIO);
    /* slip: the file takes its name before it is synced */
    if (role_of(fd) == NEW_REGISTER && slips("rename-first")) rename_early();
    result = (int)syscall(call, fd);
    if (!result) did(NULL, 0, "sync %d", fd);
    return result;
}

int fsync(int fd) { return synced(fd, SYS_fsync); }

int fdatasync(int fd) { return synced(fd, SYS_fdatasync); }

int rename(const char *from, const char *to) {
    const char *name = inside(from);
    if (name && deny) return fails_with((int)deny);
    if (name && role_named(name) == NEW_REGISTER && (slips("rename-first") || slips("in-place"))) return 0;
    return renamed(from, to);
}

int unlink(const char *path) {
    int result;
    if (inside(path) && deny) return fails_with((int)deny);
    result = (int)syscall(SYS_unlink, path);
    if (!result && inside(path)) did(NULL, 0, "unlink %s", inside(path));
    return result;
}

/* ---- the same under the names for long files */

int open64(const char *path, int flags, ...) __attribute__((alias("open")));
ssize_t pread64(int fd, void *to, size_t count, off_t offset) __attribute__((alias("pread")));
ssize_t pwrite64(int fd, const void *from, size_t count, off_t offset) __attribute__((alias("pwrite")));
int ftruncate64(int fd, off_t length) __attribute__((alias("ftruncate")));
