/* Faults for the desk's tools. Loaded before the C library, it stands in for the calls by which a program reaches files, counts them
   from 1, and lets one of them go wrong before it is made. tests/desk.py runs programs with it, once for each of their calls.

   FAULTS_AT      which call
   FAULTS_DO      what happens there:
                    kill     the process is killed
                    stop     the process is stopped, and makes the call when it is continued
                    ENOSPC, EIO, EACCES   the call fails for this reason
                    full     from there on every write fails for want of space; standard error still takes what is printed
                    few      from there on every read gives seven bytes at most
                    half     a write takes half of its bytes
                    torn     a write takes half of its bytes, and then the process is killed
   FAULTS_AWAKE   if it is set, nanosleep returns at once
   FAULTS_TRACE   a file that gets a line for each call before it is made, and so has as many lines as calls were begun

   All are read before the program begins. The trace has a high descriptor, so that the program's own have the numbers that they
   have without it. */
#define _GNU_SOURCE
#include <dlfcn.h>
#include <errno.h>
#include <fcntl.h>
#include <signal.h>
#include <stdarg.h>
#include <stdio.h>
#include <stdlib.h>
#include <string.h>
#include <sys/file.h>
#include <sys/stat.h>
#include <time.h>
#include <unistd.h>

enum fault { NONE, KILL, STOP, FAIL, FULL, FEW, HALF, TORN };

static enum fault fault;
static int error, awake, trace = -1;
static unsigned long at, calls;

/* REAL(NAME, ..): the function of that name that would be called without this library. */
#define REAL(name, ...) ((__typeof__(&name))dlsym(RTLD_NEXT, #name))(__VA_ARGS__)

static const struct {
    const char *word;
    enum fault fault;
    int error;
} faults[] = {
    {"kill", KILL, 0}, {"stop", STOP, 0}, {"full", FULL, ENOSPC},   {"few", FEW, 0},    {"half", HALF, 0},
    {"torn", TORN, 0}, {"EIO", FAIL, EIO}, {"ENOSPC", FAIL, ENOSPC}, {"EACCES", FAIL, EACCES},
};

__attribute__((constructor)) static void begin(void) {
    const char *number = getenv("FAULTS_AT"), *word = getenv("FAULTS_DO"), *name = getenv("FAULTS_TRACE");
    awake = getenv("FAULTS_AWAKE") != NULL;
    at = number ? strtoul(number, NULL, 10) : 0;
    for (size_t i = 0; word && i < sizeof faults / sizeof *faults; i++) {
        if (strcmp(word, faults[i].word) == 0) {
            fault = faults[i].fault;
            error = faults[i].error;
        }
    }
    if (name) {
        int low = REAL(open, name, O_WRONLY | O_CREAT | O_APPEND, 0666);
        trace = REAL(fcntl, low, F_DUPFD, 500);
        REAL(close, low);
    }
}

/* A call is named in the trace by its path, or by its number where it has no path. */
static void note(const char *call, const char *path, long number) {
    char line[4200];
    int n = path ? snprintf(line, sizeof line, "%s %s\n", call, path) : snprintf(line, sizeof line, "%s %ld\n", call, number);
    if (trace >= 0 && REAL(write, trace, line, n) != n) abort();
}

static void die(void) {
    kill(getpid(), SIGKILL);
    for (;;) pause();
}

/* Counts a call, and does what is asked for at it. Whether the call is to fail; then errno is set. */
static int fails(const char *call, const char *path, long number) {
    note(call, path, number);
    calls++;
    if (calls != at) return 0;
    if (fault == KILL) die();
    if (fault == STOP) kill(getpid(), SIGSTOP);
    if (fault != FAIL) return 0;
    errno = error;
    return 1;
}

#define NAMED(path) fails(__func__, path, 0)
#define NUMBERED(number) fails(__func__, NULL, number)

int open(const char *path, int flags, ...) {
    va_list rest;
    va_start(rest, flags);
    mode_t mode = flags & O_CREAT ? va_arg(rest, mode_t) : 0;
    va_end(rest);
    return NAMED(path) ? -1 : REAL(open, path, flags, mode);
}

ssize_t read(int file, void *s, size_t n) {
    if (NUMBERED(file)) return -1;
    return REAL(read, file, s, fault == FEW && calls >= at && n > 7 ? 7 : n);
}

ssize_t write(int file, const void *s, size_t n) {
    if (NUMBERED(file)) return -1;
    if (fault == FULL && calls >= at && file != STDERR_FILENO) {
        errno = ENOSPC;
        return -1;
    }
    if (calls != at || (fault != HALF && fault != TORN)) return REAL(write, file, s, n);
    ssize_t part = REAL(write, file, s, (n + 1) / 2);
    if (fault == TORN) die();
    return part;
}

int close(int file) {
    /* A descriptor is gone also where closing it fails. */
    if (!NUMBERED(file)) return REAL(close, file);
    REAL(close, file);
    errno = error;
    return -1;
}

int fsync(int file) { return NUMBERED(file) ? -1 : REAL(fsync, file); }
int fdatasync(int file) { return NUMBERED(file) ? -1 : REAL(fdatasync, file); }
int flock(int file, int how) { return NUMBERED(file) ? -1 : REAL(flock, file, how); }
int fchmod(int file, mode_t mode) { return NUMBERED(file) ? -1 : REAL(fchmod, file, mode); }
int fchown(int file, uid_t owner, gid_t group) { return NUMBERED(file) ? -1 : REAL(fchown, file, owner, group); }
int ftruncate(int file, off_t length) { return NUMBERED(file) ? -1 : REAL(ftruncate, file, length); }
off_t lseek(int file, off_t offset, int whence) { return NUMBERED(file) ? -1 : REAL(lseek, file, offset, whence); }

/* std looks at files by this call alone: at an open one, at a name, and at a name that may be a link. Each has the word of the call
   that is there for it alone. */
int statx(int folder, const char *path, int flags, unsigned wanted, struct statx *s) {
    const char *call = flags & AT_SYMLINK_NOFOLLOW ? "lstat" : "stat";
    int failed = *path ? fails(call, path, 0) : fails("fstat", NULL, folder);
    return failed ? -1 : REAL(statx, folder, path, flags, wanted, s);
}

int unlink(const char *path) { return NAMED(path) ? -1 : REAL(unlink, path); }
int rename(const char *from, const char *to) { return NAMED(from) ? -1 : REAL(rename, from, to); }

int nanosleep(const struct timespec *asked, struct timespec *left) {
    if (NUMBERED(asked->tv_nsec)) return -1;
    return awake ? 0 : REAL(nanosleep, asked, left);
}
