/* Loaded into the program under trial before the C library (LD_PRELOAD): notes its calls on files, streams and the clock, and lets one of
   them fail, come short, stop the program or end it. By the environment:

   CALLS_OUT         a file that gets a line for each call: its name, its file, a number (flags, place or length), what it answered, the
                     error's number, and the path or the bytes written in hexadecimal
   CALLS_AT          the number of the call at which something happens, 1 for the first
   CALLS_DO          what: "fail", "dead" (this call and all later ones on files fail), "short" (a read or write of half), "kill", "torn"
                     (a write of half, then killed), "stop" (stopped before the call)
   CALLS_ERROR       the number of the error that a failing call meets
   CALLS_ALLOCATION  the number of the allocation that finds no memory
   CALLS_TAKE        how many bytes of standard input a read is given at most; 0 for any number */
#define _GNU_SOURCE
#include <errno.h>
#include <fcntl.h>
#include <signal.h>
#include <stdarg.h>
#include <stdio.h>
#include <stdlib.h>
#include <string.h>
#include <sys/syscall.h>
#include <time.h>
#include <unistd.h>

extern void *__libc_malloc(size_t size);
extern void *__libc_realloc(void *old, size_t size);

/* A number for the trace's own file that no file of the program gets. */
enum { OUT = 900, LINE = 4096 };

static long calls, allocations, at, no_memory_at, error, most;
static char deed[8];
static int out = -1, is_loaded;

static long number(const char *name) {
    const char *word = getenv(name);
    return word ? atol(word) : 0;
}

__attribute__((constructor)) static void load(void) {
    const char *path = getenv("CALLS_OUT"), *word = getenv("CALLS_DO");
    at = number("CALLS_AT"), error = number("CALLS_ERROR"), no_memory_at = number("CALLS_ALLOCATION"), most = number("CALLS_TAKE");
    if (word) strncpy(deed, word, sizeof deed - 1);
    if (path) {
        long file = syscall(SYS_openat, AT_FDCWD, path, O_WRONLY | O_CREAT | O_APPEND | O_CLOEXEC, 0600);
        out = (int)syscall(SYS_fcntl, file, F_DUPFD_CLOEXEC, OUT);
        syscall(SYS_close, file);
    }
    is_loaded = 1;
}

__attribute__((destructor)) static void unload(void) {
    char line[64];
    int size = snprintf(line, sizeof line, "allocations %ld 0 0 0 \n", allocations);
    if (out >= 0) syscall(SYS_write, out, line, size);
}

static long note(const char *name, long file, long value, long answer, const void *bytes, size_t size) {
    static const char digits[] = "0123456789abcdef";
    char line[LINE];
    int failed = answer < 0 ? errno : 0;
    if (out < 0) return answer;
    size_t held = snprintf(line, sizeof line, "%s %ld %ld %ld %d ", name, file, value, answer, failed);
    for (size_t i = 0; i < size; i++) {
        if (held + 3 > sizeof line) syscall(SYS_write, out, line, held), held = 0;
        line[held++] = digits[((const unsigned char *)bytes)[i] >> 4];
        line[held++] = digits[((const unsigned char *)bytes)[i] & 15];
    }
    line[held++] = '\n';
    syscall(SYS_write, out, line, held);
    errno = failed;
    return answer;
}

static int does(const char *word) { return strcmp(deed, word) == 0; }

static void end(void) {
    syscall(SYS_kill, getpid(), SIGKILL);
    pause();
}

/* Whether the call that begins now fails. */
static int fails(long file) {
    calls++;
    if (calls == at && does("kill")) end();
    if (calls == at && does("stop")) syscall(SYS_kill, getpid(), SIGSTOP);
    if ((calls == at && does("fail")) || (at && calls >= at && file > 2 && does("dead"))) {
        errno = (int)error;
        return 1;
    }
    return 0;
}

static int is_cut(void) { return calls == at && (does("short") || does("torn")); }

#define CALL(name, file, value, ...) note(name, file, value, fails(file) ? -1 : syscall(__VA_ARGS__), NULL, 0)

int open(const char *path, int flags, ...) {
    va_list more;
    va_start(more, flags);
    int mode = flags & O_CREAT ? va_arg(more, int) : 0;
    va_end(more);
    long answer = fails(3) ? -1 : syscall(SYS_openat, AT_FDCWD, path, flags, mode);
    return (int)note("open", answer, flags, answer, path, strlen(path));
}

ssize_t read(int file, void *bytes, size_t size) {
    if (file == 0 && most > 0 && size > (size_t)most) size = (size_t)most;
    long answer = fails(file) ? -1 : syscall(SYS_read, file, bytes, is_cut() && size > 1 ? size / 2 : size);
    return note("read", file, (long)size, answer, NULL, 0);
}

ssize_t write(int file, const void *bytes, size_t size) {
    int failed = fails(file);
    size_t part = is_cut() && (does("torn") || size > 1) ? size / 2 : size;
    long answer = failed ? -1 : part ? syscall(SYS_write, file, bytes, part) : 0;
    note("write", file, (long)size, answer, bytes, answer > 0 ? (size_t)answer : 0);
    if (calls == at && does("torn")) end();
    return answer;
}

off_t lseek(int file, off_t place, int from) { return CALL("lseek", file, place, SYS_lseek, file, place, from); }
int fsync(int file) { return (int)CALL("fsync", file, 0, SYS_fsync, file); }
int fdatasync(int file) { return (int)CALL("fdatasync", file, 0, SYS_fdatasync, file); }
int ftruncate(int file, off_t size) { return (int)CALL("ftruncate", file, size, SYS_ftruncate, file, size); }
int flock(int file, int how) { return (int)CALL("flock", file, how, SYS_flock, file, how); }
int close(int file) { return (int)CALL("close", file, 0, SYS_close, file); }
int nanosleep(const struct timespec *wanted, struct timespec *left) { return (int)CALL("nanosleep", -1, 0, SYS_nanosleep, wanted, left); }
int clock_gettime(clockid_t clock, struct timespec *now) { return (int)CALL("clock_gettime", -1, clock, SYS_clock_gettime, clock, now); }

struct statx;
int statx(int file, const char *path, int flags, unsigned mask, struct statx *found) {
    return (int)CALL("statx", file, 0, SYS_statx, file, path, flags, mask, found);
}

static int has_memory(void) {
    if (!is_loaded || ++allocations != no_memory_at) return 1;
    errno = ENOMEM;
    return 0;
}

void *malloc(size_t size) { return has_memory() ? __libc_malloc(size) : NULL; }
void *realloc(void *old, size_t size) { return has_memory() ? __libc_realloc(old, size) : NULL; }
