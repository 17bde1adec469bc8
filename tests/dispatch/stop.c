// Loaded before a program: stops it at its STOP_AT-th call that opens a file to write, writes, keeps, renames or removes one. STOP_HOW is
// 'kill' (a write is cut in half first), 'full' (the call fails as on a full disk, once) or 'wait' (the program is stopped until it is
// told to go on; its number is in the file STOP_SAYS). With SHORT_WAIT set every question for the time is answered by the next second, so that
// nobody waits long for a lock. With STOP_LOG set each of these calls is a line of that file.
#define _GNU_SOURCE
#include <dlfcn.h>
#include <errno.h>
#include <fcntl.h>
#include <signal.h>
#include <stdarg.h>
#include <stdio.h>
#include <stdlib.h>
#include <string.h>
#include <sys/syscall.h>
#include <sys/types.h>
#include <time.h>
#include <unistd.h>

#define REAL(name) ((__typeof__(&name))dlsym(RTLD_NEXT, #name))

static long calls;

static int how(const char *what) {
    const char *is = getenv("STOP_HOW");
    return is && !strcmp(is, what);
}

static void note(const char *what, const char *name, const char *other) {
    const char *log = getenv("STOP_LOG");
    char line[256];
    int fd = log ? REAL(open)(log, O_WRONLY | O_CREAT | O_APPEND, 0666) : -1;
    if (fd < 0) return;
    REAL(write)(fd, line, snprintf(line, sizeof line, "%s%s%s%s%s\n", what, *name ? " " : "", name, *other ? " " : "", other));
    close(fd);
}

// Whether this call is the one to stop at, and fails; kills the program there, or has it wait, as it is told.
static int full_now(void) {
    const char *at = getenv("STOP_AT");
    if (!at || ++calls != atol(at)) return 0;
    if (how("full")) {
        errno = ENOSPC;
        return 1;
    }
    if (how("wait")) {
        char number[16];
        int said = REAL(open)(getenv("STOP_SAYS"), O_WRONLY | O_CREAT, 0666);
        if (said >= 0) {
            REAL(write)(said, number, snprintf(number, sizeof number, "%d\n", getpid()));
            close(said);
        }
        raise(SIGSTOP);
        return 0;
    }
    raise(SIGKILL);
    return 1;
}

int open(const char *path, int flags, ...) {
    va_list rest;
    va_start(rest, flags);
    mode_t mode = va_arg(rest, mode_t);
    va_end(rest);
    if (flags & (O_CREAT | O_TRUNC | O_APPEND)) {
        note("open", path, "");
        if (full_now()) return -1;
    }
    return REAL(open)(path, flags, mode);
}

ssize_t write(int fd, const void *bytes, size_t n) {
    const char *at = getenv("STOP_AT");
    if (fd > 2 && at && calls + 1 == atol(at) && how("kill")) REAL(write)(fd, bytes, n / 2);
    if (fd > 2) {
        note("write", "", "");
        if (full_now()) return -1;
    }
    return REAL(write)(fd, bytes, n);
}

int fsync(int fd) {
    note("keep", "", "");
    return full_now() ? -1 : REAL(fsync)(fd);
}

int rename(const char *from, const char *to) {
    note("rename", from, to);
    return full_now() ? -1 : REAL(rename)(from, to);
}

int unlink(const char *path) {
    note("remove", path, "");
    return full_now() ? -1 : REAL(unlink)(path);
}

static time_t next_second(void) {
    static time_t now;
    return ++now;
}

time_t time(time_t *t) {
    time_t is = getenv("SHORT_WAIT") ? next_second() : REAL(time)(NULL);
    if (t) *t = is;
    return is;
}

// The time of day alone: what measures how long something takes goes on.
int clock_gettime(clockid_t clock, struct timespec *t) {
    if (clock != CLOCK_REALTIME || !getenv("SHORT_WAIT")) return (int)syscall(SYS_clock_gettime, clock, t);
    t->tv_sec = next_second();
    t->tv_nsec = 0;
    return 0;
}
