/* Loaded before the ranks of a run: kills rank STOP_RANK at its STOP_AT-th call on a file of its folder: one that opens a file to write, writes (half of
 * it is written), keeps, renames or removes. Calls of the MPI on its own files do not count. */
#define _GNU_SOURCE
#include <dlfcn.h>
#include <fcntl.h>
#include <signal.h>
#include <stdarg.h>
#include <stdio.h>
#include <stdlib.h>
#include <string.h>
#include <sys/types.h>
#include <unistd.h>

#define REAL(name) ((__typeof__(&name))dlsym(RTLD_NEXT, #name))

static char ours[1024];

static int is_now(void) {
    static long calls;
    const char *rank = getenv("OMPI_COMM_WORLD_RANK"), *is = getenv("STOP_RANK"), *at = getenv("STOP_AT");
    if (rank == NULL) rank = getenv("PMI_RANK");
    return rank != NULL && is != NULL && at != NULL && strcmp(rank, is) == 0 && ++calls == atol(at);
}

static void stop(void) {
    if (is_now()) raise(SIGKILL);
}

int open(const char *path, int flags, ...) {
    va_list rest;
    va_start(rest, flags);
    mode_t mode = va_arg(rest, mode_t);
    va_end(rest);
    int here = *path != '/' && flags & O_CREAT;
    if (here) stop();
    int fd = REAL(open)(path, flags, mode);
    if (fd >= 0 && fd < (int)sizeof ours) ours[fd] = (char)here;
    return fd;
}

ssize_t write(int fd, const void *bytes, size_t n) {
    if (fd >= 0 && fd < (int)sizeof ours && ours[fd] && is_now()) {
        REAL(write)(fd, bytes, n / 2);
        raise(SIGKILL);
    }
    return REAL(write)(fd, bytes, n);
}

int close(int fd) {
    if (fd >= 0 && fd < (int)sizeof ours) ours[fd] = 0;
    return REAL(close)(fd);
}

int fsync(int fd) {
    stop();
    return REAL(fsync)(fd);
}

int rename(const char *from, const char *to) {
    if (*from != '/') stop();
    return REAL(rename)(from, to);
}

int unlink(const char *path) {
    if (*path != '/') stop();
    return REAL(unlink)(path);
}
