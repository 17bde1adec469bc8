/* One writer at a time (crate store, lock): basin.lock has a line for each process that came to write, host, process, start, and the first whose
 * process still runs has the lock. All lines of a run are added by one write, so while any of its processes runs nobody else writes. */
#define _GNU_SOURCE
#include "rack.h"

#include <errno.h>
#include <fcntl.h>
#include <stdlib.h>
#include <string.h>
#include <time.h>
#include <unistd.h>

enum first { OWN, OF_THE_RUN, OTHER, NOBODY, UNREAD };

/* What /proc tells of a process: its state, and when it started; whether there is one. */
static bool told(const char *process, char *state, char *start) {
    char path[64], stat[1024];
    snprintf(path, sizeof path, "/proc/%.32s/stat", process);
    int fd = open(path, O_RDONLY | O_CLOEXEC);
    if (fd < 0)
        return false;
    ssize_t n = read(fd, stat, sizeof stat - 1);
    close(fd);
    if (n <= 0)
        return false;
    stat[n] = 0;
    /* The name may hold anything; the last bracket ends it. */
    char *at = strrchr(stat, ')');
    char *rest = NULL, *word = at == NULL ? NULL : strtok_r(at + 1, " \n", &rest);
    for (int i = 0; word != NULL; i++, word = strtok_r(NULL, " \n", &rest)) {
        if (i == 0)
            *state = *word;
        if (i == 19) {
            snprintf(start, 32, "%.31s", word);
            return true;
        }
    }
    return false;
}

size_t own_line(char *line) {
    char host[65] = "", state, start[32];
    gethostname(host, sizeof host - 1);
    if (!told("self", &state, start))
        return 0;
    return (size_t)snprintf(line, LINE_ROOM, "%s %ld %s", host, (long)getpid(), start);
}

/* Whether the process of a line may still run. One of another host cannot be asked, and counts as running. */
static bool may_run(const char *line, const char *own) {
    char host[65], process[33], start[32], own_host[65] = "", state, is[32];
    if (sscanf(line, "%64s %32s %31s", host, process, start) != 3)
        return false;
    sscanf(own, "%64s", own_host);
    if (strcmp(host, own_host) != 0)
        return true;
    return told(process, &state, is) && state != 'Z' && state != 'X' && strcmp(start, is) == 0;
}

/* Whether a line is one of the run's. */
static bool is_among(const char *line, const char *lines) {
    size_t n = strlen(line);
    for (const char *at = lines; *at != 0; at = strchr(at, '\n') + 1)
        if (strncmp(at, line, n) == 0 && at[n] == '\n')
            return true;
    return false;
}

/* Who stands first in the lock's file. */
static enum first look(const char *own, const char *lines, char *other, int *error) {
    static char room[LOCK_ROOM];
    size_t count;
    *error = read_whole("basin.lock", (uint8_t *)room, sizeof room, &count);
    if (*error == ENOENT)
        return NOBODY;
    if (*error != 0)
        return UNREAD;
    room[count] = 0; /* read_whole leaves room */
    char *rest = NULL;
    for (char *line = strtok_r(room, "\n", &rest); line != NULL; line = strtok_r(NULL, "\n", &rest)) {
        if (strcmp(line, own) == 0)
            return OWN;
        if (is_among(line, lines))
            return OF_THE_RUN;
        if (may_run(line, own)) {
            snprintf(other, LINE_ROOM, "%.*s", LINE_ROOM - 1, line);
            return OTHER;
        }
    }
    return NOBODY;
}

/* Adds this process's line and those of the run, by one write; a line feed first, in case that the last line was cut off. */
static int add_lines(const char *own, const char *lines) {
    char text[(MOST_BLOCKS + 3) * LINE_ROOM];
    int n = snprintf(text, sizeof text, "\n%s\n%s", own, lines), error = 0;
    int fd = open("basin.lock", O_WRONLY | O_CREAT | O_APPEND | O_CLOEXEC, 0666);
    if (fd < 0)
        return errno;
    ssize_t put = write(fd, text, (size_t)n);
    if (put != n)
        error = put < 0 ? errno : ENOSPC;
    close(fd);
    return error;
}

enum taken take_lock(const char *own, const char *lines, bool *leads, char *other, int *error) {
    time_t second = time(NULL);
    int changes = 0;
    *leads = false;
    for (;;) {
        enum first first = look(own, lines, other, error);
        if (first == UNREAD)
            return FAILED;
        if (first == OWN || first == OF_THE_RUN) {
            /* Once more: who had the lock may have removed the file in between, and these lines with it. */
            if (look(own, lines, other, error) == first) {
                *leads = first == OWN;
                return HELD;
            }
        } else if (first == NOBODY) {
            *error = add_lines(own, lines);
            if (*error != 0 && *error != ENOENT)
                return FAILED;
        } else {
            time_t now = time(NULL);
            changes += now != second;
            second = now;
            if (changes > 2)
                return BUSY;
            pause_briefly();
        }
    }
}

int release_lock(void) { return remove_file("basin.lock"); }
