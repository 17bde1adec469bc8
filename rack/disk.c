/* Files of this folder, and the commit of a save: the names, bytes and rules of crates commands, saving and store. */
#define _GNU_SOURCE
#include "rack.h"

#include <errno.h>
#include <fcntl.h>
#include <string.h>
#include <sys/stat.h>
#include <unistd.h>

struct name block_name(uint64_t block) {
    struct name n;
    snprintf(n.text, sizeof n.text, "block-%02u.dmap", (unsigned)block % 100);
    return n;
}

struct name new_name(uint64_t block) {
    struct name n;
    snprintf(n.text, sizeof n.text, "block-%02u.dmap.new", (unsigned)block % 100);
    return n;
}

/* Opens a file to read it, without waiting for a writer where it is a pipe; there ESPIPE. */
int open_file(const char *name, int *fd) {
    *fd = open(name, O_RDONLY | O_NONBLOCK | O_CLOEXEC);
    if (*fd < 0)
        return errno;
    if (lseek(*fd, 0, SEEK_SET) < 0) {
        int error = errno;
        close(*fd);
        *fd = -1;
        return error;
    }
    return 0;
}

/* The whole of an open file, which is shorter than the room; EFBIG where it is not. */
int read_open(int fd, uint8_t *room, size_t size, size_t *count) {
    for (*count = 0; *count < size;) {
        ssize_t got = read(fd, room + *count, size - *count);
        if (got == 0)
            return 0;
        if (got < 0 && errno != EINTR)
            return errno;
        if (got > 0)
            *count += (size_t)got;
    }
    return EFBIG;
}

int read_whole(const char *name, uint8_t *room, size_t size, size_t *count) {
    int fd, error = open_file(name, &fd);
    *count = 0;
    if (error != 0)
        return error;
    error = read_open(fd, room, size, count);
    close(fd);
    return error;
}

bool is_there(const char *name) {
    struct stat s;
    return lstat(name, &s) == 0 || errno != ENOENT;
}

bool leads_to(const char *name, int fd) {
    struct stat one, other;
    return stat(name, &one) == 0 && fstat(fd, &other) == 0 && one.st_ino == other.st_ino && one.st_dev == other.st_dev;
}

/* On the disk before it ends. */
int write_whole(const char *name, const void *bytes, size_t count) {
    int fd = open(name, O_WRONLY | O_CREAT | O_TRUNC | O_CLOEXEC, 0666), error = 0;
    if (fd < 0)
        return errno;
    for (size_t at = 0; at < count && error == 0;) {
        ssize_t put = write(fd, (const uint8_t *)bytes + at, count - at);
        if (put >= 0)
            at += (size_t)put;
        else if (errno != EINTR)
            error = errno;
    }
    if (error == 0 && fsync(fd) != 0)
        error = errno;
    if (close(fd) != 0 && error == 0)
        error = errno;
    return error;
}

int rename_file(const char *from, const char *to) { return rename(from, to) == 0 ? 0 : errno; }

int remove_file(const char *name) { return unlink(name) == 0 ? 0 : errno; }

/* Has the disk keep the names of this folder. */
int keep_names(void) {
    int fd = open(".", O_RDONLY | O_DIRECTORY | O_CLOEXEC), error = 0;
    if (fd < 0)
        return errno;
    if (fsync(fd) != 0)
        error = errno;
    close(fd);
    return error;
}

/* Digest, modulo a prime below 2^55, and length: saving, Commit.digest. */
struct entry entry_of(const uint8_t *bytes, size_t count) {
    struct entry e = {count, 0};
    for (size_t i = 0; i < count; i++)
        e.digest = (e.digest * 257 + bytes[i] + 1) % 36028797018963913u;
    return e;
}

bool same_entry(struct entry one, struct entry other) { return one.size == other.size && one.digest == other.digest; }

/* Words of a commit are eight bytes, the lowest first. */
static void put_word(uint8_t *at, uint64_t word) {
    for (int i = 0; i < 8; i++)
        at[i] = (uint8_t)(word >> 8 * i);
}

static uint64_t word_at(const uint8_t *at) {
    uint64_t word = 0;
    for (int i = 0; i < 8; i++)
        word |= (uint64_t)at[i] << 8 * i;
    return word;
}

size_t put_commit(const struct entry *entries, uint64_t blocks, uint8_t *commit) {
    put_word(commit, blocks);
    for (uint64_t b = 0; b < blocks; b++) {
        put_word(commit + 8 + 16 * b, entries[b].size);
        put_word(commit + 16 + 16 * b, entries[b].digest);
    }
    return 8 + 16 * blocks;
}

/* How many blocks a commit has; 0 where the bytes are none. */
uint64_t committed(const uint8_t *commit, size_t count) {
    uint64_t blocks = count < 8 ? 0 : word_at(commit);
    return blocks >= 1 && blocks <= MOST_BLOCKS && count == 8 + 16 * blocks ? blocks : 0;
}

struct entry entry_in(const uint8_t *commit, uint64_t block) {
    return (struct entry){word_at(commit + 8 + 16 * block), word_at(commit + 16 + 16 * block)};
}

/* Puts the mark that decides a save: its bytes under another name, kept by the disk; then its name. */
int put_mark(const void *commit, size_t count) {
    int error = write_whole("basin.commit.new", commit, count);
    if (error == 0)
        error = keep_names();
    if (error == 0)
        error = rename_file("basin.commit.new", "basin.commit");
    return error != 0 ? error : keep_names();
}

int tidy_folder(uint64_t blocks) {
    int error = 0;
    for (uint64_t b = blocks; b < MOST_BLOCKS && error == 0; b++)
        if (is_there(new_name(b).text))
            error = remove_file(new_name(b).text);
    if (error == 0 && is_there("basin.commit.new"))
        error = remove_file("basin.commit.new");
    return error;
}
