/* The files of all nodes, from the coordinator: the lock, reading, a save in two steps, and the mending of one that was cut short. The stages are
 * those of crate saving (Plan): a stage is done by all nodes, and on their disks, before the next one begins. */
#include "rack.h"

#include <errno.h>
#include <string.h>

struct reply {
    int error;
    uint64_t b, c;
    uint8_t bytes[COMMIT_ROOM];
    size_t count;
};

static uint64_t blocks;
static struct reply replies[MOST_BLOCKS];

/* Gives one order to every node and collects the answers. The first error, of the lowest block. */
static int order(enum kind kind, uint64_t a, const void *bytes, size_t count) {
    int error = 0;
    for (uint64_t b = 0; b < blocks; b++)
        put((int)b + 1, kind, a, 0, 0, bytes, count);
    for (uint64_t b = 0; b < blocks; b++) {
        struct packet p = take((int)b + 1);
        struct reply *r = &replies[b];
        r->error = p.whole ? (int)p.a : EBADMSG;
        r->b = p.b, r->c = p.c;
        r->count = p.count < sizeof r->bytes ? p.count : sizeof r->bytes;
        memcpy(r->bytes, p.bytes, r->count);
        if (error == 0)
            error = r->error;
    }
    return error;
}

static void failed(const char *what, const char *name, int error) { fprintf(stderr, "error: %s %s: %s\n", what, name, cause(error)); }

/* THE LOCK */

static bool leads; /* whether this process gives the lock of its folder back */

void unlock_basin(void) {
    order(UNLOCK, 0, NULL, 0);
    if (leads)
        release_lock();
    leads = false;
}

/* What keeps the run from writing, in words. */
static void say_taken(enum taken t, const char *other, int error) {
    char host[65] = "", process[33] = "";
    sscanf(other, "%64s %32s", host, process);
    if (t == BUSY)
        fprintf(stderr, "error: process %s on %s is writing this basin (basin.lock): nothing was done\n", process, host);
    if (t == FAILED)
        failed("cannot lock", "this folder", error);
}

/* The lines of all processes of the run, the coordinator's first. */
static int gather_lines(char *lines, size_t room) {
    char own[LINE_ROOM];
    if (own_line(own) == 0)
        return ESRCH;
    int error = order(LINE, 0, NULL, 0);
    size_t at = (size_t)snprintf(lines, room, "%s\n", own);
    for (uint64_t b = 0; b < blocks && error == 0; b++)
        at += (size_t)snprintf(lines + at, room - at, "%.*s\n", (int)replies[b].count, (const char *)replies[b].bytes);
    return error;
}

bool lock_basin(void) {
    char lines[(MOST_BLOCKS + 1) * LINE_ROOM], own[LINE_ROOM], other[LINE_ROOM] = "";
    int error = gather_lines(lines, sizeof lines);
    if (error != 0) {
        say_taken(FAILED, "", error);
        return false;
    }
    own_line(own);
    enum taken t = take_lock(own, lines, &leads, other, &error);
    say_taken(t, other, error);
    if (t != HELD)
        return false;
    /* Nodes whose folder is another one lock it too. */
    if (order(LOCK, 0, lines, strlen(lines) + 1) == 0)
        return true;
    for (uint64_t b = 0; b < blocks; b++)
        if (replies[b].error != 0) {
            bool altered = replies[b].error == EBADMSG;
            say_taken(altered ? FAILED : (enum taken)replies[b].error, (const char *)replies[b].bytes, altered ? EBADMSG : (int)replies[b].b);
            break;
        }
    unlock_basin();
    return false;
}

/* THE MARK OF A SAVE */

struct mark { int error; uint8_t bytes[COMMIT_ROOM]; size_t count; };

/* basin.commit of the coordinator's folder, or of any node's: where one stands, the save is committed. ENOENT where none stands. */
static struct mark find_mark(void) {
    struct mark m;
    m.error = read_whole("basin.commit", m.bytes, sizeof m.bytes, &m.count);
    order(COMMIT, 0, NULL, 0);
    for (uint64_t b = 0; b < blocks && m.error == ENOENT; b++) {
        m.error = replies[b].error;
        m.count = replies[b].count;
        memcpy(m.bytes, replies[b].bytes, m.count);
    }
    return m;
}

/* A basin of as many blocks as the run has nodes; else what to start. */
static bool fits(uint64_t k) {
    if (k != blocks)
        fprintf(stderr, "error: the basin has %u blocks, and the run has nodes for %u: mpirun -n %u\n", (unsigned)k, (unsigned)blocks, (unsigned)k + 1);
    return k == blocks;
}

/* Takes the mark away, everywhere. */
static int remove_mark(void) {
    int error = is_there("basin.commit") ? remove_file("basin.commit") : 0;
    if (error == 0)
        error = keep_names();
    return error != 0 ? error : order(UNMARK, 0, NULL, 0);
}

/* Gives committed files their names, or takes new files away where k is 0. */
static int tidy(uint64_t k) {
    int error = 0;
    bool any = k > 0 || is_there("basin.commit.new");
    for (uint64_t b = blocks; b < MOST_BLOCKS; b++)
        any = any || is_there(new_name(b).text);
    if (any)
        error = keep_names();
    if (error == 0)
        error = order(TIDY, k, NULL, 0);
    if (error == 0 && leads)
        error = tidy_folder(blocks);
    if (error == 0 && any)
        error = keep_names();
    return error == 0 && k > 0 ? remove_mark() : error;
}

/* Finishes a save that was cut short if it was committed and its files are there, and forgets it if it was not. */
bool mend_basin(void) {
    struct mark m = find_mark();
    uint64_t k = m.error == 0 ? committed(m.bytes, m.count) : 0;
    if (m.error == EFBIG || (m.error == 0 && k == 0)) {
        fputs("error: basin.commit is no commit: nothing is changed\n", stderr);
        return false;
    }
    if (m.error != 0 && m.error != ENOENT) {
        failed("cannot read", "basin.commit", m.error);
        return false;
    }
    if (k > 0) {
        if (!fits(k))
            return false;
        order(LOOK, 0, m.bytes, m.count);
        for (uint64_t b = 0; b < blocks; b++) {
            if (replies[b].error != 0)
                failed("cannot read", block_name(b).text, replies[b].error);
            if (replies[b].error != 0 || !replies[b].b) {
                fprintf(stderr, "error: the files of %s are not those of basin.commit: nothing is changed\n", block_name(b).text);
                return false;
            }
        }
    }
    int error = tidy(k);
    if (error != 0) {
        failed("cannot finish a save in", "this folder", error);
        return false;
    }
    if (k > 0)
        puts("# finished a save that was cut short");
    return true;
}

/* A SAVE: all new files on the disks; then the mark, which decides; then the names; then the mark goes. */
static int save_steps(void) {
    struct entry entries[MOST_BLOCKS];
    uint8_t commit[COMMIT_ROOM];
    int error = keep_names();
    if (error == 0)
        error = order(WRITE, 0, NULL, 0);
    for (uint64_t b = 0; b < blocks; b++)
        entries[b] = (struct entry){replies[b].b, replies[b].c};
    size_t count = put_commit(entries, blocks, commit);
    if (error == 0)
        error = put_mark(commit, count);
    if (error == 0)
        error = order(MARK, 0, commit, count);
    if (error == 0)
        error = order(PLACE, 0, NULL, 0);
    return error != 0 ? error : remove_mark();
}

bool save_basin(void) {
    int error = save_steps();
    if (error != 0) {
        failed("cannot save the blocks in", "this folder", error);
        mend_basin();
        return false;
    }
    printf("# saved %u blocks\n", (unsigned)blocks);
    fflush(stdout);
    return true;
}

/* READING: one state, whatever save goes on beside it (crate store, reading). Nothing is written. */

/* Whether a block's file was read; else what is wrong with it. */
static enum found say_fault(uint64_t b, const struct reply *r) {
    struct name name = block_name(b);
    if (r->error == 0) {
        printf("refused %u: %s: %s\n", (unsigned)r->b, name.text, meaning((uint32_t)r->b));
        return REFUSED;
    }
    if (r->error == EFBIG)
        fprintf(stderr, "error: too large for a block: %s\n", name.text);
    else if (r->error == ESPIPE)
        fprintf(stderr, "error: not a file but a pipe: %s\n", name.text);
    else
        failed("cannot read", name.text, r->error);
    return TROUBLE;
}

/* The first block from b on whose file is there, at its node or, behind the nodes' blocks, in the coordinator's folder; MOST_BLOCKS. */
static uint64_t next_there(uint64_t b) {
    while (b < MOST_BLOCKS && (b < blocks ? replies[b].error == ENOENT : !is_there(block_name(b).text)))
        b++;
    return b;
}

/* What the answers to SEE come to. */
static enum found seen(void) {
    uint64_t k = 0;
    while (k < blocks && replies[k].error == 0 && replies[k].b == 0)
        k++;
    if (k < blocks && replies[k].error != ENOENT)
        return say_fault(k, &replies[k]);
    if (k == blocks)
        while (k < MOST_BLOCKS && is_there(block_name(k).text))
            k++;
    uint64_t behind = next_there(k);
    if (behind < MOST_BLOCKS)
        fprintf(stderr, "error: %s is missing, and %s is there\n", block_name(k).text, block_name(behind).text);
    else if (k == 0)
        fputs("error: there is no block-00.dmap in this folder\n", stderr);
    else if (is_there("block-16.dmap"))
        fputs("error: there is a block-16.dmap: a basin has at most sixteen blocks, 00 to 15\n", stderr);
    else if (fits(k))
        return BLOCKS;
    return TROUBLE;
}

/* One look; AGAIN where a save goes on. */
enum { AGAIN = TROUBLE + 1 };

static int look_once(uint32_t viewers) {
    struct mark m = find_mark();
    if (m.error == 0) {
        uint64_t k = committed(m.bytes, m.count);
        if (k == 0) {
            fputs("error: basin.commit is no commit\n", stderr);
            return TROUBLE;
        }
        if (!fits(k))
            return TROUBLE;
        order(SEE, viewers, m.bytes, m.count);
        for (uint64_t b = 0; b < blocks; b++)
            if (replies[b].error != 0 || replies[b].b != 0)
                return AGAIN;
        return BLOCKS;
    }
    if (m.error == EFBIG) {
        fputs("error: basin.commit is no commit\n", stderr);
        return TROUBLE;
    }
    if (m.error != ENOENT) {
        failed("cannot read", "basin.commit", m.error);
        return TROUBLE;
    }
    order(SEE, viewers, NULL, 0);
    struct reply kept[MOST_BLOCKS];
    memcpy(kept, replies, sizeof kept);
    bool steady = !is_there("basin.commit");
    if (order(STAND, 0, NULL, 0) != 0)
        steady = false;
    for (uint64_t b = 0; b < blocks; b++)
        steady = steady && replies[b].b;
    memcpy(replies, kept, sizeof kept);
    return steady ? (int)seen() : AGAIN;
}

/* Which blocks are viewers': none where there is no such file, which no command writes. */
static bool read_viewers(uint32_t *viewers) {
    uint8_t line[VIEWERS_ROOM];
    size_t count;
    int error = read_whole("viewers", line, sizeof line, &count);
    *viewers = 0;
    if (error == ENOENT)
        return true;
    if (error != 0 && error != EFBIG) {
        failed("cannot read", "viewers", error);
        return false;
    }
    if (error == 0 && viewers_in((const char *)line, count, viewers))
        return true;
    fputs("error: viewers is not a line of ascending block numbers, 0 to 15, with one blank between two\n", stderr);
    return false;
}

enum found read_basin(uint32_t *viewers) {
    if (!read_viewers(viewers))
        return TROUBLE;
    for (int tries = 0; tries < 1000; tries++) {
        int found = look_once(*viewers);
        if (found != AGAIN)
            return (enum found)found;
        pause_briefly();
    }
    fputs("error: the files are not those that basin.commit tells of\n", stderr);
    return TROUBLE;
}

/* The words of a block, behind which the mesh is zero. */
bool fetch(uint64_t b, uint64_t *mesh) {
    uint64_t *at = mesh + b * DMAP_WORDS;
    put((int)b + 1, IMAGE, 0, 0, 0, NULL, 0);
    struct packet p = take((int)b + 1);
    if (!p.whole || p.a != 0 || p.count > 8 * DMAP_WORDS) {
        failed("cannot fetch", block_name(b).text, EBADMSG);
        return false;
    }
    memcpy(at, p.bytes, p.count);
    memset((uint8_t *)at + p.count, 0, 8 * DMAP_WORDS - p.count);
    return true;
}

void open_nodes(uint64_t count) { blocks = count; }
