/* A rank that holds a block: it serves whatever comes, one packet at a time. */
#include "rack.h"

#include <errno.h>
#include <string.h>
#include <unistd.h>

static uint64_t rack_block[DMAP_WORDS], viewer_block[DMAP_VIEWER_WORDS];
static uint64_t *block = rack_block;
static bool viewer;    /* whether the block is a viewer's, in its memory */
static uint8_t outbox[DMAP_OUTBOX], file[FILE_ROOM];
static uint64_t own, blocks;
static int held = -1;  /* the block's file, from SEE to STAND */
static bool leads;     /* whether the lock of this folder is given back here, and the mark of a save written */

/* The round that this block is the donor of. */
static struct {
    uint64_t to, serial, outcome, changed;
    uint64_t last;     /* the longest of the calls that end it */
    size_t written;
    int waiting;       /* answers to updates that are still to come */
    struct spent spent;
} play;

static int rank_of(uint64_t b) { return (int)b + 1; }

static void answer(int error, uint64_t b, uint64_t c) { put(0, ANSWER, (uint64_t)error, b, c, NULL, 0); }

/* THE CALLS, the rack's or a viewer's */

static uint32_t send(uint64_t to, uint64_t serial, uint64_t *written) {
    return viewer ? dmap_viewer_send(block, DMAP_VIEWER_WORDS, to, serial, outbox, sizeof outbox, written)
                  : dmap_send(block, DMAP_WORDS, to, serial, outbox, sizeof outbox, written);
}

static uint32_t receive(const struct packet *p) {
    return viewer ? dmap_viewer_receive(block, DMAP_VIEWER_WORDS, p->bytes, p->count) : dmap_receive(block, DMAP_WORDS, p->bytes, p->count);
}

static uint32_t release(uint64_t to, uint64_t serial) {
    return viewer ? dmap_viewer_release(block, DMAP_VIEWER_WORDS, to, serial) : dmap_release(block, DMAP_WORDS, to, serial);
}

static uint32_t redirect(const struct packet *p) {
    return viewer ? dmap_viewer_redirect(block, DMAP_VIEWER_WORDS, p->bytes, p->count) : dmap_redirect(block, DMAP_WORDS, p->bytes, p->count);
}

static uint32_t save_file(uint64_t *count) {
    return viewer ? dmap_viewer_save_file(block, DMAP_VIEWER_WORDS, file, sizeof file, count)
                  : dmap_save_file(block, DMAP_WORDS, file, sizeof file, count);
}

/* A viewer's block goes to a viewer's memory; one with too many darts stays in the rack's, and the mesh check refuses it. */
static uint32_t read_block(size_t count, bool of_viewer) {
    uint32_t no = dmap_read_file(file, count, rack_block, DMAP_WORDS);
    block = rack_block;
    viewer = of_viewer && no == DMAP_SERVED && dmap_viewer_read_file(file, count, viewer_block, DMAP_VIEWER_WORDS) == DMAP_SERVED;
    if (viewer)
        block = viewer_block;
    return no;
}

/* A ROUND */

static void end_round(uint64_t outcome) {
    play.spent.path += play.last;
    put(0, ROUND, outcome, play.changed, 0, &play.spent, sizeof play.spent);
}

static void request(const struct packet *p) {
    memset(&play, 0, sizeof play);
    if (!p->whole) {
        end_round(ALTERED);
        return;
    }
    uint64_t start = nanoseconds(), written = 0;
    play.to = p->a, play.serial = p->b;
    uint32_t no = send(play.to, play.serial, &written);
    play.spent.calls = play.spent.path = nanoseconds() - start;
    /* A block that the basin has not receives nothing: a no to 1. */
    if (no == DMAP_SERVED && play.to >= blocks)
        no = DMAP_MEMORY_SIZE;
    if (no != DMAP_SERVED) {
        end_round(no);
        return;
    }
    play.written = (size_t)written;
    play.spent.transfer = dmap_message_size(outbox, play.written);
    put(rank_of(play.to), TRANSFER, 0, 0, 0, outbox, play.spent.transfer);
}

static void transfer(const struct packet *p) {
    uint64_t start = nanoseconds();
    uint64_t no = p->whole ? receive(p) : ALTERED;
    put(p->rank, TAKEN, no, nanoseconds() - start, 0, NULL, 0);
}

/* The destination has answered: where it took the cell, the updates go out, and the cell is released while they are on their way. */
static void taken(const struct packet *p) {
    uint64_t no = p->whole ? p->a : ALTERED;
    if (no != DMAP_SERVED) {
        end_round(no);
        return;
    }
    play.spent.calls += p->b;
    play.spent.path += p->b;
    play.changed = (uint64_t)1 << own | (uint64_t)1 << play.to;
    for (size_t at = play.spent.transfer; at < play.written;) {
        size_t size = dmap_message_size(outbox + at, play.written - at);
        uint64_t relative = dmap_message_to(outbox + at, size);
        if (size == 0 || relative >= blocks) {
            play.outcome = UNFINISHED;
            break;
        }
        put(rank_of(relative), UPDATE, 0, 0, 0, outbox + at, size);
        play.changed |= (uint64_t)1 << relative;
        play.waiting++;
        play.spent.updates++;
        play.spent.update += size;
        at += size;
    }
    uint64_t start = nanoseconds();
    if (release(play.to, play.serial) != DMAP_SERVED)
        play.outcome = UNFINISHED;
    play.last = nanoseconds() - start;
    play.spent.calls += play.last;
    if (play.waiting == 0)
        end_round(play.outcome);
}

static void update(const struct packet *p) {
    uint64_t start = nanoseconds();
    uint64_t no = p->whole ? redirect(p) : ALTERED;
    put(p->rank, TOLD, no, nanoseconds() - start, 0, NULL, 0);
}

static void told(const struct packet *p) {
    if (!p->whole || p->a == ALTERED)
        play.outcome = ALTERED;
    else if (p->a != DMAP_SERVED && play.outcome == 0)
        play.outcome = UNFINISHED;
    if (p->whole) {
        play.spent.calls += p->b;
        if (play.last < p->b)
            play.last = p->b;
    }
    if (--play.waiting == 0)
        end_round(play.outcome);
}

/* THE BLOCK'S FILE */

static void line(void) {
    char text[LINE_ROOM];
    size_t n = own_line(text);
    put(0, ANSWER, n == 0 ? ESRCH : 0, 0, 0, text, n);
}

static void lock(const struct packet *p) {
    char line[LINE_ROOM], other[LINE_ROOM] = "";
    int error = 0;
    own_line(line);
    enum taken t = take_lock(line, (const char *)p->bytes, &leads, other, &error);
    put(0, ANSWER, (uint64_t)t, (uint64_t)error, 0, other, sizeof other);
}

static void commit(void) {
    uint8_t bytes[COMMIT_ROOM];
    size_t count;
    int error = read_whole("basin.commit", bytes, sizeof bytes, &count);
    put(0, ANSWER, (uint64_t)error, 0, 0, bytes, error == 0 ? count : 0);
}

static bool is_committed(size_t count, const uint8_t *commit) { return same_entry(entry_of(file, count), entry_in(commit, own)); }

/* Reads the block: by a commit, if one is behind, the new file or the one under its name, whichever it tells of; else the one under its name,
 * which stays open. The answer is an error of the system, EAGAIN where no file is the committed one, or 0 and the number of a refusal. */
static void see(const struct packet *p) {
    size_t count = 0;
    int error;
    if (p->count > 0) {
        error = read_whole(new_name(own).text, file, sizeof file, &count);
        if (error != 0 || !is_committed(count, p->bytes))
            error = read_whole(block_name(own).text, file, sizeof file, &count);
        if (error != 0 || !is_committed(count, p->bytes))
            error = EAGAIN;
    } else {
        if (held >= 0)
            close(held);
        error = open_file(block_name(own).text, &held);
        if (error == 0)
            error = read_open(held, file, sizeof file, &count);
    }
    answer(error, error == 0 ? read_block(count, p->a >> own & 1) : 0, 0);
}

/* Whether no commit came, and the block's name still leads to the file that was read. */
static void stand(void) {
    bool quiet = !is_there("basin.commit");
    bool steady = held < 0 || leads_to(block_name(own).text, held);
    if (held >= 0)
        close(held);
    held = -1;
    answer(0, quiet && steady, 0);
}

/* Whether the committed file is there, under its new name or, where there is no new one, in place. */
static void look(const struct packet *p) {
    size_t count;
    int error = read_whole(new_name(own).text, file, sizeof file, &count);
    if (error == ENOENT)
        error = read_whole(block_name(own).text, file, sizeof file, &count);
    bool right = error == 0 && is_committed(count, p->bytes);
    answer(error == ENOENT || error == EFBIG ? 0 : error, right, 0);
}

/* Mends: the new file gets its name where there is a commit, else it goes. */
static void tidy(uint64_t k) {
    int error = 0;
    bool new = is_there(new_name(own).text);
    bool any = new || k > 0 || (leads && is_there("basin.commit.new"));
    if (any)
        error = keep_names();
    if (error == 0 && new)
        error = k > 0 ? rename_file(new_name(own).text, block_name(own).text) : remove_file(new_name(own).text);
    if (error == 0 && leads)
        error = tidy_folder(blocks);
    if (error == 0 && any)
        error = keep_names();
    answer(error, 0, 0);
}

/* The new file, on the disk; its entry. */
static void write_new(void) {
    uint64_t count = 0;
    struct entry e = {0, 0};
    int error = save_file(&count) == DMAP_SERVED ? keep_names() : EIO;
    if (error == 0)
        error = write_whole(new_name(own).text, file, (size_t)count);
    if (error == 0)
        error = keep_names();
    if (error == 0)
        e = entry_of(file, (size_t)count);
    answer(error, e.size, e.digest);
}

/* The mark, in a folder that is not the coordinator's: once per folder. */
static void mark(const struct packet *p) {
    answer(leads ? put_mark(p->bytes, p->count) : 0, 0, 0);
}

static void place(void) {
    int error = rename_file(new_name(own).text, block_name(own).text);
    answer(error != 0 ? error : keep_names(), 0, 0);
}

static void unmark(void) {
    int error = 0;
    if (leads && is_there("basin.commit")) {
        error = remove_file("basin.commit");
        if (error == 0)
            error = keep_names();
    }
    answer(error, 0, 0);
}

static void unlock(void) {
    answer(leads ? release_lock() : 0, 0, 0);
    leads = false;
}

/* The words up to the last dart; behind it all are zero. */
static void image(void) { put(0, ANSWER, 0, 0, 0, block, 8 * (8 + 8 * (size_t)block[2])); }

/* A message there and back. */
static uint64_t pinged;

static void ping(const struct packet *p) {
    pinged = nanoseconds();
    put(rank_of(p->b), ECHO, 0, 0, 0, outbox, (size_t)p->a);
}

void serve(uint64_t number, uint64_t count) {
    own = number, blocks = count;
    for (;;) {
        struct packet p = take(-1);
        switch (p.kind) {
        case REQUEST: request(&p); continue;
        case TRANSFER: transfer(&p); continue;
        case TAKEN: taken(&p); continue;
        case UPDATE: update(&p); continue;
        case TOLD: told(&p); continue;
        default: break;
        }
        if (p.kind == END)
            return;
        if (!p.whole) {
            answer(EBADMSG, 0, 0);
            continue;
        }
        switch (p.kind) {
        case LINE: line(); break;
        case LOCK: lock(&p); break;
        case COMMIT: commit(); break;
        case SEE: see(&p); break;
        case STAND: stand(); break;
        case LOOK: look(&p); break;
        case TIDY: tidy(p.a); break;
        case WRITE: write_new(); break;
        case MARK: mark(&p); break;
        case PLACE: place(); break;
        case UNMARK: unmark(); break;
        case UNLOCK: unlock(); break;
        case IMAGE: image(); break;
        case PING: ping(&p); break;
        case ECHO: put(p.rank, ECHOED, 0, 0, 0, NULL, 0); break;
        case ECHOED: answer(0, nanoseconds() - pinged, 0); break;
        default: answer(EBADMSG, 0, 0); break;
        }
    }
}
