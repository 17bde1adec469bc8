/* A basin over the nodes of a rack: rank 0 is the coordinator, rank b + 1 holds block b in its memory and its file in its folder. Some blocks may be
 * viewers', by the file viewers of the coordinator's folder: their ranks have a viewer's memory and make a viewer's calls.
 * Every decision about a mesh is a call of the library (dmap.h); what is here delivers messages and keeps files. */
#ifndef RACK_H
#define RACK_H

#include "dmap.h"

#include <stdbool.h>
#include <stdio.h>

enum {
    MOST_BLOCKS = 16,
    FILE_ROOM = 262144,    /* a block's file is shorter */
    COMMIT_ROOM = 512,     /* so is a commit */
    LOCK_ROOM = 262144,    /* so is a lock's file */
    LINE_ROOM = 192,       /* so is the line of a process in it */
    VIEWERS_ROOM = 64,     /* and so is a line of viewers */
    UNFINISHED = 255,      /* outcome of a round that was taken and not finished */
    ALTERED = 254          /* outcome of a round of which a packet was altered on the way */
};

/* wire.c: packets between ranks. A packet is a head, and behind it bytes: for a transfer and an update those that send wrote. */

enum kind {
    REQUEST,               /* to the donor: a the destination, b the serial */
    TRANSFER, UPDATE,      /* from the donor: a message */
    TAKEN, TOLD,           /* to the donor: a the answer to a transfer or an update, b how long the call took */
    ROUND,                 /* to the coordinator: a the outcome, b the blocks that changed as bits; behind them a struct spent */
    LINE, LOCK, UNLOCK,    /* to all: the line of the process; take part in the lock of the run, whose lines are behind; give it back */
    COMMIT, SEE, STAND,    /* what basin.commit is; read the block, a the viewers; whether its name still leads to what was read */
    LOOK, TIDY,            /* whether the block's files are those of a commit; mend them, a how many blocks it has */
    WRITE, MARK, PLACE, UNMARK, /* the steps of a save */
    IMAGE,                 /* the words of the block */
    PING, ECHO, ECHOED,    /* a message of a bytes to block b and back, timed */
    ANSWER,                /* to the coordinator: a is 0 or an error of the system */
    END
};

/* Where the time of a round went, in nanoseconds, and how many bytes were sent. */
struct spent {
    uint64_t calls;        /* of all calls */
    uint64_t path;         /* of the calls that follow each other: send, receive, the longest of release and the redirects */
    uint64_t transfer;     /* bytes */
    uint64_t updates;      /* how many */
    uint64_t update;       /* bytes of all of them */
};

struct packet {
    int rank;              /* whom it came from */
    enum kind kind;
    bool whole;            /* whether its checksum is right */
    uint64_t a, b, c;
    const uint8_t *bytes;  /* until the next packet is taken */
    size_t count;
};

/* By all ranks, first: who this is, and how many there are. */
void open_wire(int *rank, int *ranks);
void put(int rank, enum kind kind, uint64_t a, uint64_t b, uint64_t c, const void *bytes, size_t count);
/* The next packet of a rank, or of any where it is below 0. */
struct packet take(int rank);
uint64_t nanoseconds(void);
void pause_briefly(void);

/* disk.c: files of the folder that a rank was started in. What is written gives 0, or the error of the system. */

struct entry { uint64_t size, digest; };

struct name { char text[24]; };
struct name block_name(uint64_t block);
struct name new_name(uint64_t block);

int read_whole(const char *name, uint8_t *room, size_t size, size_t *count);
int read_open(int fd, uint8_t *room, size_t size, size_t *count);
int open_file(const char *name, int *fd);
bool is_there(const char *name);
bool leads_to(const char *name, int fd);
int write_whole(const char *name, const void *bytes, size_t count);
int rename_file(const char *from, const char *to);
int remove_file(const char *name);
int keep_names(void);
int put_mark(const void *commit, size_t count);

struct entry entry_of(const uint8_t *bytes, size_t count);
bool same_entry(struct entry one, struct entry other);
size_t put_commit(const struct entry *entries, uint64_t blocks, uint8_t *commit);
uint64_t committed(const uint8_t *commit, size_t count);
struct entry entry_in(const uint8_t *commit, uint64_t block);
/* Takes away what a save that was not committed left, apart from new files of blocks below a number. */
int tidy_folder(uint64_t blocks);

/* lock.c: one writer at a time; all processes of a run are one writer. */

enum taken { HELD, BUSY, FAILED };

/* The line of this process in basin.lock; 0 where /proc does not tell of it. */
size_t own_line(char *line);
/* `lines` are those of the run, each with its line feed. Whether this process is the one that gives the lock of its folder back; who has it
 * where it is busy; what is wrong where it failed. */
enum taken take_lock(const char *own, const char *lines, bool *leads, char *other, int *error);
int release_lock(void);

/* node.c: serves one block until it is told to end. */
void serve(uint64_t number, uint64_t blocks);

/* basin.c: the files of all nodes, from the coordinator. Each tells what is wrong. */

enum found { BLOCKS, REFUSED, TROUBLE };

/* First: how many nodes there are. */
void open_nodes(uint64_t blocks);
bool lock_basin(void);
void unlock_basin(void);
bool mend_basin(void);
bool save_basin(void);
/* And which blocks are viewers', as bits. */
enum found read_basin(uint32_t *viewers);
/* The words of a block, fetched into a mesh. */
bool fetch(uint64_t block, uint64_t *mesh);

/* counts.c: figures of a block, for a person. */

struct figures { uint64_t darts, volumes, pieces, critical, counter; };
struct figures figures_of(const uint64_t *block);

/* words.c: requests and coordinates from text, and what an answer means. */

enum line { A_REQUEST, A_BLANK, ANOTHER };
enum line line_of(const char *line, size_t count, uint64_t request[3]);
bool number_in(const char *text, size_t count, uint64_t *value);
bool viewers_in(const char *text, size_t count, uint32_t *viewers);
bool decimal_in(const char *text, double *value);
const char *meaning(uint32_t question);
const char *cause(int error);

#endif
