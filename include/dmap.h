/* The transfer core for volume meshes: blocks of darts, and the messages that move a volume from block to block.
 *
 * Every call is served, and returns 0, or refused, and returns the number of the first question whose answer is no. A refused call leaves
 * everything that was lent to it as it was, what stands behind the last pointer too. A call reads and writes nothing but what is lent to it,
 * keeps no pointer, and takes no memory from the heap; the caller owns all memory before and after. It works on local arrays: leave it two
 * megabytes of stack, and 64 kilobytes to a viewer's call. Calls on different memory may run at the same time.
 *
 * What the caller owes: a pointer is not null, is aligned for its type, and leads to as many entries as the length behind it says; memory
 * that is lent for writing overlaps nothing else that is lent to the same call. Lengths and contents may be any: the questions ask about them.
 *
 * The rack's calls hold a block of at most 4,096 darts and move a volume of at most 512. A viewer, a machine with small memory, has calls of its
 * own, dmap_viewer_.., which hold 256 darts and move 64; a program that calls no others is linked with no others. Files and messages are the
 * same: whoever sends a volume does not know who gets it, so a viewer refuses by 29 a transfer that is too large for it.
 *
 * A block is lent as DMAP_WORDS words, to a viewer's call as DMAP_VIEWER_WORDS. Words 0 to 7 are the header: number, counter, dart count, five
 * zeros. Each dart has 8 words, by ascending serial: serial, next, opposite, kind (0 free, 1 sewn, 2 + 4 * the other block critical), what it is
 * sewn to or the code of its label, then x, y, z as the bits of doubles. Links are places in this order, from 0. All words behind the last dart
 * are zero. A label's code is (maker * 2^32 + number) * 4096 + position.
 *
 * A message begins with four numbers: how many bytes follow the first number, its kind (1 a transfer, 2 an update), the block that it comes
 * from, the block that it goes to. A number is written in groups of seven bits, lowest first, one to a byte; the top bit is set on all
 * bytes but the last. Messages stand in an outbox one after the other: dmap_message_size and dmap_message_to cut it and address them.
 *
 * A block for the wall is printed on pages of 60 lines of 80 columns, each line ended by one line feed. The first line of a page has block, page
 * (from 1) and page count at the right of 10 columns each, then 50 blanks. Each other line has a dart, by ascending serial: serial, next and
 * opposite at the right of 10 columns each, two blanks, then at the left of 48 columns `free`, `sewn S` (a serial) or `crit O M.N.P` (the other
 * block; maker, number and position of the label). Lines behind the last dart are blank; an empty block has one page.
 */
#ifndef DMAP_H
#define DMAP_H

#include <stddef.h>
#include <stdint.h>

#ifdef __cplusplus
extern "C" {
#endif

/* Raised by every change of a call, an answer, a size or a layout. */
#define DMAP_VERSION 3

/* Words of a block's memory, on the rack and in a mesh; and at a viewer. */
#define DMAP_WORDS 32776
#define DMAP_VIEWER_WORDS 2056

/* Bytes of an outbox that is long enough for every send. */
#define DMAP_OUTBOX 65536

/* Bytes of an output that is long enough for every file: 8, and at most 49 for each of 4,096 darts; and for every file of a viewer's 256. */
#define DMAP_FILE 200712
#define DMAP_VIEWER_FILE 12552

/* Bytes of a page; of an output that is long enough for all pages of every block: 70 for 4,096 darts; and of a viewer's 256: 5. */
#define DMAP_PAGE_BYTES 4860
#define DMAP_PAGES 340200
#define DMAP_VIEWER_PAGES 24300

/* Entries of the scratch of a mesh check and of a next move. */
#define DMAP_SCRATCH 65536

/* Words of the answer of a next move. */
#define DMAP_ANSWER 21

/* Answers: served, or the question that was answered no. */
enum {
    DMAP_SERVED = 0,
    DMAP_MEMORY_SIZE = 1,           /* is lent memory of the stated size? */
    DMAP_NOT_AN_IMAGE = 2,          /* is memory given as a block a sound block's image? */
    DMAP_FILE_LAYOUT = 3,           /* is a file right to its last byte? */
    DMAP_COORDINATE_NOT_FINITE = 4, /* are coordinates finite? */
    DMAP_LINKS_WRONG = 5,           /* are next and opposite right? */
    DMAP_THIRD_LINKS_WRONG = 6,     /* are third links right, each face of one kind? */
    DMAP_LABELS_WRONG = 7,          /* are labels, other blocks and the counter right? */
    DMAP_POINTS_DISAGREE = 8,       /* do points agree? */
    DMAP_DESTINATION = 9,           /* is the block number at most 15, and another block's? */
    DMAP_SERIAL_NOT_HELD = 10,      /* does the block hold the serial? */
    DMAP_VOLUME_TOO_LARGE = 11,     /* has the volume at most 512 darts (a viewer's: 64)? */
    DMAP_SEWN_WITHIN = 12,          /* is no dart sewn within the volume? */
    DMAP_VERTEX_PAIRS = 13,         /* is every ordered vertex pair there once, with different ends? */
    DMAP_COUNTER_FULL = 14,         /* is the counter below 2^32 afterwards? */
    DMAP_OUTPUT_TOO_SHORT = 15,     /* is the output long enough? */
    DMAP_MESSAGE_LAYOUT = 16,       /* is a message right to its last byte? */
    DMAP_NOT_FOR_HERE = 17,         /* is it of the right kind, addressed here, from elsewhere? */
    DMAP_SERIALS_NOT_NEW = 18,      /* are coordinates finite, and serials distinct and not held? */
    DMAP_VOLUME_WRONG = 19,         /* is it one volume, in message order? */
    DMAP_PARTS_WRONG = 20,          /* are the parts of a transfer right? */
    DMAP_BLOCK_FULL = 21,           /* are there at most 4,096 darts (a viewer's: 256) afterwards? */
    DMAP_UPDATE_WRONG = 22,         /* is the new block neither end, and each label the least of a different face? */
    DMAP_BLOCK_NUMBERS = 23,        /* are there 1 to 16 blocks, numbered in order? */
    DMAP_SERIALS_REPEATED = 24,     /* are serials distinct in the mesh? */
    DMAP_LABELS_UNPAIRED = 25,      /* are labels paired? */
    DMAP_POINTS_ACROSS = 26,        /* do points agree across blocks? */
    DMAP_MAKERS_WRONG = 27,         /* are makers and counters right? */
    DMAP_ORACLE_WRONG = 28,         /* are the oracle's numbers right? */
    DMAP_VOLUME_FOR_VIEWER = 29,    /* has a transfer that reaches a viewer at most 64 darts? */
    DMAP_PAGES_TOO_LONG = 30        /* can the output hold all pages? */
};

/* The answer in words, for a person. */
static inline const char *dmap_words(uint32_t answer) {
    static const char *const words[] = {
        "served",
        "lent memory is not of the stated size",
        "memory is not a sound block's image",
        "the file's bytes are not a block's",
        "a coordinate is not finite",
        "next or opposite is wrong",
        "a third link is wrong",
        "a label, another block's number or the counter is wrong",
        "points do not agree",
        "the block number is above 15, or is the block's own",
        "the block does not hold the serial",
        "the volume has more than 512 darts (a viewer's: 64)",
        "a dart is sewn within the volume",
        "an ordered vertex pair is there twice, or its ends are one",
        "the counter is at its end",
        "the output is too short",
        "the bytes are not one message",
        "the message is of another kind, for another block, or from this one",
        "a coordinate is not finite, or a serial is 0, repeated or held",
        "the darts are not one volume in message order",
        "a part of the transfer is wrong",
        "the block would have more than 4,096 darts (a viewer's: 256)",
        "the new block is an end, or a label is not the least of a face of its own",
        "there are not 1 to 16 blocks, numbered in order",
        "a serial is in two blocks",
        "labels are not paired",
        "points do not agree across blocks",
        "a maker or a counter is wrong",
        "the oracle's numbers are wrong",
        "the transfer's volume has more than 64 darts, too many for a viewer",
        "the output cannot hold all pages",
    };
    return answer < sizeof words / sizeof words[0] ? words[answer] : "no answer";
}

/* The number that starts at *at, which is moved past it; 0, and *at stays, where it is not whole or takes more than five bytes. */
static inline uint64_t dmap_number(const uint8_t *bytes, size_t count, size_t *at) {
    uint64_t value = 0;
    for (size_t i = 0; i < 5 && *at + i < count; i++) {
        value |= (uint64_t)(bytes[*at + i] & 127) << 7 * i;
        if (bytes[*at + i] < 128) {
            *at += i + 1;
            return value;
        }
    }
    return 0;
}

/* Bytes of the message that starts at the first of `count` bytes, its first number included; 0 where no whole one starts there. */
static inline size_t dmap_message_size(const uint8_t *bytes, size_t count) {
    size_t at = 0;
    uint64_t rest = dmap_number(bytes, count, &at);
    return at > 0 && rest <= count - at ? at + (size_t)rest : 0;
}

/* The block that a message goes to; 16 where it has no four numbers. */
static inline uint64_t dmap_message_to(const uint8_t *message, size_t bytes) {
    size_t at = 0;
    uint64_t to = 16;
    for (int i = 0; i < 4; i++) {
        size_t before = at;
        to = dmap_number(message, bytes, &at);
        if (at == before)
            return 16;
    }
    return to;
}

/* Makes an empty block from its number, counter 0, whatever stood in the memory.
 * Asks 1 (DMAP_WORDS words), 9 (number at most 15). Refused: the block is as it was. */
uint32_t dmap_empty(uint64_t number, uint64_t *block, size_t words);

/* Reads a block file into memory, whatever stood there.
 * Asks 1 (DMAP_WORDS words), 3 (layout, ranges, ascending serials), 4 (finite), 5 (next, opposite), 6 (third links), 7 (labels, counter),
 * 8 (points agree). The file is read only. Refused: the block is as it was. */
uint32_t dmap_read_file(const uint8_t *file, size_t bytes, uint64_t *block, size_t words);

/* Writes the block's file to the front of out, and its length to written; bytes of out behind it stay.
 * Asks 1 (DMAP_WORDS words), 2 (a sound block's image), 15 (room). The block is read only. Refused: out and written are as they were. */
uint32_t dmap_save_file(const uint64_t *block, size_t words, uint8_t *out, size_t room, uint64_t *written);

/* Writes all pages of the block to the front of out, and their length to written; bytes of out behind them stay.
 * Asks 1 (DMAP_WORDS words), 2 (a sound block's image), 30 (room). The block is read only. Refused: out and written are as they were. */
uint32_t dmap_write_pages(const uint64_t *block, size_t words, uint8_t *out, size_t room, uint64_t *written);

/* Reads pages into memory, whatever stood there: the block has the serials and links that are on them, all coordinates zero, and the least counter
 * that its labels allow. Nothing but what dmap_write_pages writes is taken.
 * Asks 1 (DMAP_WORDS words), 3 (layout, ranges, whole pages, ascending serials), 5 (next, opposite), 6 (third links), 7 (labels; the least
 * counter is below 2^32). The pages are read only. Refused: the block is as it was. */
uint32_t dmap_read_pages(const uint8_t *pages, size_t bytes, uint64_t *block, size_t words);

/* Writes the messages that move the volume which holds the serial to block `to`: the transfer, then an update for each relative, by ascending
 * number, to the front of the outbox; their length goes to written, bytes behind them stay. Each message starts with the length of its rest.
 * Asks 1 (DMAP_WORDS words), 2 (a sound block's image), 9 (to at most 15, not this block), 10 (serial held), 11 (at most 512 darts, also
 * where a viewer gets them), 12 (not sewn within), 13 (vertex pairs), 14 (counter), 15 (room). The block is read only: it still holds the
 * volume until dmap_release. Refused: outbox and written are as they were. */
uint32_t dmap_send(const uint64_t *block, size_t words, uint64_t to, uint64_t serial, uint8_t *outbox, size_t room, uint64_t *written);

/* Takes the volume that a transfer brings: its darts join the block by serial; faces that it shares with this block are sewn, and their labels go.
 * The slice is one message, its length group included: the first of what dmap_send wrote.
 * Asks 1 (DMAP_WORDS words), 2 (a sound block's image), 16 (layout), 17 (a transfer, to this block, from another), 18 (finite, serials new),
 * 19 (one volume, in message order), 20 (parts), 21 (at most 4,096 darts afterwards). The message is read only. Refused: the block is as it
 * was. */
uint32_t dmap_receive(uint64_t *block, size_t words, const uint8_t *message, size_t bytes);

/* Removes the volume that was sent, by the same request, once the destination has taken it; the faces left behind become critical with block
 * `to`, and the counter advances by their number.
 * Asks 1 (DMAP_WORDS words), 2 (a sound block's image), 9 (to at most 15, not this block), 10 (serial held), 11 (at most 512 darts),
 * 12 (not sewn within), 13 (vertex pairs), 14 (counter). Refused: the block is as it was. */
uint32_t dmap_release(uint64_t *block, size_t words, uint64_t to, uint64_t serial);

/* Takes an update: the faces that it names become critical with their new block. The slice is one message, its length group included.
 * Asks 1 (DMAP_WORDS words), 2 (a sound block's image), 16 (layout), 17 (an update, to this block, from another), 22 (new block neither end,
 * each label the least of a different face shared with the sender). The message is read only. Refused: the block is as it was. */
uint32_t dmap_redirect(uint64_t *block, size_t words, const uint8_t *message, size_t bytes);

/* Checks a whole mesh: the memories of its blocks one after the other, block 0 first, DMAP_WORDS words each, a viewer's too. Bit b of viewers says
 * that the block numbered b, by word 0 of its memory wherever it stands, is a viewer's; bits 16 to 31 and those of blocks that are not there
 * are not looked at. The mesh is read only; the scratch is zero before and after; where 1 is answered no it is as it was.
 * Asks 1 (whole blocks; DMAP_SCRATCH entries of scratch, all zero), 2 (each a sound block's image, a viewer's of at most 256 darts), 23 (1 to
 * 16 blocks, numbered in order), 24 (serials distinct), 25 (labels paired), 26 (points agree across), 27 (makers and counters). */
uint32_t dmap_check_mesh(const uint64_t *mesh, size_t words, uint32_t viewers, uint64_t *scratch, size_t entries);

/* Finds the next move of a whole mesh by an oracle: 0 picks every volume, 1 those with a point in the box from (x0, y0, z0) to (x1, y1, z1), 2
 * those with points on both sides of the plane on `axis` (0 x, 1 y, 2 z) at x0. What an oracle does not use may be any. A donor has at least two
 * picked volumes more than the recipient; the mesh is level where no two blocks' counts differ by two or more, and blocked where some do and no
 * volume may go: one goes that has at most 512 darts, 64 where donor or recipient is a viewer's, 12, 13 and 14 being answered yes, and that
 * leaves the recipient at most 4,096, a viewer 256. Viewers as in dmap_check_mesh. The answer has DMAP_ANSWER words: 0 level, 1 blocked or 2 a
 * move; donor, recipient and serial, 0 where there is none; the mean of the counts, rounded down; then 16 surpluses, each block's count less the
 * mean, two's complement in 64 bits (cast to int64_t), 0 for blocks that the mesh has not. Mean and surpluses are those before the move, which
 * is made by a send. The mesh is read only; the scratch is zero before and after.
 * Asks 1 (DMAP_ANSWER words of answer, before all else), then what dmap_check_mesh asks, then 28 (oracle 0 to 2; floats used are finite, low
 * not above high, axis 0 to 2). Refused: scratch and answer are as they were. */
uint32_t dmap_next_move(const uint64_t *mesh, size_t words, uint32_t viewers, uint32_t oracle, uint32_t axis,
                        double x0, double y0, double z0, double x1, double y1, double z1,
                        uint64_t *scratch, size_t entries, uint64_t *answer, size_t answer_words);

/* A viewer's calls: as the rack's of those names, on DMAP_VIEWER_WORDS words, in 64 kilobytes of stack. Refused: what was lent is as it was. */

/* Asks 1 (DMAP_VIEWER_WORDS words), 9 (number at most 15). */
uint32_t dmap_viewer_empty(uint64_t number, uint64_t *block, size_t words);

/* Asks 1 (DMAP_VIEWER_WORDS words), 3 (layout, ranges, at most 256 darts, ascending serials), 4 (finite), 5 (next, opposite), 6 (third links),
 * 7 (labels, counter), 8 (points agree). */
uint32_t dmap_viewer_read_file(const uint8_t *file, size_t bytes, uint64_t *block, size_t words);

/* Asks 1 (DMAP_VIEWER_WORDS words), 2 (a sound block's image, at most 256 darts), 15 (room). */
uint32_t dmap_viewer_save_file(const uint64_t *block, size_t words, uint8_t *out, size_t room, uint64_t *written);

/* Asks 1 (DMAP_VIEWER_WORDS words), 2 (a sound block's image, at most 256 darts), 30 (room). */
uint32_t dmap_viewer_write_pages(const uint64_t *block, size_t words, uint8_t *out, size_t room, uint64_t *written);

/* Asks 1 (DMAP_VIEWER_WORDS words), 3 (layout, ranges, whole pages, at most 256 darts, ascending serials), 5 (next, opposite), 6 (third links),
 * 7 (labels; the least counter is below 2^32). */
uint32_t dmap_viewer_read_pages(const uint8_t *pages, size_t bytes, uint64_t *block, size_t words);

/* Asks 1 (DMAP_VIEWER_WORDS words), 2 (a sound block's image, at most 256 darts), 9 (to at most 15, not this block), 10 (serial held), 11 (at
 * most 64 darts), 12 (not sewn within), 13 (vertex pairs), 14 (counter), 15 (room). */
uint32_t dmap_viewer_send(const uint64_t *block, size_t words, uint64_t to, uint64_t serial, uint8_t *outbox, size_t room, uint64_t *written);

/* Asks 1 (DMAP_VIEWER_WORDS words), 2 (a sound block's image, at most 256 darts), 16 (layout, 1 to 512 darts), 17 (a transfer, to this block,
 * from another), 29 (at most 64 darts), 18 (finite, serials new), 19 (one volume, in message order), 20 (parts), 21 (at most 256 darts
 * afterwards). */
uint32_t dmap_viewer_receive(uint64_t *block, size_t words, const uint8_t *message, size_t bytes);

/* Asks 1 (DMAP_VIEWER_WORDS words), 2 (a sound block's image, at most 256 darts), 9 (to at most 15, not this block), 10 (serial held), 11 (at
 * most 64 darts), 12 (not sewn within), 13 (vertex pairs), 14 (counter). */
uint32_t dmap_viewer_release(uint64_t *block, size_t words, uint64_t to, uint64_t serial);

/* Asks 1 (DMAP_VIEWER_WORDS words), 2 (a sound block's image, at most 256 darts), 16 (layout), 17 (an update, to this block, from another),
 * 22 (new block neither end, each label the least of a different face shared with the sender). */
uint32_t dmap_viewer_redirect(uint64_t *block, size_t words, const uint8_t *message, size_t bytes);

#ifdef __cplusplus
}
#endif

#endif
