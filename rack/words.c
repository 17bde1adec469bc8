/* Requests and coordinates from text (crates commands and decimal), and what answers and errors mean (crate store, say). */
#include "rack.h"

#include <errno.h>
#include <stdlib.h>
#include <string.h>

bool number_in(const char *text, size_t count, uint64_t *value) {
    *value = 0;
    for (size_t i = 0; i < count; i++) {
        if (text[i] < '0' || text[i] > '9')
            return false;
        *value = 10 * *value + (uint64_t)(text[i] - '0');
        if (*value >> 32 != 0)
            return false;
    }
    return count > 0;
}

/* One line: block numbers, ascending, a blank between two, and a line feed; as bits. */
bool viewers_in(const char *text, size_t count, uint32_t *viewers) {
    size_t at = 0, least = 0;
    *viewers = 0;
    if (count == 1 && text[0] == '\n')
        return true;
    while (at < count) {
        uint64_t block;
        size_t from = at;
        while (at < count && text[at] != ' ' && text[at] != '\n')
            at++;
        /* Below 16, so at most two digits, and no zero in front. */
        if (!number_in(text + from, at - from, &block) || block >= MOST_BLOCKS || block < least || (at - from == 2) != (block > 9) || at == count)
            return false;
        *viewers |= (uint32_t)1 << block;
        least = (size_t)block + 1;
        if (text[at++] == '\n')
            return at == count;
    }
    return false;
}

static bool is_blank(char c) { return c == ' ' || c == '\t' || c == '\r'; }

/* Three numbers below 2^32 and nothing behind them; no word at all; anything else. */
enum line line_of(const char *line, size_t count, uint64_t request[3]) {
    size_t at = 0;
    for (int word = 0; word < 4; word++) {
        while (at < count && is_blank(line[at]))
            at++;
        size_t from = at;
        while (at < count && !is_blank(line[at]))
            at++;
        if (at == from)
            return word == 0 ? A_BLANK : word == 3 ? A_REQUEST : ANOTHER;
        if (word == 3 || !number_in(line + from, at - from, &request[word]))
            return ANOTHER;
    }
    return ANOTHER;
}

static bool is_digit(char c) { return c >= '0' && c <= '9'; }

/* A decimal of at most 15 digits, zeros in front apart, scaled by a power of ten from -22 to 22; the nearest float. */
bool decimal_in(const char *text, double *value) {
    const char *at = text + (*text == '-');
    uint64_t digits = 0;
    long places = 0, power = 0;
    if (!is_digit(*at))
        return false;
    for (bool behind = false; is_digit(*at) || (*at == '.' && !behind && is_digit(at[1])); at++) {
        if (*at == '.') {
            behind = true;
            continue;
        }
        digits = 10 * digits + (uint64_t)(*at - '0');
        if (digits >= 1000000000000000u)
            return false;
        places += behind;
    }
    if (*at == 'e' || *at == 'E') {
        bool down = *++at == '-';
        at += *at == '-' || *at == '+';
        if (!is_digit(*at))
            return false;
        power = *at++ - '0';
        if (is_digit(*at))
            power = 10 * power + (*at++ - '0');
        if (down && (places > 22 || power > 22))
            return false;
        power = down ? -power : power;
    }
    if (*at != 0 || power - places > 22 || power - places < -22)
        return false;
    *value = strtod(text, NULL);
    return true;
}

const char *meaning(uint32_t question) {
    switch (question) {
    case 2: return "a viewer's block has more than 256 darts";
    case 3: return "the file is cut off, too long, or has a number out of range";
    case 4: return "a coordinate is not finite";
    case 5: return "next or opposite links are wrong";
    case 6: return "third links are wrong, or a face has two kinds of them";
    case 7: return "a label occurs twice, names this block, or is not below the counter";
    case 8: return "points that should agree differ";
    case 9: return "the destination is the block itself, or above 15";
    case 10: return "the block does not hold this serial";
    case 11: return "the cell has more than 512 darts, or more than 64 and an end is a viewer's";
    case 12: return "the cell is sewn to itself";
    case 13: return "two edges of the cell join the same two corners, or an edge ends where it starts";
    case 14: return "the block's counter is at its end";
    case 21: return "the destination would have more than 4096 darts, or as a viewer's more than 256";
    case 23: return "a block's number is not that of its file";
    case 24: return "a serial occurs in two blocks";
    case 25: return "a label is not paired between the two blocks that it joins";
    case 26: return "points differ across two blocks";
    case 27: return "a label's maker is not here, or its number is not below the maker's counter";
    case 28: return "the oracle's numbers are wrong: low above high, or an axis other than 0 to 2";
    case 29: return "the cell has more than 64 darts, and the destination is a viewer's";
    default: return "the basin has no such block";
    }
}

const char *cause(int error) {
    switch (error) {
    case EACCES: return "no permission";
    case ENOSPC: return "the disk is full";
    case EISDIR: return "it is a folder";
    case ESPIPE: return "it is a pipe";
    case EBADF: return "it is closed";
    case EROFS: return "the disk cannot be written";
    case EIO: return "the disk failed";
    case ENOENT: return "it is missing";
    case ESRCH: return "/proc does not tell of this process";
    case EFBIG: return "it is too large";
    case EBADMSG: return "a message was altered on the way";
    default: return "the system refused it";
    }
}
