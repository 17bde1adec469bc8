/* Figures of a block for a person, counted from the words of its memory (crate stats): nothing is decided by them. */
#include "rack.h"

#include <string.h>

enum { DARTS = 4096 };

static uint64_t field(const uint64_t *block, uint64_t p, int f) { return block[8 + 8 * p + f]; }

static bool reached[DARTS];
static uint32_t order[DARTS];

static size_t reach(uint64_t p, size_t tail) {
    if (reached[p])
        return tail;
    reached[p] = true;
    order[tail] = (uint32_t)p;
    return tail + 1;
}

/* The darts that links lead to from place p, behind the first `from` of the order: next and opposite, and where that is asked what is sewn. */
static size_t walk(const uint64_t *block, uint64_t p, bool third, size_t from) {
    size_t end = reach(p, from);
    for (size_t head = from; head < end; head++) {
        uint64_t q = order[head];
        end = reach(field(block, q, 1), end);
        end = reach(field(block, q, 2), end);
        if (third && field(block, q, 3) % 4 == 1)
            end = reach(field(block, q, 4), end);
    }
    return end;
}

static uint64_t groups(const uint64_t *block, bool third) {
    uint64_t n = 0;
    size_t end = 0;
    memset(reached, 0, sizeof reached);
    for (uint64_t p = 0; p < block[2]; p++)
        if (!reached[p]) {
            end = walk(block, p, third, end);
            n++;
        }
    return n;
}

struct figures figures_of(const uint64_t *block) {
    struct figures f = {block[2], groups(block, false), groups(block, true), 0, block[1]};
    memset(reached, 0, sizeof reached);
    for (uint64_t p = 0; p < block[2]; p++)
        if (!reached[p]) {
            for (uint64_t q = p; !reached[q]; q = field(block, q, 1))
                reached[q] = true;
            f.critical += field(block, p, 3) % 4 == 2;
        }
    return f;
}
