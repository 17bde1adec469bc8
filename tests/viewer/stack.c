/* The stack that each of a viewer's calls touches, on full blocks of 256 darts with volumes of 64 and on hostile input. Each call runs on a painted stack
 * of its own, with a page in front of it that nobody may touch. Prints a line for each call; ends with 1 where one needs more than 65,536 bytes. */
#define _GNU_SOURCE
#include "dmap.h"

#include <stdio.h>
#include <stdlib.h>
#include <string.h>
#include <sys/mman.h>
#include <ucontext.h>

enum { MOST = 65536, STACK = 1 << 20, PAGE = 4096, PAINT = 0xa5, CELL = 64, DARTS = 256, ANSWERS = 31 };

/* A CALL ON A STACK OF ITS OWN */

enum call { EMPTY, READ_FILE, SAVE_FILE, WRITE_PAGES, READ_PAGES, SEND, RECEIVE, RELEASE, REDIRECT, CALLS };
static const char *const names[CALLS] = {"viewer_empty", "viewer_read_file", "viewer_save_file", "viewer_write_pages", "viewer_read_pages", "viewer_send", "viewer_receive", "viewer_release", "viewer_redirect"};

static struct {
    enum call call;
    uint64_t *block, to, serial, written;
    size_t words, count;
    uint8_t *bytes;
    uint32_t answer;
} lent;

static ucontext_t here, there;
static uint8_t *stack;
static struct { size_t most; unsigned long calls, answers[ANSWERS]; } touched[CALLS];

static void make_call(void) {
    uint64_t *b = lent.block;
    size_t w = lent.words, n = lent.count;
    switch (lent.call) {
    case EMPTY: lent.answer = dmap_viewer_empty(lent.to, b, w); break;
    case READ_FILE: lent.answer = dmap_viewer_read_file(lent.bytes, n, b, w); break;
    case SAVE_FILE: lent.answer = dmap_viewer_save_file(b, w, lent.bytes, n, &lent.written); break;
    case WRITE_PAGES: lent.answer = dmap_viewer_write_pages(b, w, lent.bytes, n, &lent.written); break;
    case READ_PAGES: lent.answer = dmap_viewer_read_pages(lent.bytes, n, b, w); break;
    case SEND: lent.answer = dmap_viewer_send(b, w, lent.to, lent.serial, lent.bytes, n, &lent.written); break;
    case RECEIVE: lent.answer = dmap_viewer_receive(b, w, lent.bytes, n); break;
    case RELEASE: lent.answer = dmap_viewer_release(b, w, lent.to, lent.serial); break;
    default: lent.answer = dmap_viewer_redirect(b, w, lent.bytes, n); break;
    }
}

/* The stack is painted for calls of one name in a row, and looked at behind the last of them. */
static enum call painted = CALLS;

static void look(void) {
    size_t first = 0;
    while (first < STACK && stack[first] == PAINT)
        first++;
    if (painted < CALLS && touched[painted].most < STACK - first)
        touched[painted].most = STACK - first;
}

static uint32_t measure(void) {
    if (lent.call != painted) {
        look();
        memset(stack, PAINT, STACK);
        painted = lent.call;
    }
    getcontext(&there);
    there.uc_stack.ss_sp = stack;
    there.uc_stack.ss_size = STACK;
    there.uc_link = &here;
    makecontext(&there, make_call, 0);
    swapcontext(&here, &there);
    touched[lent.call].calls++;
    if (lent.answer >= ANSWERS) {
        printf("%s gives %u\n", names[lent.call], (unsigned)lent.answer);
        exit(1);
    }
    touched[lent.call].answers[lent.answer]++;
    return lent.answer;
}

/* A call on a copy of memory, with bytes that are lent for reading. */
static uint64_t work[DMAP_WORDS];

static uint32_t on(enum call call, const uint64_t *block, size_t words, const uint8_t *bytes, size_t count, uint64_t to, uint64_t serial) {
    static uint8_t room[DMAP_OUTBOX];
    memcpy(work, block, 8 * words);
    if (bytes != NULL)
        memcpy(room, bytes, count);
    lent.call = call, lent.block = work, lent.words = words, lent.bytes = room, lent.count = count, lent.to = to, lent.serial = serial;
    return measure();
}

static void expect(const char *what, uint32_t answer, uint32_t wanted) {
    if (answer != wanted) {
        printf("%s: answer %u, not %u\n", what, (unsigned)answer, (unsigned)wanted);
        exit(1);
    }
}

/* BLOCKS: tori of squares, all points in one, so that any face may be sewn to any. Serials are first, first + 1 and so on. */

static void put_dart(uint64_t *block, uint64_t p, uint64_t serial, uint64_t next, uint64_t opposite) {
    uint64_t *d = block + 8 + 8 * p;
    d[0] = serial, d[1] = next, d[2] = opposite, d[3] = 0, d[4] = 0;
    d[5] = d[6] = d[7] = 0x3ff8000000000000;
}

static uint64_t square(uint64_t m, uint64_t n, uint64_t a, uint64_t b) { return 4 * ((a % m) * n + b % n); }

/* m x n squares behind the darts that the block has. */
static void add_torus(uint64_t *block, uint64_t first, uint64_t m, uint64_t n) {
    uint64_t held = block[2];
    for (uint64_t a = 0; a < m; a++)
        for (uint64_t b = 0; b < n; b++) {
            uint64_t s = square(m, n, a, b);
            uint64_t across[4] = {square(m, n, a, b + n - 1) + 2, square(m, n, a + 1, b) + 3, square(m, n, a, b + 1), square(m, n, a + m - 1, b) + 1};
            for (uint64_t side = 0; side < 4; side++)
                put_dart(block, held + s + side, first + s + side, held + s + (side + 1) % 4, held + across[side]);
        }
    block[2] += 4 * m * n;
}

static void make_sewn(uint64_t *block, uint64_t one, uint64_t other) {
    for (uint64_t side = 0; side < 4; side++) {
        uint64_t d = one + side, e = other + (4 - side) % 4;
        block[8 + 8 * d + 3] = block[8 + 8 * e + 3] = 1;
        block[8 + 8 * d + 4] = e, block[8 + 8 * e + 4] = d;
    }
}

static void make_critical(uint64_t *block, uint64_t face, uint64_t other, uint64_t maker, uint64_t number, int turned) {
    for (uint64_t side = 0; side < 4; side++) {
        uint64_t *d = block + 8 + 8 * (face + side);
        d[3] = 2 + 4 * other;
        d[4] = (maker << 32 | number) << 12 | (turned ? (4 - side) % 4 : side);
    }
}

enum faces { FREE, SEWN, CRITICAL, MIXED };

/* Volumes of 64 darts in block 2: free; sewn to each other in pairs, face by face; critical with blocks 0, 1, 3; some of each. */
static void fill(uint64_t *block, uint64_t volumes, enum faces faces) {
    memset(block, 0, 8 * DMAP_VIEWER_WORDS);
    block[0] = 2, block[1] = 4000000000u;
    for (uint64_t v = 0; v < volumes; v++)
        add_torus(block, 1 + CELL * v, 4, 4);
    for (uint64_t face = 0; face < 16 * volumes; face++) {
        uint64_t of = face % 16, pair = face / 16 % 2;
        int sewn = faces == SEWN || (faces == MIXED && of % 2 == 0);
        if (sewn && pair == 0 && face + 16 < 16 * volumes)
            make_sewn(block, 4 * face, 4 * (face + 16));
        else if (faces == CRITICAL || (faces == MIXED && of % 4 == 1))
            make_critical(block, 4 * face, (uint64_t[]){0, 1, 3}[face % 3], 5, 3000000000u + 7919 * face, 0);
    }
}

/* HOSTILE INPUT */

static uint64_t seed = 1;

static uint64_t any(void) {
    seed ^= seed << 13, seed ^= seed >> 7, seed ^= seed << 17;
    return seed;
}

/* Every byte altered in turn, bytes cut off at every length, and bytes at random; what comes first is as it is. */
static void with_altered(enum call call, const uint64_t *block, const uint8_t *bytes, size_t count) {
    static uint8_t other[DMAP_OUTBOX];
    for (size_t at = 0; at < count; at++) {
        memcpy(other, bytes, count);
        other[at] ^= (uint8_t)(1u << any() % 8);
        on(call, block, DMAP_VIEWER_WORDS, other, count, 0, 0);
        other[at] = (uint8_t)any();
        on(call, block, DMAP_VIEWER_WORDS, other, count, 0, 0);
        on(call, block, DMAP_VIEWER_WORDS, bytes, at, 0, 0);
    }
    for (size_t turn = 0; turn < 200; turn++) {
        size_t n = any() % 300;
        for (size_t i = 0; i < n; i++)
            other[i] = (uint8_t)any();
        on(call, block, DMAP_VIEWER_WORDS, other, n, 0, 0);
    }
}

/* Every word of memory altered in turn: a call that puts question 2. */
static void with_words(enum call call, const uint64_t *block, const uint8_t *bytes, size_t count, uint64_t to, uint64_t serial) {
    static uint64_t other[DMAP_VIEWER_WORDS];
    for (size_t at = 0; at < DMAP_VIEWER_WORDS; at += 1 + any() % 3) {
        memcpy(other, block, sizeof other);
        other[at] = any() % 2 ? other[at] ^ (uint64_t)1 << any() % 64 : any() >> any() % 64;
        on(call, other, DMAP_VIEWER_WORDS, bytes, count, to, serial);
    }
}

/* Memory of other sizes. */
static void with_sizes(enum call call, const uint64_t *block) {
    static uint64_t other[DMAP_WORDS];
    memcpy(other, block, 8 * DMAP_VIEWER_WORDS);
    for (size_t i = 0; i < 4; i++)
        expect("memory of another size", on(call, other, (size_t[]){0, 8, DMAP_VIEWER_WORDS - 1, DMAP_WORDS}[i], NULL, 0, 0, 0), 1);
}

/* THE CALLS */

static uint64_t block[DMAP_VIEWER_WORDS], rack[DMAP_WORDS];
static uint8_t bytes[DMAP_OUTBOX], sent[DMAP_OUTBOX];

static uint8_t *whole_file(const uint64_t *of, size_t *count) {
    uint64_t written = 0;
    expect("a file", dmap_viewer_save_file(of, DMAP_VIEWER_WORDS, bytes, sizeof bytes, &written), 0);
    *count = (size_t)written;
    return bytes;
}

static void files(enum faces faces) {
    size_t count;
    fill(block, 4, faces);
    expect("save file", on(SAVE_FILE, block, DMAP_VIEWER_WORDS, NULL, DMAP_VIEWER_FILE, 0, 0), 0);
    expect("save file into too little", on(SAVE_FILE, block, DMAP_VIEWER_WORDS, NULL, 100, 0, 0), 15);
    with_words(SAVE_FILE, block, NULL, DMAP_VIEWER_FILE, 0, 0);
    whole_file(block, &count);
    expect("read file", on(READ_FILE, block, DMAP_VIEWER_WORDS, bytes, count, 0, 0), 0);
    with_altered(READ_FILE, block, bytes, count);
    expect("empty", on(EMPTY, block, DMAP_VIEWER_WORDS, NULL, 0, 15, 0), 0);
    expect("empty 16", on(EMPTY, block, DMAP_VIEWER_WORDS, NULL, 0, 16, 0), 9);
    with_sizes(EMPTY, block), with_sizes(READ_FILE, block), with_sizes(SAVE_FILE, block);
}

/* Pages of a full block, bytes altered here and there, and cut off. */
static void wall(enum faces faces) {
    static uint8_t other[DMAP_OUTBOX];
    uint64_t written = 0;
    fill(block, 4, faces);
    expect("write pages", on(WRITE_PAGES, block, DMAP_VIEWER_WORDS, NULL, DMAP_VIEWER_PAGES, 0, 0), 0);
    expect("write pages into too little", on(WRITE_PAGES, block, DMAP_VIEWER_WORDS, NULL, DMAP_VIEWER_PAGES - 1, 0, 0), 30);
    with_words(WRITE_PAGES, block, NULL, DMAP_VIEWER_PAGES, 0, 0);
    expect("pages", dmap_viewer_write_pages(block, DMAP_VIEWER_WORDS, bytes, sizeof bytes, &written), 0);
    size_t count = (size_t)written;
    expect("read pages", on(READ_PAGES, block, DMAP_VIEWER_WORDS, bytes, count, 0, 0), 0);
    for (size_t at = 0; at < count; at += 1 + any() % 7) {
        memcpy(other, bytes, count);
        other[at] = any() % 2 ? (uint8_t)any() : (uint8_t)('0' + any() % 10);
        on(READ_PAGES, block, DMAP_VIEWER_WORDS, other, count, 0, 0);
        other[at] = bytes[at] ^ (uint8_t)(1u << any() % 8);
        on(READ_PAGES, block, DMAP_VIEWER_WORDS, other, count, 0, 0);
        on(READ_PAGES, block, DMAP_VIEWER_WORDS, bytes, at, 0, 0);
    }
    for (size_t page = 0; page < count / DMAP_PAGE_BYTES; page++)
        expect("some pages", on(READ_PAGES, block, DMAP_VIEWER_WORDS, bytes, page * DMAP_PAGE_BYTES, 0, 0), 3);
    /* The last dart's line again on the last line; then on neither. */
    uint8_t *last = other + (DARTS - 1) / 59 * DMAP_PAGE_BYTES + (1 + (DARTS - 1) % 59) * 81;
    memcpy(other, bytes, count);
    memcpy(other + count - 81, last, 81);
    expect("a dart behind blank lines", on(READ_PAGES, block, DMAP_VIEWER_WORDS, other, count, 0, 0), 3);
    memset(other + count - 81, ' ', 80), memset(last, ' ', 80);
    expect("a dart less", on(READ_PAGES, block, DMAP_VIEWER_WORDS, other, count, 0, 0), 5);
    with_sizes(WRITE_PAGES, block), with_sizes(READ_PAGES, block);
}

static void departures(enum faces faces) {
    fill(block, 4, faces);
    for (int e = 0; e < 2; e++) {
        enum call call = e == 0 ? SEND : RELEASE;
        for (uint64_t serial = 1; serial <= DARTS; serial += 21)
            expect("a volume of 64 darts", on(call, block, DMAP_VIEWER_WORDS, NULL, sizeof bytes, serial % 2, serial), 0);
        expect("to itself", on(call, block, DMAP_VIEWER_WORDS, NULL, sizeof bytes, 2, 1), 9);
        expect("no such serial", on(call, block, DMAP_VIEWER_WORDS, NULL, sizeof bytes, 1, 999), 10);
        with_words(call, block, NULL, sizeof bytes, 1, 65);
        with_sizes(call, block);
    }
    expect("an outbox too short", on(SEND, block, DMAP_VIEWER_WORDS, NULL, 300, 1, 1), 15);
    /* The counter at its end, where faces are sewn. */
    block[1] = UINT32_MAX;
    uint32_t no = faces == SEWN || faces == MIXED ? 14 : 0;
    expect("the counter", on(SEND, block, DMAP_VIEWER_WORDS, NULL, sizeof bytes, 1, 1), no);
    expect("the counter", on(RELEASE, block, DMAP_VIEWER_WORDS, NULL, sizeof bytes, 1, 1), no);
}

/* One volume of 256 darts; one of 64 sewn within; a narrow torus. */
static void departures_refused(void) {
    static const struct { uint64_t m, n; int sewn; uint32_t no; } cells[] = {{8, 8, 0, 11}, {4, 4, 1, 12}, {2, 8, 0, 13}};
    for (size_t i = 0; i < sizeof cells / sizeof cells[0]; i++) {
        memset(block, 0, sizeof block);
        block[0] = 2;
        add_torus(block, 1, cells[i].m, cells[i].n);
        if (cells[i].sewn)
            make_sewn(block, 0, 4);
        expect("a volume that stays", on(SEND, block, DMAP_VIEWER_WORDS, NULL, sizeof bytes, 1, 5), cells[i].no);
        expect("a volume that stays", on(RELEASE, block, DMAP_VIEWER_WORDS, NULL, sizeof bytes, 1, 5), cells[i].no);
    }
}

/* From block 0 of the rack a torus of m x n squares, serials from 1001 on, the first `shared` faces critical with block 2, others sewn to a neighbour. */
static size_t transfer(uint64_t m, uint64_t n, uint64_t shared) {
    uint64_t written = 0;
    memset(rack, 0, sizeof rack);
    rack[1] = 9000;
    add_torus(rack, 1001, m, n);
    add_torus(rack, 5001, m, n);
    for (uint64_t face = 0; face < m * n; face++)
        if (face < shared)
            make_critical(rack, 4 * face, 2, 0, face, 1);
        else if (face % 3 == 0)
            make_sewn(rack, 4 * face, 4 * (m * n + face));
        else if (face % 3 == 1)
            make_critical(rack, 4 * face, 3, 9, face, 0);
    expect("a transfer", dmap_send(rack, DMAP_WORDS, 2, 1001, sent, sizeof sent, &written), 0);
    return dmap_message_size(sent, (size_t)written);
}

static void arrivals(enum faces faces) {
    /* The faces of the first volume here are shared with the one that comes. */
    uint64_t shared = faces == FREE || faces == CRITICAL ? 16 : 4;
    fill(block, 3, faces);
    for (uint64_t face = 0; face < shared; face++) {
        uint64_t *d = block + 8 + 8 * 4 * face;
        if (d[3] == 1)
            for (uint64_t side = 0; side < 4; side++)
                block[8 + 8 * d[4 + 8 * side] + 3] = block[8 + 8 * d[4 + 8 * side] + 4] = 0;
        make_critical(block, 4 * face, 0, 0, face, 0);
    }
    size_t count = transfer(4, 4, shared);
    expect("a transfer of 64 darts", on(RECEIVE, block, DMAP_VIEWER_WORDS, sent, count, 0, 0), 0);
    with_altered(RECEIVE, block, sent, count);
    with_words(RECEIVE, block, sent, count, 0, 0);
    with_sizes(RECEIVE, block);
    fill(block, 4, faces);
    count = transfer(4, 4, 0);
    expect("no room", on(RECEIVE, block, DMAP_VIEWER_WORDS, sent, count, 0, 0), 21);
    count = transfer(8, 16, 0);
    expect("512 darts", on(RECEIVE, block, DMAP_VIEWER_WORDS, sent, count, 0, 0), 29);
    expect("512 darts told", on(REDIRECT, block, DMAP_VIEWER_WORDS, sent, count, 0, 0), 17);
    with_altered(RECEIVE, block, sent, count);
    with_altered(REDIRECT, block, sent, count);
}

/* An update that names every face shared with block 1, from the messages of a volume with sixteen such faces in block 0. */
static void updates(void) {
    uint64_t written = 0;
    memset(rack, 0, sizeof rack);
    rack[1] = 100;
    add_torus(rack, 1, 8, 16);
    memset(block, 0, sizeof block);
    block[0] = 2;
    for (uint64_t v = 0; v < 4; v++)
        add_torus(block, 1001 + CELL * v, 4, 4);
    for (uint64_t face = 0; face < CELL; face++) {
        make_critical(rack, 4 * face, 2, 0, face, 0);
        make_critical(block, 4 * face, 0, 0, face, 1);
    }
    expect("an update", dmap_send(rack, DMAP_WORDS, 1, 1, sent, sizeof sent, &written), 0);
    size_t at = dmap_message_size(sent, (size_t)written), count = dmap_message_size(sent + at, (size_t)written - at);
    expect("64 faces", on(REDIRECT, block, DMAP_VIEWER_WORDS, sent + at, count, 0, 0), 0);
    with_altered(REDIRECT, block, sent + at, count);
    with_words(REDIRECT, block, sent + at, count, 0, 0);
    with_sizes(REDIRECT, block);
}

int main(void) {
    int status = 0;
    uint8_t *memory = mmap(NULL, STACK + PAGE, PROT_READ | PROT_WRITE, MAP_PRIVATE | MAP_ANONYMOUS, -1, 0);
    if (memory == MAP_FAILED || mprotect(memory, PAGE, PROT_NONE) != 0) {
        perror("a stack");
        return 1;
    }
    stack = memory + PAGE;
    for (enum faces faces = FREE; faces <= MIXED; faces++)
        files(faces), departures(faces), arrivals(faces);
    departures_refused();
    updates();
    look();
    /* Last, since all draw from one row of numbers. */
    for (enum faces faces = FREE; faces <= MIXED; faces++)
        wall(faces);
    for (enum call call = EMPTY; call < CALLS; call++) {
        printf("%-18s %6zu bytes of stack at most, %lu calls, answers", names[call], touched[call].most, touched[call].calls);
        for (int no = 0; no < ANSWERS; no++)
            if (touched[call].answers[no] > 0)
                printf(" %d", no);
        putchar('\n');
        if (touched[call].most > MOST) {
            printf("%s needs more than %d bytes of stack\n", names[call], MOST);
            status = 1;
        }
    }
    return status;
}
