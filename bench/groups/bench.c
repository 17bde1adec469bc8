// The readers and writers beside plain loops, as ratios of times in one run: build and run with run.sh.
#include <stdint.h>
#include <stdio.h>
#include <stdlib.h>
#include <time.h>

uint64_t bench_read(const uint8_t *, size_t);
size_t bench_put(uint8_t *, size_t, const uint32_t *, size_t);
size_t bench_count(const uint32_t *, size_t);
uint64_t bench_read_coordinates(const uint8_t *, size_t);
uint64_t bench_put_coordinates(uint8_t *, size_t, uint64_t);
uint64_t bench_read_labels(const uint8_t *, size_t);

// A number at p, at most five groups, shortest form, below 2^32: the bytes taken, 0 where none stands there.
static inline size_t plain_get(const uint8_t *p, size_t n, uint64_t *v) {
    uint64_t x = 0;
    if (n && *p < 128) {
        *v = *p;
        return 1;
    }
    for (size_t i = 0; i < n && i < 5; i++) {
        uint64_t b = p[i];
        x |= (b & 127) << (7 * i);
        if (b < 128) {
            if ((i > 0 && b == 0) || x >> 32) return 0;
            *v = x;
            return i + 1;
        }
    }
    return 0;
}

__attribute__((noinline)) static uint64_t plain_read(const uint8_t *p, size_t n) {
    uint64_t sum = 0, v;
    for (size_t at = 0; at < n;) {
        size_t k = plain_get(p + at, n - at, &v);
        if (!k) return sum;
        sum += v;
        at += k;
    }
    return sum;
}

__attribute__((noinline)) static uint64_t plain_read_labels(const uint8_t *p, size_t n) {
    uint64_t sum = 0, m, v, q;
    for (size_t at = 0; at < n;) {
        size_t k = plain_get(p + at, n - at, &m);
        if (!k || m > 15) return sum;
        at += k;
        k = plain_get(p + at, n - at, &v);
        if (!k) return sum;
        at += k;
        k = plain_get(p + at, n - at, &q);
        if (!k || q > 4095) return sum;
        at += k;
        sum += (m << 32 | v) << 12 | q;
    }
    return sum;
}

__attribute__((noinline)) static size_t plain_put(uint8_t *p, size_t n, const uint32_t *vs, size_t count) {
    size_t at = 0;
    for (size_t i = 0; i < count; i++) {
        if (n < 5 || n - 5 < at) return at;
        uint32_t v = vs[i];
        while (v >= 128) {
            p[at++] = (uint8_t)(v | 128);
            v >>= 7;
        }
        p[at++] = (uint8_t)v;
    }
    return at;
}

__attribute__((noinline)) static size_t plain_count(const uint32_t *vs, size_t count) {
    size_t sum = 0;
    for (size_t i = 0; i < count; i++) {
        uint32_t v = vs[i];
        sum++;
        while (v >= 128) {
            sum++;
            v >>= 7;
        }
    }
    return sum;
}

__attribute__((noinline)) static uint64_t plain_read_coordinates(const uint8_t *p, size_t n) {
    uint64_t sum = 0;
    for (size_t at = 0; at + 8 <= n; at += 8) {
        uint64_t x = 0;
        for (int i = 0; i < 8; i++) x |= (uint64_t)p[at + i] << (8 * i);
        sum += x;
    }
    return sum;
}

__attribute__((noinline)) static uint64_t plain_put_coordinates(uint8_t *p, size_t n, uint64_t x) {
    for (size_t at = 0; at + 8 <= n; at += 8) {
        for (int i = 0; i < 8; i++) p[at + i] = (uint8_t)(x >> (8 * i));
        x += 88172645463325252u;
    }
    return x;
}

enum { N = 1 << 14, RUNS = 400 };
static uint32_t vs[N];
static uint8_t bytes[N * 8], other[N * 8];
static volatile uint64_t sink;

static double now(void) {
    struct timespec t;
    clock_gettime(CLOCK_MONOTONIC, &t);
    return t.tv_sec * 1e9 + t.tv_nsec;
}

// The least time of many runs, of one and the other in turn.
#define RATIO(name, proved, plain, per)                                                                       \
    do {                                                                                                      \
        double a = 1e18, b = 1e18;                                                                            \
        uint64_t x = 0, y = 0;                                                                                \
        for (int r = 0; r < RUNS; r++) {                                                                      \
            double t = now();                                                                                 \
            x = proved;                                                                                       \
            double u = now();                                                                                 \
            y = plain;                                                                                        \
            double v = now();                                                                                 \
            if (u - t < a) a = u - t;                                                                         \
            if (v - u < b) b = v - u;                                                                         \
        }                                                                                                     \
        sink = x;                                                                                             \
        printf("%-28s %6.2f ns, plain %6.2f ns, ratio %.2f%s\n", name, a / (per), b / (per), a / b, x == y ? "" : " DIFFER"); \
    } while (0)

static uint64_t seed = 88172645463325252u;
static uint64_t next(void) {
    seed ^= seed << 13;
    seed ^= seed >> 7;
    seed ^= seed << 17;
    return seed;
}

static void numbers(const char *name, int low, int high) {
    char line[64];
    for (int i = 0; i < N; i++) {
        int bits = low + (int)(next() % (uint64_t)(high - low + 1));
        vs[i] = bits ? (uint32_t)((1ull << (bits - 1)) | (next() & ((1ull << (bits - 1)) - 1))) : 0;
    }
    snprintf(line, sizeof line, "put %s", name);
    RATIO(line, bench_put(bytes, sizeof bytes, vs, N), plain_put(other, sizeof other, vs, N), N);
    size_t n = plain_put(bytes, sizeof bytes, vs, N);
    snprintf(line, sizeof line, "read %s", name);
    RATIO(line, bench_read(bytes, n), plain_read(bytes, n), N);
    snprintf(line, sizeof line, "count %s", name);
    RATIO(line, bench_count(vs, N), plain_count(vs, N), N);
}

int main(void) {
    numbers("one group", 0, 7);
    numbers("two groups", 8, 14);
    numbers("five groups", 29, 32);
    numbers("one to five groups", 0, 32);
    for (int i = 0; i < N; i++) vs[i] = (uint32_t)(i % 3 == 0 ? next() % 16 : i % 3 == 1 ? next() % 1000 : next() % 4096);
    size_t n = plain_put(bytes, sizeof bytes, vs, N - N % 3);
    RATIO("read labels", bench_read_labels(bytes, n), plain_read_labels(bytes, n), N / 3);
    RATIO("put coordinates", bench_put_coordinates(bytes, sizeof bytes, 1), plain_put_coordinates(other, sizeof other, 1), N);
    RATIO("read coordinates", bench_read_coordinates(bytes, sizeof bytes), plain_read_coordinates(bytes, sizeof bytes), N);
    return 0;
}
