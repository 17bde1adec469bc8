// Times of sort, distinct, lookup and empty beside plain C and C++: best quarter of many runs, each on other keys.
#include <algorithm>
#include <chrono>
#include <cstdint>
#include <cstdio>
#include <cstdlib>
#include <cstring>
#include <unordered_set>
#include <vector>
using namespace std;
typedef uint64_t u64;
extern "C" {
void x_sort(u64 *a, size_t n, u64 *s, size_t m);
bool x_distinct(u64 *a, size_t n, u64 *s, size_t m);
size_t x_place(const u64 *b, size_t words, size_t n, u64 serial);
uint32_t x_empty(u64 number, u64 *b, size_t words);
}
static u64 state = 88172645463325252ull;
static u64 rnd() { state ^= state << 13; state ^= state >> 7; return state ^= state << 17; }
static int by_value(const void *p, const void *q) { u64 a = *(const u64 *)p, b = *(const u64 *)q; return a < b ? -1 : a > b; }
template <class F> static double quarter(const vector<vector<u64>> &vs, F f) {
    vector<double> t; vector<u64> w;
    for (int r = 0; r < 8; r++) for (auto &v : vs) {
        w = v;
        auto c = chrono::steady_clock::now();
        f(w);
        t.push_back(chrono::duration<double, nano>(chrono::steady_clock::now() - c).count());
    }
    sort(t.begin(), t.end());
    return t[t.size() / 4];
}
// labels of faces of four darts, the faces in an order that is not theirs
static u64 face_key(size_t i, size_t n) { u64 f = (i / 4 * 2654435761u + n) % (n / 4 + 1); return ((f % 3) << 44) + (f << 12) + i % 4; }
static u64 key(int kind, size_t i, size_t n) {
    if (kind == 0) return rnd();
    if (kind == 1) return face_key(i, n);
    if (kind == 2) return i * 7 + 1;                                                // ascending
    return ((rnd() % 16) << 44) + ((rnd() % (1ull << 32)) << 12) + rnd() % 4096;     // labels of any number
}
int main() {
    const char *names[] = {"random", "face labels", "ascending", "any labels"};
    vector<u64> s(65536);
    for (size_t n : {4, 8, 16, 32, 64, 65, 128, 512, 4096, 65536}) for (int kind = 0; kind < 4; kind++) {
        vector<vector<u64>> vs(n > 5000 ? 5 : n < 100 ? 2000 : 100, vector<u64>(n));
        for (auto &v : vs) for (size_t i = 0; i < n; i++) v[i] = key(kind, i, n);
        for (auto &v : vs) { auto a = v, b = v; x_sort(a.data(), n, s.data(), n); sort(b.begin(), b.end()); if (a != b) { puts("WRONG"); return 1; }
            a = v; bool d = x_distinct(a.data(), n, s.data(), n); if (d != (adjacent_find(b.begin(), b.end()) == b.end())) { puts("WRONG distinct"); return 1; } }
        printf("%6zu %-11s: sort %9.0f  distinct %9.0f  std::sort %9.0f  qsort %9.0f  unordered_set %9.0f ns\n", n, names[kind],
            quarter(vs, [&](vector<u64> &w) { x_sort(w.data(), n, s.data(), n); }),
            quarter(vs, [&](vector<u64> &w) { volatile bool d = x_distinct(w.data(), n, s.data(), n); (void)d; }),
            quarter(vs, [&](vector<u64> &w) { sort(w.begin(), w.end()); }),
            quarter(vs, [&](vector<u64> &w) { qsort(w.data(), n, 8, by_value); }),
            quarter(vs, [&](vector<u64> &w) { unordered_set<u64> t(w.size() * 2); bool d = true; for (u64 x : w) d &= t.insert(x).second; volatile bool e = d; (void)e; }));
    }
    vector<u64> b(32776, 0), want(200000);
    b[2] = 4096;
    u64 at = 0; for (size_t p = 0; p < 4096; p++) { at += 1 + rnd() % 1000; b[8 + p * 8] = at; }
    for (auto &x : want) x = rnd() % 2 ? b[8 + rnd() % 4096 * 8] : rnd() % at;
    double best = 1e9, best2 = 1e9; u64 sum = 0, sum2 = 0;
    for (int r = 0; r < 20; r++) {
        auto c = chrono::steady_clock::now();
        for (u64 x : want) sum += x_place(b.data(), b.size(), 4096, x);
        best = min(best, chrono::duration<double, nano>(chrono::steady_clock::now() - c).count() / want.size());
        c = chrono::steady_clock::now();
        for (u64 x : want) { size_t lo = 0, hi = 4096, at = 4096; while (lo < hi) { size_t m = (lo + hi) / 2; u64 v = b[8 + m * 8]; if (v == x) { at = m; break; } if (v < x) lo = m + 1; else hi = m; } sum2 += at; }
        best2 = min(best2, chrono::duration<double, nano>(chrono::steady_clock::now() - c).count() / want.size());
    }
    printf("lookup in a full block: %.1f ns (plain C++ %.1f), %s\n", best, best2, sum == sum2 ? "same" : "WRONG");
    best = 1e9; best2 = 1e9;
    for (int r = 0; r < 200; r++) {
        auto c = chrono::steady_clock::now();
        if (x_empty(3, b.data(), b.size()) != 0) puts("WRONG");
        best = min(best, chrono::duration<double, nano>(chrono::steady_clock::now() - c).count());
        c = chrono::steady_clock::now();
        memset(b.data(), 0, b.size() * 8); asm volatile("" ::: "memory");
        best2 = min(best2, chrono::duration<double, nano>(chrono::steady_clock::now() - c).count());
    }
    printf("empty block: %.0f ns (memset %.0f)\n", best, best2);
}
