/* grid K N FOLDER: a basin of K blocks, each 2 x 6 x 14 cubes (4,032 darts), side by side along x; its files go to the folder, and N requests to
 * standard output: a cube beside another block goes to some block and comes back. */
#include "dmap.h"

#include <stdio.h>
#include <stdlib.h>
#include <string.h>

enum { X = 2, Y = 6, Z = 14, CUBES = X * Y * Z, DARTS = 24 * CUBES };

/* The corners of each face, so that every edge is walked once each way: bit 0 is x, bit 1 is y, bit 2 is z. */
static const int face[6][4] = {{0, 4, 6, 2}, {1, 3, 7, 5}, {0, 1, 5, 4}, {2, 6, 7, 3}, {0, 2, 3, 1}, {4, 5, 7, 6}};

static uint64_t block[DMAP_WORDS];
static uint8_t file[DMAP_FILE];

/* The dart of a cube that goes from one corner to another. */
static int dart_of(int a, int b) {
    for (int d = 0; d < 24; d++)
        if (face[d / 4][d % 4] == a && face[d / 4][(d + 1) % 4] == b)
            return d;
    abort();
}

static uint64_t cube_at(int x, int y, int z) { return (uint64_t)((x * Y + y) * Z + z); }

/* Block b of k: words of each dart of each cube. */
static void fill(uint64_t b, uint64_t k) {
    memset(block, 0, sizeof block);
    block[0] = b, block[1] = b + 1 < k ? Y * Z : 0, block[2] = DARTS;
    for (int x = 0; x < X; x++)
        for (int y = 0; y < Y; y++)
            for (int z = 0; z < Z; z++)
                for (int d = 0; d < 24; d++) {
                    uint64_t cube = cube_at(x, y, z), *w = block + 8 + 8 * (24 * cube + (uint64_t)d);
                    int f = d / 4, axis = f / 2, a = face[f][d % 4], e = face[f][(d + 1) % 4];
                    w[0] = b * DARTS + 24 * cube + (uint64_t)d + 1;
                    w[1] = 24 * cube + (uint64_t)(4 * f + (d + 1) % 4);
                    w[2] = 24 * cube + (uint64_t)dart_of(e, a);
                    /* The dart of the next cube that runs the other way, corners seen from there. */
                    int n[3] = {x, y, z}, far = f % 2;
                    uint64_t other = (uint64_t)dart_of(e ^ 1 << axis, a ^ 1 << axis);
                    n[axis] += far ? 1 : -1;
                    if (n[1] < 0 || n[1] >= Y || n[2] < 0 || n[2] >= Z || (b == 0 && n[0] < 0) || (b + 1 == k && n[0] >= X))
                        w[3] = 0;
                    else if (n[0] >= 0 && n[0] < X)
                        w[3] = 1, w[4] = 24 * cube_at(n[0], n[1], n[2]) + other;
                    else {
                        /* The lower block made the label: the place in its face counts. */
                        uint64_t maker = far ? b : b - 1, place = far ? (uint64_t)(d % 4) : other % 4;
                        w[3] = 2 + 4 * (far ? b + 1 : b - 1);
                        w[4] = ((maker << 32) + (uint64_t)(y * Z + z)) * 4096 + place;
                    }
                    double p[3] = {(double)(x + (a & 1)) + (double)b * X, (double)(y + (a >> 1 & 1)), (double)(z + (a >> 2 & 1))};
                    memcpy(w + 5, p, sizeof p);
                }
}

int main(int argc, char **argv) {
    if (argc != 4)
        return 2;
    uint64_t k = strtoull(argv[1], NULL, 10), written;
    for (uint64_t b = 0; b < k; b++) {
        char name[4096];
        fill(b, k);
        uint32_t no = dmap_save_file(block, DMAP_WORDS, file, sizeof file, &written);
        if (no != DMAP_SERVED) {
            fprintf(stderr, "block %u: refused by %u: %s\n", (unsigned)b, (unsigned)no, dmap_words(no));
            return 1;
        }
        snprintf(name, sizeof name, "%s/block-%02u.dmap", argv[3], (unsigned)b);
        FILE *out = fopen(name, "wb");
        if (out == NULL || fwrite(file, 1, written, out) != written || fclose(out) != 0) {
            perror(name);
            return 2;
        }
    }
    srand(1);
    for (long i = 0; i < strtol(argv[2], NULL, 10) / 2; i++) {
        uint64_t b = (uint64_t)rand() % k, to = (b + 1 + (uint64_t)rand() % (k - 1)) % k;
        uint64_t serial = b * DARTS + 24 * cube_at(b + 1 < k ? X - 1 : 0, rand() % Y, rand() % Z) + 1;
        printf("%u %u %u\n%u %u %u\n", (unsigned)b, (unsigned)to, (unsigned)serial, (unsigned)to, (unsigned)b, (unsigned)serial);
    }
    return 0;
}
