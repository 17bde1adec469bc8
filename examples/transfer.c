/* A round from C: P moves from block 0 to block 1, and the mesh is sound before and after. The argument is P's file. */
#include "dmap.h"

#include <stdio.h>

static uint64_t mesh[2 * DMAP_WORDS], scratch[DMAP_SCRATCH];
static uint8_t file[65536], outbox[DMAP_OUTBOX];

/* Prints a call's answer and gives it on. */
static uint32_t told(const char *call, uint32_t answer) {
    if (answer == DMAP_SERVED)
        printf("%s: served\n", call);
    else
        printf("%s: refused by %u\n", call, (unsigned)answer);
    return answer;
}

static void print_bytes(const uint8_t *bytes, uint64_t count) {
    for (uint64_t i = 0; i < count; i++)
        printf("%02x%s", bytes[i], i % 32 == 31 || i + 1 == count ? "\n" : " ");
}

int main(int argc, char **argv) {
    FILE *in = argc == 2 ? fopen(argv[1], "rb") : NULL;
    if (in == NULL) {
        fputs("usage: transfer FILE\n", stderr);
        return 1;
    }
    size_t bytes = fread(file, 1, sizeof file, in);
    fclose(in);

    uint64_t *from = mesh, *to = mesh + DMAP_WORDS;
    uint64_t written = 0;
    told("a file with a byte missing", dmap_read_file(file, bytes - 1, from, DMAP_WORDS));
    told("P's file", dmap_read_file(file, bytes, from, DMAP_WORDS));
    told("empty block 16", dmap_empty(16, to, DMAP_WORDS));
    told("empty block 1", dmap_empty(1, to, DMAP_WORDS));
    told("check mesh", dmap_check_mesh(mesh, 2 * DMAP_WORDS, 0, scratch, DMAP_SCRATCH));

    told("send P, 94 bytes of room", dmap_send(from, DMAP_WORDS, 1, 1, outbox, 94, &written));
    printf("nothing was written: %u bytes\n", (unsigned)written);
    if (told("send P to block 1", dmap_send(from, DMAP_WORDS, 1, 1, outbox, sizeof outbox, &written)) != DMAP_SERVED)
        return 1;
    printf("%u bytes for block 1:\n", (unsigned)written);
    print_bytes(outbox, written);

    /* P has no relatives: what was sent is the transfer alone. Block 1 takes it before block 0 lets the volume go. */
    told("receive half of it", dmap_receive(to, DMAP_WORDS, outbox, written / 2));
    if (told("receive P", dmap_receive(to, DMAP_WORDS, outbox, written)) != DMAP_SERVED)
        return 1;
    told("receive P again", dmap_receive(to, DMAP_WORDS, outbox, written));
    told("check mesh, P in both", dmap_check_mesh(mesh, 2 * DMAP_WORDS, 0, scratch, DMAP_SCRATCH));
    told("release P", dmap_release(from, DMAP_WORDS, 1, 1));
    told("check mesh", dmap_check_mesh(mesh, 2 * DMAP_WORDS, 0, scratch, DMAP_SCRATCH));
    printf("block 0 has %u darts, block 1 has %u\n", (unsigned)from[2], (unsigned)to[2]);
    if (told("save block 1", dmap_save_file(to, DMAP_WORDS, file, sizeof file, &written)) != DMAP_SERVED)
        return 1;
    printf("%u bytes:\n", (unsigned)written);
    print_bytes(file, written);
    return 0;
}
