/* A round from C, with relatives: a cell of a basin goes from one block to another, and the blocks that it has faces with are told.
 * round FROM TO SERIAL FILE..: the files are those of blocks 0, 1 and so on. */
#include "dmap.h"

#include <stdio.h>
#include <stdlib.h>

static uint64_t mesh[16 * DMAP_WORDS], scratch[DMAP_SCRATCH];
static uint8_t file[DMAP_FILE], outbox[DMAP_OUTBOX];

static uint64_t *block(uint64_t number) { return mesh + number * DMAP_WORDS; }

/* Ends the program where a call is refused. */
static void served(const char *call, uint32_t answer) {
    if (answer != DMAP_SERVED) {
        printf("%s: refused by %u: %s\n", call, (unsigned)answer, dmap_words(answer));
        exit(1);
    }
}

static void read_block(uint64_t number, const char *name) {
    FILE *in = fopen(name, "rb");
    if (in == NULL) {
        perror(name);
        exit(2);
    }
    size_t bytes = fread(file, 1, sizeof file, in);
    fclose(in);
    served(name, dmap_read_file(file, bytes, block(number), DMAP_WORDS));
}

int main(int argc, char **argv) {
    if (argc < 5 || argc > 20) {
        fputs("usage: round FROM TO SERIAL FILE..\n", stderr);
        return 2;
    }
    uint64_t from = strtoull(argv[1], NULL, 10), to = strtoull(argv[2], NULL, 10), serial = strtoull(argv[3], NULL, 10);
    uint64_t blocks = (uint64_t)argc - 4;
    for (uint64_t b = 0; b < blocks; b++)
        read_block(b, argv[4 + b]);
    served("check mesh", dmap_check_mesh(mesh, blocks * DMAP_WORDS, 0, scratch, DMAP_SCRATCH));
    if (from >= blocks || to >= blocks) {
        puts("no such block");
        return 1;
    }

    uint64_t written = 0;
    served("send", dmap_send(block(from), DMAP_WORDS, to, serial, outbox, sizeof outbox, &written));
    /* The first message is the transfer; the block that it goes to takes it before anything else changes. */
    size_t at = dmap_message_size(outbox, written);
    printf("transfer to block %u: %zu bytes\n", (unsigned)dmap_message_to(outbox, at), at);
    served("receive", dmap_receive(block(to), DMAP_WORDS, outbox, at));
    /* Then, in any order: the sender lets the cell go, and each relative is told who has it now. */
    while (at < written) {
        size_t size = dmap_message_size(outbox + at, written - at);
        uint64_t relative = dmap_message_to(outbox + at, size);
        printf("update to block %u: %zu bytes\n", (unsigned)relative, size);
        served("redirect", dmap_redirect(block(relative), DMAP_WORDS, outbox + at, size));
        at += size;
    }
    served("release", dmap_release(block(from), DMAP_WORDS, to, serial));
    served("check mesh", dmap_check_mesh(mesh, blocks * DMAP_WORDS, 0, scratch, DMAP_SCRATCH));
    for (uint64_t b = 0; b < blocks; b++)
        printf("block %u has %u darts\n", (unsigned)b, (unsigned)block(b)[2]);
    return 0;
}
