/* Packets between ranks. Beside each goes a checksum of its kind, its head and its bytes: one that was altered on the way is found. */
#include "rack.h"

#include <mpi.h>
#include <stdlib.h>
#include <string.h>
#include <time.h>
#include <unistd.h>

struct head { uint64_t sum, a, b, c; };

enum { ROOM = sizeof(struct head) + 8 * DMAP_WORDS };

static uint8_t sent[ROOM], taken[ROOM];

uint64_t nanoseconds(void) {
    struct timespec t;
    clock_gettime(CLOCK_MONOTONIC, &t);
    return (uint64_t)t.tv_sec * 1000000000u + (uint64_t)t.tv_nsec;
}

void pause_briefly(void) { nanosleep(&(struct timespec){0, 1000000}, NULL); }

/* Each step maps sums one to one, and words too: packets that differ in one word of eight bytes always differ in their sum. */
static uint64_t mix(uint64_t sum, uint64_t word) {
    sum = (sum ^ word) * 0x9e3779b97f4a7c15u;
    return sum ^ sum >> 32;
}

static uint64_t sum_of(enum kind kind, const uint8_t *packet, size_t count) {
    uint64_t sum = mix((uint64_t)kind, count), word;
    size_t at = sizeof word; /* behind the sum itself */
    for (; at + sizeof word <= count; at += sizeof word) {
        memcpy(&word, packet + at, sizeof word);
        sum = mix(sum, word);
    }
    word = 0;
    memcpy(&word, packet + at, count - at);
    return mix(sum, word);
}

void put(int rank, enum kind kind, uint64_t a, uint64_t b, uint64_t c, const void *bytes, size_t count) {
    struct head head = {0, a, b, c};
    memcpy(sent, &head, sizeof head);
    if (count > 0)
        memcpy(sent + sizeof head, bytes, count);
    head.sum = sum_of(kind, sent, sizeof head + count);
    memcpy(sent, &head.sum, sizeof head.sum);
    MPI_Send(sent, (int)(sizeof head + count), MPI_BYTE, rank, (int)kind, MPI_COMM_WORLD);
}

static bool crowded; /* whether this machine has more ranks of the run than processors */

void open_wire(int *rank, int *ranks) {
    MPI_Comm here;
    int count;
    MPI_Comm_rank(MPI_COMM_WORLD, rank);
    MPI_Comm_size(MPI_COMM_WORLD, ranks);
    MPI_Comm_split_type(MPI_COMM_WORLD, MPI_COMM_TYPE_SHARED, 0, MPI_INFO_NULL, &here);
    MPI_Comm_size(here, &count);
    MPI_Comm_free(&here);
    crowded = count > sysconf(_SC_NPROCESSORS_ONLN);
}

/* Waits for a packet. On a crowded machine who has looked for a while sleeps between two looks, so that the others run. */
static void wait_for(int rank, MPI_Status *status) {
    int there = 0;
    for (int looks = 0; crowded && !there; looks++) {
        MPI_Iprobe(rank, MPI_ANY_TAG, MPI_COMM_WORLD, &there, status);
        if (!there && looks > 200)
            nanosleep(&(struct timespec){0, 20000}, NULL);
    }
    MPI_Probe(rank, MPI_ANY_TAG, MPI_COMM_WORLD, status);
}

struct packet take(int rank) {
    MPI_Status status;
    int count;
    struct head head;
    wait_for(rank < 0 ? MPI_ANY_SOURCE : rank, &status);
    MPI_Get_count(&status, MPI_BYTE, &count);
    MPI_Recv(taken, ROOM, MPI_BYTE, status.MPI_SOURCE, status.MPI_TAG, MPI_COMM_WORLD, &status);
    struct packet p = {.rank = status.MPI_SOURCE, .kind = (enum kind)status.MPI_TAG, .bytes = taken};
    if ((size_t)count < sizeof head)
        return p;
    memcpy(&head, taken, sizeof head);
    p.whole = head.sum == sum_of(p.kind, taken, (size_t)count);
    p.a = head.a, p.b = head.b, p.c = head.c;
    p.bytes = taken + sizeof head;
    p.count = (size_t)count - sizeof head;
    return p;
}
