/* A program that makes a viewer's calls and no others: what is linked with it is all that a viewer's memory has to hold. */
#include "dmap.h"

static uint64_t block[DMAP_VIEWER_WORDS];
static uint8_t bytes[DMAP_VIEWER_PAGES];

int main(int argc, char **argv) {
    uint64_t written = 0;
    size_t count = argc > 1 ? (size_t)argv[1][0] : 0;
    return (int)(dmap_viewer_empty(2, block, DMAP_VIEWER_WORDS) + dmap_viewer_read_file(bytes, count, block, DMAP_VIEWER_WORDS) +
                 dmap_viewer_save_file(block, DMAP_VIEWER_WORDS, bytes, sizeof bytes, &written) +
                 dmap_viewer_write_pages(block, DMAP_VIEWER_WORDS, bytes, sizeof bytes, &written) +
                 dmap_viewer_read_pages(bytes, count, block, DMAP_VIEWER_WORDS) +
                 dmap_viewer_send(block, DMAP_VIEWER_WORDS, 1, 1, bytes, sizeof bytes, &written) +
                 dmap_viewer_receive(block, DMAP_VIEWER_WORDS, bytes, count) + dmap_viewer_release(block, DMAP_VIEWER_WORDS, 1, 1) +
                 dmap_viewer_redirect(block, DMAP_VIEWER_WORDS, bytes, count));
}
