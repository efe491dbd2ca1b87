/* Squares of a few numbers, looked up, read in order, backwards too, and cleared. */
#include <inttypes.h>
#include <stdio.h>

#include "nifforan.h"

static int fail(const char *call, uint32_t status) {
    const nifforan_text why = nifforan_status_text(status);
    fprintf(stderr, "%s: %s\n", call, why.text);
    return 1;
}

int main(void) {
    nifforan map = NIFFORAN_CLOSED;
    const nifforan_settings settings = NIFFORAN_USUAL_SETTINGS;
    uint32_t status = nifforan_create(&map, &settings);
    if (status != NIFFORAN_OK) return fail("create", status);

    for (uint64_t n = 1; n <= 1000; n++) {
        nifforan_reply reply = nifforan_put(&map, n, n * n);
        if (reply.status != NIFFORAN_OK) return fail("put", reply.status);
    }
    nifforan_reply square = nifforan_get(&map, 12);
    printf("12 squared: %" PRIu64 "\n", square.value);
    square = nifforan_set(&map, 12, 0);
    printf("it was %" PRIu64 ", and is 0 now\n", square.value);

    /* all pairs from 990 on, four at a time */
    nifforan_pair pairs[4];
    nifforan_read_answer read;
    uint64_t key = 990;
    do {
        read = nifforan_read(&map, key, NIFFORAN_TOP, pairs, 4);
        for (size_t i = 0; i < read.count; i++) printf("%" PRIu64 ":%" PRIu64 " ", pairs[i].key, pairs[i].value);
        key = read.next;
    } while (read.has_next);
    printf("\n");

    /* the same backwards, but for the last one */
    nifforan_high high = NIFFORAN_BELOW(1000);
    do {
        read = nifforan_read_back(&map, 990, high, pairs, 4);
        for (size_t i = 0; i < read.count; i++) printf("%" PRIu64 " ", pairs[i].key);
        if (read.has_next) high = NIFFORAN_BELOW(pairs[read.count - 1].key);
    } while (read.has_next);
    printf("\n");

    nifforan_cleared cleared = nifforan_clear(&map, 0, NIFFORAN_BELOW(901));
    printf("%" PRIu64 " cleared, %" PRIu64 " left\n", cleared.removed, nifforan_pairs(&map).pairs);
    nifforan_close(&map);
    return 0;
}
