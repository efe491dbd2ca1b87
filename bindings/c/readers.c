/* A frozen map that threads read at once, each through a handle of its own, and a map that goes from thread to thread. */
#include <inttypes.h>
#include <pthread.h>
#include <stdio.h>
#include <stdlib.h>

#include "nifforan.h"

#define READERS 4
#define KEYS 20000

#define MUST(holds)                                            \
    do {                                                       \
        if (!(holds)) {                                        \
            fprintf(stderr, "line %d: %s\n", __LINE__, #holds); \
            exit(1);                                           \
        }                                                      \
    } while (0)

/* The even keys from 0 on, each with three times itself, from the front, from the back and one by one. Each reader shares
 * its handle once more, and closes both. */
static void *reads(void *handle) {
    nifforan *map = handle, another = NIFFORAN_CLOSED;
    nifforan_pair pairs[16];
    nifforan_read_answer read;
    uint64_t low = 0, seen = 0;
    nifforan_high high = NIFFORAN_TOP;
    do {
        read = nifforan_read(map, low, NIFFORAN_TOP, pairs, 16);
        for (size_t i = 0; i < read.count; i++, seen++) MUST(pairs[i].key == 2 * seen && pairs[i].value == 6 * seen);
        low = read.next;
    } while (read.has_next);
    MUST(seen == KEYS);
    do {
        read = nifforan_read_back(map, 0, high, pairs, 16);
        for (size_t i = 0; i < read.count; i++) MUST(--seen == pairs[i].key / 2 && pairs[i].value == 6 * seen);
        if (read.has_next) high = NIFFORAN_BELOW(pairs[read.count - 1].key);
    } while (read.has_next);
    MUST(seen == 0);
    MUST(nifforan_share(map, &another) == NIFFORAN_OK);
    for (uint64_t key = 0; key < 2 * KEYS; key++) {
        const nifforan_reply reply = nifforan_get(&another, key);
        MUST(reply.found == (key % 2 == 0) && reply.value == (reply.found ? 3 * key : 0));
        MUST(nifforan_previous_at(map, key).key == key / 2 * 2);
    }
    MUST(nifforan_put(&another, 1, 1).status == NIFFORAN_FROZEN);
    nifforan_close(&another);
    nifforan_close(map);
    return NULL;
}

/* Fills the map, on a thread that did not open it. */
static void *fills(void *handle) {
    for (uint64_t n = 0; n < KEYS; n++) MUST(nifforan_put(handle, 2 * n, 6 * n).status == NIFFORAN_OK);
    return NULL;
}

int main(void) {
    nifforan map = NIFFORAN_CLOSED, theirs[READERS];
    const nifforan_settings settings = NIFFORAN_USUAL_SETTINGS;
    pthread_t threads[READERS];
    MUST(nifforan_create(&map, &settings) == NIFFORAN_OK);
    MUST(pthread_create(&threads[0], NULL, fills, &map) == 0 && pthread_join(threads[0], NULL) == 0);
    MUST(nifforan_pairs(&map).pairs == KEYS);
    MUST(nifforan_freeze(&map) == NIFFORAN_OK);
    for (int i = 0; i < READERS; i++) {
        theirs[i] = (nifforan)NIFFORAN_CLOSED;
        MUST(nifforan_share(&map, &theirs[i]) == NIFFORAN_OK);
    }
    for (int i = 0; i < READERS; i++) MUST(pthread_create(&threads[i], NULL, reads, &theirs[i]) == 0);
    for (int i = 0; i < READERS; i++) MUST(pthread_join(threads[i], NULL) == 0);
    MUST(nifforan_thaw(&map) == NIFFORAN_OK);
    MUST(nifforan_clear(&map, 0, NIFFORAN_TOP).removed == KEYS);
    nifforan_close(&map);
    printf("%d threads read the frozen map at once\n", READERS);
    return 0;
}
