/* A map that is opened, sees 100,000 calls, is frozen, shared, thawed and made anew now and then, and is closed: run under valgrind. The
 * calls' answers are compared elsewhere. */
#include <inttypes.h>
#include <stdio.h>

#include "nifforan.h"

#define CALLS 100000

static uint64_t mixed(uint64_t n) {
    n ^= n >> 33;
    n *= 0xff51afd7ed558ccdu;
    n ^= n >> 33;
    return n;
}

/* The map is frozen, and taken back by another handle. */
static bool goes_on(nifforan *map) {
    nifforan other = NIFFORAN_CLOSED;
    if (nifforan_freeze(map) != NIFFORAN_OK || nifforan_share(map, &other) != NIFFORAN_OK) return false;
    if (nifforan_thaw(map) != NIFFORAN_SHARED || nifforan_pairs(map).pairs != nifforan_pairs(&other).pairs) return false;
    nifforan_close(map);
    *map = other;
    return nifforan_thaw(map) == NIFFORAN_OK;
}

int main(void) {
    nifforan map = NIFFORAN_CLOSED;
    const nifforan_settings settings = NIFFORAN_USUAL_SETTINGS;
    nifforan_pair pairs[5];
    if (nifforan_create(&map, &settings) != NIFFORAN_OK) return 1;
    for (uint64_t n = 0; n < CALLS; n++) {
        const uint64_t key = mixed(n) % 5000;
        switch (mixed(n + CALLS) % 8) {
        case 0:
        case 1:
            if (nifforan_put(&map, key, n).status != NIFFORAN_OK) return 2;
            break;
        case 2:
        case 3:
            if (nifforan_set(&map, key, n).status != NIFFORAN_OK) return 3;
            break;
        case 4:
        case 5:
            if (nifforan_delete(&map, key).status != NIFFORAN_OK) return 4;
            break;
        case 6:
            if (nifforan_get(&map, key).status != NIFFORAN_OK) return 5;
            break;
        default:
            if (n % 500 < 8 && nifforan_clear(&map, key, NIFFORAN_BELOW(key + 21)).status != NIFFORAN_OK) return 6;
            if (nifforan_read(&map, key, NIFFORAN_TOP, pairs, 5).status != NIFFORAN_OK) return 7;
            if (nifforan_read_back(&map, 0, NIFFORAN_BELOW(key), pairs, 5).status != NIFFORAN_OK) return 8;
            if (nifforan_previous_at(&map, key).status != NIFFORAN_OK) return 9;
        }
        if (n % 1000 == 999 && !goes_on(&map)) return 10;
        if (n % 5000 == 2500 && nifforan_reserve(&map, key) != NIFFORAN_OK) return 11;
        if (n % 7000 == 3500 && nifforan_shrink(&map) != NIFFORAN_OK) return 12;
    }
    printf("%d calls, %" PRIu64 " pairs\n", CALLS, nifforan_pairs(&map).pairs);
    nifforan_close(&map);
    return 0;
}
