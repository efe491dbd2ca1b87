/* Maps of the usual settings, which cost what their pairs take: ten thousand small ones, and one whose keys fall three
 * million times, with pages taken ahead and without. */
#define _POSIX_C_SOURCE 200809L
#include <inttypes.h>
#include <stdio.h>
#include <stdlib.h>
#include <sys/resource.h>
#include <time.h>

#include "nifforan.h"

#define SMALL 10000
#define PAIRS 10
#define MANY 3000000

#define MUST(holds)                                            \
    do {                                                       \
        if (!(holds)) {                                        \
            fprintf(stderr, "line %d: %s\n", __LINE__, #holds); \
            exit(1);                                           \
        }                                                      \
    } while (0)

static const nifforan_settings usual = NIFFORAN_USUAL_SETTINGS;

/* The most memory that the process has had, in MB. */
static double memory(void) {
    struct rusage used;
    MUST(getrusage(RUSAGE_SELF, &used) == 0);
    return (double)used.ru_maxrss / 1024;
}

static double seconds(void) {
    struct timespec now;
    MUST(clock_gettime(CLOCK_PROCESS_CPUTIME_ID, &now) == 0);
    return (double)now.tv_sec + (double)now.tv_nsec / 1e9;
}

static void many_small_maps(void) {
    static nifforan maps[SMALL];
    const double before = memory();
    for (uint64_t i = 0; i < SMALL; i++) {
        MUST(nifforan_create(&maps[i], &usual) == NIFFORAN_OK);
        for (uint64_t key = 0; key < PAIRS; key++) MUST(nifforan_put(&maps[i], key * i, i).status == NIFFORAN_OK);
    }
    const double taken = memory() - before;
    MUST(taken < 40);
    for (uint64_t i = 0; i < SMALL; i++) {
        MUST(nifforan_get(&maps[i], (PAIRS - 1) * i).value == (i == 0 ? 0 : i));
        MUST(nifforan_pairs(&maps[i]).pairs == (i == 0 ? 1 : PAIRS));
        nifforan_close(&maps[i]);
    }
    printf("%d maps of %d pairs took %.0f MB\n", SMALL, PAIRS, taken);
}

/* Puts many keys, and sees that each is there and that no call was cut short. Answers the seconds that the puts took. */
static double put_all(bool falls, bool reserves) {
    nifforan map = NIFFORAN_CLOSED;
    MUST(nifforan_create(&map, &usual) == NIFFORAN_OK);
    const double begun = seconds();
    if (reserves) MUST(nifforan_reserve(&map, MANY) == NIFFORAN_OK);
    for (uint64_t i = 0; i < MANY; i++) {
        const uint64_t key = falls ? MANY - 1 - i : i;
        const nifforan_reply put = nifforan_put(&map, key, 2 * key);
        MUST(put.status == NIFFORAN_OK && put.care == NIFFORAN_OK && !put.found);
    }
    const double took = seconds() - begun;
    MUST(nifforan_pairs(&map).pairs == MANY);
    for (uint64_t key = 0; key < MANY; key++) MUST(nifforan_get(&map, key).value == 2 * key);
    nifforan_close(&map);
    return took;
}

int main(void) {
    many_small_maps();
    const double rising = put_all(false, false), falling = put_all(true, false), ahead = put_all(true, true);
    /* at the last free page it would be a thousandfold */
    MUST(falling < 5 * rising && ahead < 5 * rising);
    printf("%d rising keys took %.1f seconds, falling ones %.1f, and %.1f with their pages taken ahead\n", MANY, rising, falling,
           ahead);
    return 0;
}
