/* Lets the Nth request for memory be refused, for N from 1 to 2,000, each in a map of its own, and sees that the call
 * that meets it says so or did without, that the map has the pairs that it should, and that no block is left once it is
 * closed. Linked with -Wl,--wrap=malloc,--wrap=realloc,--wrap=free, which leads the library's requests here. */
#include <inttypes.h>
#include <stdio.h>
#include <stdlib.h>
#include <string.h>

#include "nifforan.h"

#define REFUSALS 2000
#define KEYS 512
#define CALLS 9000

/* The requests so far, the one to be refused, and the blocks that are there. */
static uint64_t requests, refused_at, blocks;

void *__real_malloc(size_t size);
void *__real_realloc(void *block, size_t size);
void __real_free(void *block);

void *__wrap_malloc(size_t size) {
    void *block = ++requests == refused_at ? NULL : __real_malloc(size);
    blocks += block != NULL;
    return block;
}

void *__wrap_realloc(void *block, size_t size) {
    void *moved = ++requests == refused_at ? NULL : __real_realloc(block, size);
    blocks += block == NULL && moved != NULL;
    return moved;
}

void __wrap_free(void *block) {
    blocks -= block != NULL;
    __real_free(block);
}

/* Marsaglia's xorshift. */
static uint64_t dice = 88172645463325252u;

static uint64_t throw_of(uint64_t sides) {
    dice ^= dice << 13;
    dice ^= dice >> 7;
    dice ^= dice << 17;
    return (dice >> 16) % sides;
}

/* The map that the handle should have. */
static struct {
    bool is_there[KEYS];
    uint64_t value[KEYS];
    uint64_t pairs;
} plain;

#define MUST(holds)                                                                          \
    do {                                                                                     \
        if (!(holds)) {                                                                      \
            fprintf(stderr, "line %d, request %" PRIu64 ": %s\n", __LINE__, refused_at, #holds); \
            exit(1);                                                                         \
        }                                                                                    \
    } while (0)

/* Each pair is there, and no other; to see it takes no memory. */
static void same_pairs(nifforan *map) {
    nifforan_pair pairs[7];
    nifforan_read_answer read;
    const uint64_t before = requests;
    uint64_t key = 0, seen = 0;
    do {
        read = nifforan_read(map, key, NIFFORAN_TOP, pairs, 7);
        MUST(read.status == NIFFORAN_OK);
        for (size_t i = 0; i < read.count; i++) {
            MUST(pairs[i].key < KEYS && plain.is_there[pairs[i].key] && plain.value[pairs[i].key] == pairs[i].value);
            MUST(i == 0 || pairs[i - 1].key < pairs[i].key);
        }
        seen += read.count;
        MUST(!read.has_next || read.next > pairs[read.count - 1].key);
        key = read.next;
    } while (read.has_next);
    MUST(seen == plain.pairs);
    MUST(nifforan_pairs(map).pairs == plain.pairs);
    MUST(requests == before);
}

static void had(nifforan_reply reply, uint64_t key) {
    MUST(reply.found == plain.is_there[key]);
    MUST(reply.value == (reply.found ? plain.value[key] : 0));
}

static void give(uint64_t key, uint64_t value) {
    plain.pairs += !plain.is_there[key];
    plain.is_there[key] = true;
    plain.value[key] = value;
}

static void take_out(uint64_t key) {
    plain.pairs -= plain.is_there[key];
    plain.is_there[key] = false;
}

/* Takes out what a clear says: all keys from the low on and below the high, or as many as it took out before it was
 * refused memory. */
static uint32_t clear(nifforan *map, uint64_t low, uint64_t high) {
    const nifforan_cleared cleared = nifforan_clear(map, low, NIFFORAN_BELOW(high));
    uint64_t removed = 0;
    for (uint64_t key = low; key < high && key < KEYS; key++) {
        if (!plain.is_there[key] || nifforan_get(map, key).found) continue;
        take_out(key);
        removed++;
    }
    MUST(cleared.removed == removed);
    for (uint64_t key = low; cleared.status == NIFFORAN_OK && key < high && key < KEYS; key++) MUST(!plain.is_there[key]);
    return cleared.status;
}

/* A call on one key, drawn. */
static nifforan_reply call_on_key(nifforan *map, uint64_t key) {
    const uint64_t value = throw_of(UINT64_MAX), before = requests;
    nifforan_reply reply;
    switch (throw_of(5)) {
    case 0:
        reply = nifforan_put(map, key, value);
        if (reply.status == NIFFORAN_OK) {
            had(reply, key);
            if (!reply.found) give(key, value);
        }
        break;
    case 1:
    case 2:
        reply = nifforan_set(map, key, value);
        if (reply.status == NIFFORAN_OK) {
            had(reply, key);
            give(key, value);
        }
        break;
    case 3:
        reply = nifforan_delete(map, key);
        if (reply.status == NIFFORAN_OK) {
            had(reply, key);
            take_out(key);
        }
        break;
    default:
        reply = nifforan_get(map, key);
        MUST(reply.status == NIFFORAN_OK && requests == before);
        had(reply, key);
    }
    return reply;
}

/* Freezes the map, shares it, and takes it back. Where one of the two is refused memory, the map is as before. */
static uint32_t freeze_and_thaw(nifforan *map) {
    nifforan other = NIFFORAN_CLOSED;
    uint32_t status = nifforan_freeze(map);
    MUST(nifforan_thaw(map) == (status == NIFFORAN_OK ? NIFFORAN_OK : NIFFORAN_NOT_FROZEN));
    if (status != NIFFORAN_OK) return status;
    if (nifforan_freeze(map) != NIFFORAN_OK) return NIFFORAN_NO_MEMORY;
    status = nifforan_share(map, &other);
    MUST((other.at != NULL) == (status == NIFFORAN_OK));
    nifforan_close(&other);
    MUST(nifforan_thaw(map) == NIFFORAN_OK);
    return status;
}

/* Takes pages ahead, or makes the map anew. */
static uint32_t room(nifforan *map, uint64_t kind) {
    return kind == 0 ? nifforan_reserve(map, throw_of(2 * KEYS)) : nifforan_shrink(map);
}

/* How many calls said that they were refused memory. */
static uint64_t told;

/* One call; whether it was refused memory. Then it says so, in the place of its reply or for the care of the pages, unless it
 * could do without: where room for a change in place is refused, the change is made by steps, whose requests aren't. */
static bool call(nifforan *map) {
    const uint64_t key = throw_of(KEYS);
    const bool may_meet = requests < refused_at;
    nifforan_reply reply = { NIFFORAN_OK, NIFFORAN_OK, false, 0 };
    const uint64_t kind = throw_of(200);
    if (kind < 2)
        reply.status = clear(map, key, key + throw_of(21));
    else if (kind == 2)
        reply.status = freeze_and_thaw(map);
    else if (kind < 5)
        reply.status = room(map, kind - 3);
    else
        reply = call_on_key(map, key);
    const bool met = may_meet && requests >= refused_at;
    const uint32_t said = reply.status == NIFFORAN_OK ? reply.care : reply.status;
    MUST(said == NIFFORAN_OK || (met && said == NIFFORAN_NO_MEMORY));
    MUST(reply.status == NIFFORAN_OK || !reply.found);
    told += said != NIFFORAN_OK;
    return met;
}

/* Whether a request was refused. */
static bool refuse(uint64_t at) {
    nifforan map = NIFFORAN_CLOSED;
    const nifforan_settings settings = { sizeof(nifforan_settings), 4, 2, 1024, 1000, 0 };
    memset(&plain, 0, sizeof plain);
    requests = 0;
    refused_at = at;
    uint32_t status = nifforan_create(&map, &settings);
    bool met = requests >= at;
    MUST(status == (met ? NIFFORAN_NO_MEMORY : NIFFORAN_OK));
    told += met;
    if (met) {
        MUST(map.at == NULL && blocks == 0);
        MUST(nifforan_create(&map, &settings) == NIFFORAN_OK);
    }
    for (int i = 0; i < CALLS; i++) {
        if (call(&map)) {
            met = true;
            same_pairs(&map);
        }
    }
    same_pairs(&map);
    nifforan_close(&map);
    MUST(blocks == 0);
    return met;
}

/* Whether a request was refused while a map was made of pairs whose keys rise: then there is none, or it has all pairs. */
static bool refuse_sorted(uint64_t at) {
    nifforan map = NIFFORAN_CLOSED;
    const nifforan_settings settings = { sizeof(nifforan_settings), 4, 1, 1024, 1000, 0 };
    nifforan_pair pairs[KEYS];
    for (uint64_t key = 0; key < KEYS; key++) pairs[key] = (nifforan_pair){ key, key };
    requests = 0;
    refused_at = at;
    const uint32_t status = nifforan_from_sorted(&map, &settings, pairs, KEYS).status;
    const bool met = requests >= at;
    MUST(status == NIFFORAN_OK || (met && status == NIFFORAN_NO_MEMORY && map.at == NULL));
    MUST(status != NIFFORAN_OK || nifforan_pairs(&map).pairs == KEYS);
    nifforan_close(&map);
    MUST(blocks == 0);
    return met;
}

int main(void) {
    uint64_t met = 0;
    for (uint64_t at = 1; at <= REFUSALS; at++) met += refuse(at);
    for (uint64_t at = 1; refuse_sorted(at); at++) continue;
    printf("%" PRIu64 " of %d requests refused, %" PRIu64 " of them told, and each map has its pairs\n", met, REFUSALS, told);
    return met == REFUSALS ? 0 : 1;
}
