/* Statuses as the header tells them: of closed and open handles, of settings, of a map whose pages have no version left or
 * that has no page left, of pages taken ahead, of keys and rooms at their limits, and of frozen maps. */
#include <inttypes.h>
#include <stdio.h>
#include <stdlib.h>
#include <string.h>

#include "nifforan.h"

#define MUST(holds)                                            \
    do {                                                       \
        if (!(holds)) {                                        \
            fprintf(stderr, "line %d: %s\n", __LINE__, #holds); \
            exit(1);                                           \
        }                                                      \
    } while (0)

#define SIZE sizeof(nifforan_settings)

static const nifforan_settings usual = NIFFORAN_USUAL_SETTINGS;

static const nifforan_optional none = { 0, false };

static uint64_t never(void *context, bool found, uint64_t value)
{
    (void)context, (void)found, (void)value;
    MUST(false);
    return 0;
}

/* Each call says so, and writes no pair. */
static void is_closed(nifforan *map) {
    nifforan_pair place[1] = { { 5, 6 } };
    const nifforan_read_answer read = nifforan_read(map, 0, NIFFORAN_TOP, place, 1);
    const nifforan_read_answer back = nifforan_read_back(map, 0, NIFFORAN_TOP, place, 1);
    nifforan other = NIFFORAN_CLOSED;
    MUST(map->at == NULL);
    MUST(nifforan_pairs(map).status == NIFFORAN_CLOSED_HANDLE);
    MUST(nifforan_get(map, 1).status == NIFFORAN_CLOSED_HANDLE);
    MUST(nifforan_put(map, 1, 2).status == NIFFORAN_CLOSED_HANDLE);
    MUST(nifforan_set(map, 1, 2).status == NIFFORAN_CLOSED_HANDLE);
    MUST(nifforan_delete(map, 1).status == NIFFORAN_CLOSED_HANDLE);
    MUST(nifforan_compare_and_set(map, 1, &none, &none).status == NIFFORAN_CLOSED_HANDLE);
    MUST(nifforan_upsert(map, 1, never, NULL).status == NIFFORAN_CLOSED_HANDLE);
    MUST(nifforan_pop_first(map).status == NIFFORAN_CLOSED_HANDLE && !nifforan_pop_last(map).found);
    MUST(nifforan_extend(map, place, 1).status == NIFFORAN_CLOSED_HANDLE && nifforan_extend(map, place, 0).count == 0);
    MUST(nifforan_clear(map, 0, NIFFORAN_TOP).status == NIFFORAN_CLOSED_HANDLE);
    MUST(nifforan_reserve(map, 1) == NIFFORAN_CLOSED_HANDLE && nifforan_shrink(map) == NIFFORAN_CLOSED_HANDLE);
    MUST(nifforan_first(map).status == NIFFORAN_CLOSED_HANDLE && !nifforan_first(map).found);
    MUST(nifforan_last(map).status == NIFFORAN_CLOSED_HANDLE && !nifforan_last(map).found);
    MUST(nifforan_next_at(map, 1).status == NIFFORAN_CLOSED_HANDLE && !nifforan_next_at(map, 1).found);
    MUST(nifforan_previous_at(map, 1).status == NIFFORAN_CLOSED_HANDLE && !nifforan_previous_at(map, 1).found);
    MUST(read.status == NIFFORAN_CLOSED_HANDLE && read.count == 0 && !read.has_next && place[0].key == 5);
    MUST(back.status == NIFFORAN_CLOSED_HANDLE && back.count == 0 && !back.has_next);
    MUST(nifforan_freeze(map) == NIFFORAN_CLOSED_HANDLE && nifforan_thaw(map) == NIFFORAN_CLOSED_HANDLE);
    MUST(nifforan_share(map, &other) == NIFFORAN_CLOSED_HANDLE && other.at == NULL);
    nifforan_close(map);
    MUST(map->at == NULL);
}

static void settings_say(uint32_t status, nifforan_settings settings) {
    nifforan map = NIFFORAN_CLOSED;
    MUST(nifforan_create(&map, &settings) == status);
    MUST((map.at != NULL) == (status == NIFFORAN_OK));
    nifforan_close(&map);
    is_closed(&map);
    const nifforan_pair falling[2] = { { 2, 0 }, { 1, 0 } };
    MUST(nifforan_from_sorted(&map, &settings, falling, 0).status == status);
    nifforan_close(&map);
    const bool has_versions = settings.first_version == 0;
    const uint32_t then = status != NIFFORAN_OK ? status : has_versions ? NIFFORAN_UNSORTED : NIFFORAN_WORN;
    MUST(nifforan_from_sorted(&map, &settings, falling, 2).status == then);
    is_closed(&map);
}

/* The ends of each range, and the first setting that is out of its own. */
static void settings(void) {
    settings_say(NIFFORAN_OK, (nifforan_settings){ SIZE, 4, 1, 8, 1, 0 });
    settings_say(NIFFORAN_OK, (nifforan_settings){ SIZE, 64, 32, 16777216, 1000, UINT64_MAX });
    settings_say(NIFFORAN_BAD_FANOUT, (nifforan_settings){ SIZE, 3, 0, 7, 0, 0 });
    settings_say(NIFFORAN_BAD_FANOUT, (nifforan_settings){ SIZE, 65, 8, 4096, 1000, 0 });
    settings_say(NIFFORAN_BAD_CHAIN, (nifforan_settings){ SIZE, 16, 0, 7, 0, 0 });
    settings_say(NIFFORAN_BAD_CHAIN, (nifforan_settings){ SIZE, 16, 33, 4096, 1000, 0 });
    settings_say(NIFFORAN_BAD_PAGES, (nifforan_settings){ SIZE, 16, 8, 7, 0, 0 });
    settings_say(NIFFORAN_BAD_PAGES, (nifforan_settings){ SIZE, 16, 8, 16777217, 1000, 0 });
    settings_say(NIFFORAN_BAD_TRIES, (nifforan_settings){ SIZE, 16, 8, 4096, 0, 0 });
    settings_say(NIFFORAN_BAD_TRIES, (nifforan_settings){ SIZE, 16, 8, 4096, 1001, 0 });
    settings_say(NIFFORAN_BAD_SIZE, (nifforan_settings){ 0, 3, 0, 7, 0, 0 });
    settings_say(NIFFORAN_BAD_SIZE, (nifforan_settings){ SIZE + 8, 16, 8, 4096, 1000, 0 });
    MUST(SIZE == 32);
}

static void found_is(nifforan_found found, uint64_t key, uint64_t value) {
    MUST(found.status == NIFFORAN_OK && found.found && found.key == key && found.value == value);
}

static void found_none(nifforan_found found) {
    MUST(found.status == NIFFORAN_OK && !found.found && found.key == 0 && found.value == 0);
}

static void reply_is(nifforan_reply reply, bool found, uint64_t value) {
    MUST(reply.status == NIFFORAN_OK && reply.care == NIFFORAN_OK);
    MUST(reply.found == found && reply.value == value);
}

/* The pairs 0:1 and the greatest key with 2, and what is told of them. */
static void limits(nifforan *map) {
    nifforan_pair places[3] = { { 5, 6 }, { 5, 6 }, { 5, 6 } };
    reply_is(nifforan_put(map, 0, 1), false, 0);
    reply_is(nifforan_put(map, UINT64_MAX, 3), false, 0);
    reply_is(nifforan_put(map, UINT64_MAX, 4), true, 3);
    reply_is(nifforan_set(map, UINT64_MAX, 2), true, 3);
    reply_is(nifforan_get(map, UINT64_MAX), true, 2);
    found_is(nifforan_first(map), 0, 1);
    found_is(nifforan_last(map), UINT64_MAX, 2);
    found_is(nifforan_next_at(map, 0), 0, 1);
    found_is(nifforan_next_at(map, 1), UINT64_MAX, 2);
    found_is(nifforan_previous_at(map, UINT64_MAX), UINT64_MAX, 2);
    found_is(nifforan_previous_at(map, UINT64_MAX - 1), 0, 1);
    nifforan_read_answer read = nifforan_read(map, 0, NIFFORAN_TOP, places, 0);
    MUST(read.status == NIFFORAN_OK && read.count == 0 && read.has_next && read.next == 0 && places[0].key == 5);
    read = nifforan_read_back(map, 0, NIFFORAN_TOP, places, 0);
    MUST(read.status == NIFFORAN_OK && read.count == 0 && read.has_next && read.next == UINT64_MAX && places[0].key == 5);
    read = nifforan_read(map, 0, NIFFORAN_BELOW(UINT64_MAX), places, 2);
    MUST(read.count == 1 && !read.has_next && read.next == 0 && places[0].key == 0 && places[1].key == 5);
    read = nifforan_read_back(map, 0, NIFFORAN_TOP, places, 1);
    MUST(read.count == 1 && read.has_next && read.next == 0 && places[0].key == UINT64_MAX && places[1].key == 5);
    read = nifforan_read_back(map, 0, NIFFORAN_BELOW(places[0].key), places, 1);
    MUST(read.count == 1 && !read.has_next && read.next == 0 && places[0].key == 0 && places[0].value == 1);
    read = nifforan_read(map, 1, NIFFORAN_BELOW(1), places, 3);
    MUST(read.count == 0 && !read.has_next && read.next == 0 && places[0].key == 0);
    read = nifforan_read(map, 1, NIFFORAN_TOP, places, 3);
    MUST(read.count == 1 && !read.has_next && read.next == 0 && places[0].key == UINT64_MAX && places[0].value == 2);
    MUST(places[1].key == 5 && places[1].value == 6);
    nifforan_cleared cleared = nifforan_clear(map, 1, NIFFORAN_BELOW(1));
    MUST(cleared.status == NIFFORAN_OK && cleared.removed == 0);
    cleared = nifforan_clear(map, 0, NIFFORAN_BELOW(0));
    MUST(cleared.status == NIFFORAN_OK && cleared.removed == 0);
    cleared = nifforan_clear(map, 1, NIFFORAN_BELOW(UINT64_MAX));
    MUST(cleared.status == NIFFORAN_OK && cleared.removed == 0);
    cleared = nifforan_clear(map, 1, NIFFORAN_TOP);
    MUST(cleared.status == NIFFORAN_OK && cleared.removed == 1);
    reply_is(nifforan_delete(map, 0), true, 1);
    reply_is(nifforan_delete(map, 0), false, 0);
    MUST(nifforan_pairs(map).status == NIFFORAN_OK && nifforan_pairs(map).pairs == 0);
    found_none(nifforan_first(map));
    found_none(nifforan_last(map));
    found_none(nifforan_next_at(map, 0));
    found_none(nifforan_previous_at(map, UINT64_MAX));
}

static void popped_is(nifforan_popped popped, bool found, uint64_t key, uint64_t value) {
    MUST(popped.status == NIFFORAN_OK && popped.care == NIFFORAN_OK);
    MUST(popped.found == found && popped.key == key && popped.value == value);
}

static uint64_t sum_of(void *context, bool found, uint64_t value)
{
    const uint64_t *more = context;
    return found ? value + *more : *more;
}

/* Changes by what a key has: a row a call, with what it answers and what the key has then. */
static void changes(nifforan *map) {
    const nifforan_optional nine = { 9, true }, ten = { 10, true }, zero = { 0, true };
    const struct {
        const nifforan_optional *expected, *value;
        bool found;
        uint64_t had;
        bool has;
        uint64_t now;
    } rows[] = {
        { &nine, &ten, false, 0, false, 0 }, { &none, &none, false, 0, false, 0 },   { &none, &nine, false, 0, true, 9 },
        { &none, &ten, true, 9, true, 9 },   { &ten, &nine, true, 9, true, 9 },      { &nine, &zero, true, 9, true, 0 },
        { &none, &nine, true, 0, true, 0 },  { &zero, &none, true, 0, false, 0 },    { &zero, &nine, false, 0, false, 0 },
    };
    for (size_t i = 0; i < sizeof rows / sizeof *rows; i++) {
        reply_is(nifforan_compare_and_set(map, UINT64_MAX, rows[i].expected, rows[i].value), rows[i].found, rows[i].had);
        reply_is(nifforan_get(map, UINT64_MAX), rows[i].has, rows[i].now);
        MUST(nifforan_pairs(map).pairs == rows[i].has);
    }
    uint64_t more = 7;
    reply_is(nifforan_upsert(map, 3, sum_of, &more), false, 0);
    reply_is(nifforan_upsert(map, 3, sum_of, &more), true, 7);
    reply_is(nifforan_get(map, 3), true, 14);
    const nifforan_pair some[] = { { 5, 1 }, { 3, 2 }, { 5, 3 }, { UINT64_MAX, 4 }, { 0, 5 } };
    nifforan_filled filled = nifforan_extend(map, some, 5);
    MUST(filled.status == NIFFORAN_OK && filled.care == NIFFORAN_OK && filled.count == 5);
    filled = nifforan_extend(map, some, 0);
    MUST(filled.status == NIFFORAN_OK && filled.count == 0);
    popped_is(nifforan_pop_first(map), true, 0, 5);
    popped_is(nifforan_pop_last(map), true, UINT64_MAX, 4);
    popped_is(nifforan_pop_first(map), true, 3, 2);
    popped_is(nifforan_pop_first(map), true, 5, 3);
    popped_is(nifforan_pop_first(map), false, 0, 0);
    popped_is(nifforan_pop_last(map), false, 0, 0);
    MUST(nifforan_pairs(map).pairs == 0);
}

/* Maps of pairs whose keys rise, and the first pair that doesn't. */
static void sorted(void) {
    enum { MANY = 5000 };
    static nifforan_pair pairs[MANY], read[MANY];
    nifforan map = NIFFORAN_CLOSED;
    for (uint64_t i = 0; i < MANY; i++) pairs[i] = (nifforan_pair){ 3 * i, i };
    pairs[MANY - 1].key = UINT64_MAX;
    for (size_t count = 0; count <= MANY; count += 1250) {
        const nifforan_filled filled = nifforan_from_sorted(&map, &usual, pairs, count);
        MUST(filled.status == NIFFORAN_OK && filled.care == NIFFORAN_OK && filled.count == count);
        MUST(nifforan_pairs(&map).pairs == count);
        MUST(nifforan_from_sorted(&map, &usual, pairs, count).status == NIFFORAN_OPEN_HANDLE);
        MUST(nifforan_read(&map, 0, NIFFORAN_TOP, read, MANY).count == count);
        MUST(memcmp(read, pairs, count * sizeof *pairs) == 0);
        nifforan_close(&map);
    }
    pairs[4000].key = pairs[3999].key;
    const nifforan_filled unsorted = nifforan_from_sorted(&map, &usual, pairs, MANY);
    MUST(unsorted.status == NIFFORAN_UNSORTED && unsorted.care == NIFFORAN_OK && unsorted.count == 4000 && map.at == NULL);
    const nifforan_settings last = { SIZE, 16, 8, 4096, 1000, UINT64_MAX };
    const nifforan_filled worn = nifforan_from_sorted(&map, &last, pairs, 2);
    MUST(worn.status == NIFFORAN_WORN && worn.count == 0 && map.at == NULL);
}

/* A map that begins at the last version can have no pair. */
static void worn(void) {
    nifforan map = NIFFORAN_CLOSED;
    const nifforan_settings last = { SIZE, 16, 8, 4096, 1000, UINT64_MAX };
    MUST(nifforan_create(&map, &last) == NIFFORAN_OK);
    const nifforan_reply put = nifforan_put(&map, 1, 2), set = nifforan_set(&map, 1, 2);
    MUST(put.status == NIFFORAN_WORN && put.care == NIFFORAN_OK && !put.found && put.value == 0);
    MUST(set.status == NIFFORAN_WORN && set.care == NIFFORAN_OK && !set.found && set.value == 0);
    reply_is(nifforan_get(&map, 1), false, 0);
    const nifforan_pair pair = { 1, 2 };
    const nifforan_optional two = { 2, true };
    const nifforan_filled filled = nifforan_extend(&map, &pair, 1);
    MUST(filled.status == NIFFORAN_WORN && filled.care == NIFFORAN_OK && filled.count == 0);
    const nifforan_reply set_if = nifforan_compare_and_set(&map, 1, &none, &two);
    MUST(set_if.status == NIFFORAN_WORN && set_if.care == NIFFORAN_OK && !set_if.found && set_if.value == 0);
    popped_is(nifforan_pop_last(&map), false, 0, 0);
    MUST(nifforan_pairs(&map).pairs == 0);
    nifforan_close(&map);
}

/* A map without a free page says so, and has each pair that it took. */
static void full(void) {
    nifforan map = NIFFORAN_CLOSED;
    const nifforan_settings few = { SIZE, 4, 1, 8, 1000, 0 };
    uint64_t told = 0, taken = 0;
    MUST(nifforan_create(&map, &few) == NIFFORAN_OK);
    MUST(nifforan_pairs(&map).free_pages == 7);
    for (uint64_t key = 0; key < 100; key++) {
        const nifforan_reply put = nifforan_put(&map, key, key);
        const uint32_t said = put.status == NIFFORAN_OK ? put.care : put.status;
        MUST(said == NIFFORAN_OK || said == NIFFORAN_TABLE_FULL);
        told += said == NIFFORAN_TABLE_FULL;
        taken += put.status == NIFFORAN_OK;
        MUST(nifforan_get(&map, key).found == (put.status == NIFFORAN_OK));
    }
    MUST(told > 0 && nifforan_pairs(&map).pairs == taken && nifforan_pairs(&map).free_pages == 0);
    nifforan_close(&map);
}

/* Pages that are taken ahead and given back leave the pairs and what is free as they were, also where more pairs are asked
 * for than the pages that a map may have hold. */
static void room(void) {
    nifforan map = NIFFORAN_CLOSED;
    const nifforan_settings few = { SIZE, 4, 1, 8, 1000, 0 }, some = { SIZE, 64, 1, 4096, 1000, 0 };
    const nifforan_settings made_by[] = { few, some };
    for (int i = 0; i < 2; i++) {
        MUST(nifforan_create(&map, &made_by[i]) == NIFFORAN_OK);
        for (uint64_t key = 0; key < 12; key++) MUST(nifforan_put(&map, key, 2 * key).status == NIFFORAN_OK);
        const uint64_t free = nifforan_pairs(&map).free_pages;
        MUST(nifforan_reserve(&map, 0) == NIFFORAN_OK);
        MUST(nifforan_reserve(&map, 1000) == (i == 0 ? NIFFORAN_TABLE_FULL : NIFFORAN_OK));
        MUST(nifforan_reserve(&map, UINT64_MAX) == NIFFORAN_TABLE_FULL);
        MUST(nifforan_pairs(&map).free_pages == free);
        MUST(nifforan_shrink(&map) == NIFFORAN_OK);
        MUST(nifforan_pairs(&map).pairs == 12);
        for (uint64_t key = 0; key < 12; key++) reply_is(nifforan_get(&map, key), true, 2 * key);
        nifforan_close(&map);
    }
}

static void is_frozen(nifforan *map) {
    nifforan_reply reply = nifforan_put(map, 7, 1);
    MUST(reply.status == NIFFORAN_FROZEN && reply.care == NIFFORAN_OK && !reply.found && reply.value == 0);
    MUST(nifforan_set(map, 7, 1).status == NIFFORAN_FROZEN);
    MUST(nifforan_delete(map, 7).status == NIFFORAN_FROZEN);
    MUST(nifforan_compare_and_set(map, 7, &none, &none).status == NIFFORAN_FROZEN);
    MUST(nifforan_pop_first(map).status == NIFFORAN_FROZEN && nifforan_pop_last(map).status == NIFFORAN_FROZEN);
    const nifforan_pair pair = { 7, 1 };
    const nifforan_filled filled = nifforan_extend(map, &pair, 1);
    MUST(filled.status == NIFFORAN_FROZEN && filled.care == NIFFORAN_OK && filled.count == 0);
    MUST(nifforan_from_sorted(map, &usual, &pair, 1).status == NIFFORAN_OPEN_HANDLE);
    MUST(nifforan_clear(map, 0, NIFFORAN_TOP).status == NIFFORAN_FROZEN);
    MUST(nifforan_reserve(map, 1) == NIFFORAN_FROZEN && nifforan_shrink(map) == NIFFORAN_FROZEN);
    MUST(nifforan_create(map, &usual) == NIFFORAN_OPEN_HANDLE);
    MUST(nifforan_freeze(map) == NIFFORAN_FROZEN);
    MUST(nifforan_pairs(map).pairs == 1);
    reply_is(nifforan_get(map, 7), true, 49);
}

/* A map that is frozen, shared, and thawed by its last handle, whichever that is. */
static void frozen(void) {
    nifforan map = NIFFORAN_CLOSED, second = NIFFORAN_CLOSED, third = NIFFORAN_CLOSED;
    MUST(nifforan_create(&map, &usual) == NIFFORAN_OK);
    reply_is(nifforan_set(&map, 7, 49), false, 0);
    MUST(nifforan_thaw(&map) == NIFFORAN_NOT_FROZEN);
    MUST(nifforan_share(&map, &second) == NIFFORAN_NOT_FROZEN && second.at == NULL);
    MUST(nifforan_freeze(&map) == NIFFORAN_OK);
    MUST(nifforan_share(&map, &second) == NIFFORAN_OK);
    MUST(nifforan_share(&map, &second) == NIFFORAN_OPEN_HANDLE);
    MUST(nifforan_share(&second, &third) == NIFFORAN_OK);
    is_frozen(&map);
    is_frozen(&second);
    is_frozen(&third);
    MUST(nifforan_thaw(&map) == NIFFORAN_SHARED && nifforan_thaw(&third) == NIFFORAN_SHARED);
    nifforan_close(&map);
    is_closed(&map);
    MUST(nifforan_thaw(&second) == NIFFORAN_SHARED);
    is_frozen(&second);
    nifforan_close(&second);
    is_frozen(&third);
    MUST(nifforan_thaw(&third) == NIFFORAN_OK);
    reply_is(nifforan_delete(&third, 7), true, 49);
    MUST(nifforan_thaw(&third) == NIFFORAN_NOT_FROZEN);
    nifforan_close(&third);
}

/* The text of each status, by its number, and that of a number past them. */
static const char *const TEXTS[] = {
    "done",
    "the handle is closed",
    "the handle is open",
    "the fanout is not from 4 to 64",
    "the chain is not from 1 to 32",
    "the pages are not from 8 to 16777216",
    "the tries are not from 1 to 1000",
    "no memory",
    "no page is free",
    "the tree has its greatest height",
    "a version or the number of changes is used up",
    "the call took all its tries",
    "the settings have another size in this version",
    "the map is frozen",
    "the map is not frozen",
    "other handles have the map too",
    "a key is not above the one before",
    "no status of this library",
};

/* Each text ends in its room, with zeros from there on. */
static void texts(void) {
    for (uint32_t status = NIFFORAN_OK; status <= NIFFORAN_UNSORTED + 1; status++) {
        const nifforan_text text = nifforan_status_text(status);
        MUST(strcmp(text.text, TEXTS[status]) == 0);
        for (size_t i = strlen(TEXTS[status]); i < sizeof text.text; i++) MUST(text.text[i] == 0);
    }
    MUST(strcmp(nifforan_status_text(UINT32_MAX).text, TEXTS[NIFFORAN_UNSORTED + 1]) == 0);
    MUST(nifforan_version() == NIFFORAN_VERSION);
}

int main(void) {
    nifforan map = NIFFORAN_CLOSED;
    is_closed(&map);
    texts();
    frozen();
    settings();
    worn();
    full();
    room();
    MUST(nifforan_create(&map, &usual) == NIFFORAN_OK);
    reply_is(nifforan_set(&map, 7, 49), false, 0);
    MUST(nifforan_create(&map, &usual) == NIFFORAN_OPEN_HANDLE);
    reply_is(nifforan_delete(&map, 7), true, 49);
    limits(&map);
    changes(&map);
    nifforan_close(&map);
    is_closed(&map);
    sorted();
    printf("the statuses are as the header tells them\n");
    return 0;
}
