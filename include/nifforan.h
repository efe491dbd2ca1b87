/* Nifforan: an ordered map from uint64_t keys to uint64_t values, in memory. One thread at a time uses a map; many at once
 * read a frozen map, each through its own handle. The library takes no lock. If many threads change a map, the program
 * must put a lock around it; nifforan_cpp::Forest of nifforan/forest.hpp and Forest of bindings/rust do that with several
 * maps, by ranges of keys. What a call does to a map is proved; those locks are not.
 *
 * A handle is eight bytes of the caller's memory. It begins as NIFFORAN_CLOSED, nifforan_create opens it, and
 * nifforan_close closes it. A call on a closed handle, or nifforan_create on an open one, does nothing and says so by its
 * status.
 *
 * What the library proves of a call holds if the caller keeps these rules:
 *   - Only these calls write a handle's word, which begins as zero. As they write it even if they only read the map, no
 *     call takes a handle as const.
 *   - Don't copy an open handle. To move it, copy it and set the old one to (nifforan)NIFFORAN_CLOSED, or in C++ to
 *     nifforan NIFFORAN_CLOSED. nifforan_share makes another handle on a frozen map.
 *   - Make one call at a time on each handle, and none from a signal handler. A handle may go to any thread: that it is
 *     `Send` is proved. Whoever passes it on must ensure that the calls of one thread come before those of the other: by a
 *     lock, by the start or the join of a thread, or by a sequentially consistent atomic. Any threads may make calls on
 *     different handles at once, even if the handles share a frozen map.
 *   - Pointers are valid, aligned and not null, even `pairs` if `room` or `count` is 0. `pairs` has `room` places, or
 *     `count` pairs. What a call writes overlaps none of its other arguments.
 *   - The program's malloc, realloc and free belong to one allocator, whose blocks are aligned to 16 bytes. If threads make
 *     calls at once, they may also call these three at once.
 * A map that is never closed is never freed.
 *
 * A range of keys goes from its low, which is in it, up to its high, which is NOT in it: NIFFORAN_BELOW(9) ends right below
 * the key 9, and NIFFORAN_TOP past all keys. This holds for each call with a high, in C, C++ and Rattle; Rust has `..9` and
 * `..=9`. A range whose high isn't above its low has no keys.
 *
 * bindings/build FOLDER makes a folder with libnifforan_c.a, which is all that a program links, and a file for pkg-config. */
#ifndef NIFFORAN_H
#define NIFFORAN_H

#include <stdbool.h>
#include <stddef.h>
#include <stdint.h>

#ifdef __cplusplus
extern "C" {
#endif

/* The version of this header: 10000 times its first number, plus 100 times its second, plus its third; and as a text. */
#define NIFFORAN_VERSION 400
#define NIFFORAN_VERSION_TEXT "0.4.0"

/* The version of the library that the program is linked with, as NIFFORAN_VERSION. */
uint32_t nifforan_version(void);

/* The outcome of a call. */
enum {
    NIFFORAN_OK = 0,
    NIFFORAN_CLOSED_HANDLE = 1, /* the handle has no map */
    NIFFORAN_OPEN_HANDLE = 2,   /* nifforan_create, nifforan_from_sorted, nifforan_share: the handle to open has a map already */
    NIFFORAN_BAD_FANOUT = 3,    /* nifforan_create, nifforan_from_sorted: this setting is the first out of its range */
    NIFFORAN_BAD_CHAIN = 4,
    NIFFORAN_BAD_PAGES = 5,
    NIFFORAN_BAD_TRIES = 6,
    NIFFORAN_NO_MEMORY = 7,  /* malloc or realloc gave none, perhaps for pages that the map may still have */
    NIFFORAN_TABLE_FULL = 8, /* no page is free: the map has as many as its settings allow. Usually `care` says this:
                                pairs still go in, and pages grow longer than their fanout */
    NIFFORAN_TOO_TALL = 9,   /* the tree has its greatest height */
    NIFFORAN_WORN = 10,      /* the version of a page, or the number of changes, is used up (2^64) */
    NIFFORAN_CONTENDED = 11, /* the call made all the attempts that its settings allow */
    NIFFORAN_BAD_SIZE = 12,  /* the same two: the settings have another size than in the library's version */
    NIFFORAN_FROZEN = 13,    /* the map is frozen: no call changes it, or freezes it again */
    NIFFORAN_NOT_FROZEN = 14, /* nifforan_share, nifforan_thaw: the map is not frozen */
    NIFFORAN_SHARED = 15,     /* nifforan_thaw: other handles have the map too */
    NIFFORAN_UNSORTED = 16    /* nifforan_from_sorted: a key isn't above the one before */
};

typedef struct nifforan_text {
    char text[64]; /* ends with a 0 */
} nifforan_text;

/* What a status means, in a few words: printf("%s\n", nifforan_status_text(status).text) in C11 or C++. In C99, put the
 * answer into a variable first. */
nifforan_text nifforan_status_text(uint32_t status);

typedef struct nifforan {
    void *at; /* private */
} nifforan;

/* How a handle begins: nifforan map = NIFFORAN_CLOSED; */
#define NIFFORAN_CLOSED { NULL }

/* The settings of a map. */
typedef struct nifforan_settings {
    size_t size;            /* sizeof(nifforan_settings), which tells a later library which fields there are */
    uint32_t fanout;        /* the pairs that a page may have before it is split, 4 to 64 */
    uint32_t chain;         /* the changes that a page may carry before it is rewritten, 1 to 32 */
    uint32_t pages;         /* the most pages that the map may have, 8 to 16777216. It begins with 8 and doubles them as it
                               grows, so the usual 16777216 cost nothing; they have room for 520 million pairs, inserted
                               in any order. Fewer limit the memory: n/31 + 6 pages have room for n pairs. Past that each
                               put takes longer, and `care` says so */
    uint32_t tries;         /* the attempts that one call may make, 1 to 1000 */
    uint64_t first_version; /* the version that each page begins with, usually 0. Each change of a page raises it, and past
                               2^64 - 1 the page is NIFFORAN_WORN */
} nifforan_settings;

/* The usual settings: nifforan_settings settings = NIFFORAN_USUAL_SETTINGS; */
#define NIFFORAN_USUAL_SETTINGS { sizeof(nifforan_settings), 64, 1, 16777216, 1000, 0 }

/* Where a range of keys ends; the key itself is not in the range. */
typedef struct nifforan_high {
    uint64_t key;
    bool is_top; /* the range has all keys from its low on, and `key` is ignored */
} nifforan_high;

#ifdef __cplusplus
#define NIFFORAN_BELOW(key) (nifforan_high{ (key), false })
#define NIFFORAN_TOP (nifforan_high{ 0, true })
#else
#define NIFFORAN_BELOW(key) ((nifforan_high){ (key), false })
#define NIFFORAN_TOP ((nifforan_high){ 0, true })
#endif

/* A value, or none. */
typedef struct nifforan_optional {
    uint64_t value; /* ignored if there is none */
    bool is_some;   /* whether there is one */
} nifforan_optional;

#ifdef __cplusplus
#define NIFFORAN_SOME(value) (nifforan_optional{ (value), true })
#define NIFFORAN_NONE (nifforan_optional{ 0, false })
#else
#define NIFFORAN_SOME(value) ((nifforan_optional){ (value), true })
#define NIFFORAN_NONE ((nifforan_optional){ 0, false })
#endif

/* What a call on one key answers. */
typedef struct nifforan_reply {
    uint32_t status; /* NIFFORAN_OK with a reply, or why there is none; the pairs are then unchanged */
    uint16_t care;   /* with a reply: NIFFORAN_OK, or what cut page maintenance short. The reply stands, and a later call
                        resumes the maintenance */
    bool found;      /* whether the key had a value before the call */
    uint64_t value;  /* that value, or 0 */
} nifforan_reply;

typedef struct nifforan_count {
    uint32_t status; /* NIFFORAN_OK or NIFFORAN_CLOSED_HANDLE */
    uint64_t pairs;
    uint64_t free_pages; /* how many more pages the map has room for; if 0, no page is split */
} nifforan_count;

typedef struct nifforan_cleared {
    uint32_t status;  /* NIFFORAN_OK, or what ended the call early */
    uint64_t removed; /* how many keys were taken out, in either case */
} nifforan_cleared;

/* What a call that looks for one pair answers. */
typedef struct nifforan_found {
    uint32_t status; /* NIFFORAN_OK or NIFFORAN_CLOSED_HANDLE */
    bool found;      /* whether there is such a pair */
    uint64_t key;    /* its key and its value, or 0 */
    uint64_t value;
} nifforan_found;

/* What a call that takes a pair out answers. */
typedef struct nifforan_popped {
    uint32_t status; /* NIFFORAN_OK, or why none was taken out */
    uint16_t care;   /* as in nifforan_reply */
    bool found;      /* whether there was a pair */
    uint64_t key;    /* its key and its value, or 0 */
    uint64_t value;
} nifforan_popped;

/* What a call with many pairs answers. */
typedef struct nifforan_filled {
    uint32_t status; /* NIFFORAN_OK, or what ended the call before its last pair */
    uint16_t care;   /* with NIFFORAN_OK: NIFFORAN_OK, or what first cut page maintenance short */
    uint64_t count;  /* how many pairs were set; with NIFFORAN_UNSORTED, the number of the first pair, counted from 0,
                        whose key isn't above the one before */
} nifforan_filled;

typedef struct nifforan_pair {
    uint64_t key;
    uint64_t value;
} nifforan_pair;

typedef struct nifforan_read_answer {
    size_t count;    /* how many pairs were written */
    uint64_t next;   /* the key of the next pair of the range, or 0 */
    bool has_next;   /* whether there is a next pair */
    uint32_t status; /* NIFFORAN_OK or NIFFORAN_CLOSED_HANDLE */
} nifforan_read_answer;

/* Opens an empty map. With any status but NIFFORAN_OK the handle stays as it was: NIFFORAN_OPEN_HANDLE if it has a map,
 * else NIFFORAN_BAD_SIZE if the settings have another size than in the library, else the NIFFORAN_BAD_.. of the first
 * setting out of its range, else NIFFORAN_NO_MEMORY. */
uint32_t nifforan_create(nifforan *map, const nifforan_settings *settings);

/* Opens a map with these pairs, whose keys must rise. It fills the pages from left to right, in a fraction of the time that
 * as many puts take. With any status but NIFFORAN_OK the handle stays as it was: a status of nifforan_create, or else
 * NIFFORAN_UNSORTED, or what ended the call, usually NIFFORAN_NO_MEMORY. */
nifforan_filled nifforan_from_sorted(nifforan *map, const nifforan_settings *settings, const nifforan_pair *pairs, size_t count);

/* ---- Calls that look at a map, frozen or not. They need no memory, and give NIFFORAN_OK on each open handle. */

/* How many pairs the map has, and how many more pages it has room for, in constant time. */
nifforan_count nifforan_pairs(nifforan *map);

/* The value at the key. */
nifforan_reply nifforan_get(nifforan *map, uint64_t key);

/* The pair with the least key, and with the greatest. */
nifforan_found nifforan_first(nifforan *map);
nifforan_found nifforan_last(nifforan *map);

/* The pair with the least key at or above this one, and with the greatest at or below it. */
nifforan_found nifforan_next_at(nifforan *map, uint64_t key);
nifforan_found nifforan_previous_at(nifforan *map, uint64_t key);

/* Writes the pairs of the range from `low` up to `high` to `pairs`, in the order of their keys, until `room` of them are
 * written or none is left. To read the whole map, begin with the range from 0 to NIFFORAN_TOP, and while there is a next
 * pair, go on from low = `next`. The map may change between two calls. */
nifforan_read_answer nifforan_read(nifforan *map, uint64_t low, nifforan_high high, nifforan_pair *pairs, size_t room);

/* The same backwards: the pair with the greatest key of the range comes first. While there is a next pair, go on with a high
 * right below the last key that was written, NIFFORAN_BELOW(pairs[count - 1].key). */
nifforan_read_answer nifforan_read_back(nifforan *map, uint64_t low, nifforan_high high, nifforan_pair *pairs, size_t room);

/* ---- Calls that change a map. On a frozen map they change nothing, and answer NIFFORAN_FROZEN. */

/* Gives the key the value, unless it has one, which it then keeps and the reply has. */
nifforan_reply nifforan_put(nifforan *map, uint64_t key, uint64_t value);

/* Gives the key the value, whether it has one or not. The reply has the old value. */
nifforan_reply nifforan_set(nifforan *map, uint64_t key, uint64_t value);

/* Takes the key out, if it is there. The reply has the old value. */
nifforan_reply nifforan_delete(nifforan *map, uint64_t key);

/* If the key has the expected value, or no value if none is expected, gives it the new value, or takes it out if there is no
 * new one: in C, nifforan_compare_and_set(&map, 3, &NIFFORAN_SOME(9), &NIFFORAN_NONE). The reply has the old value: if that
 * is the expected one, the key was changed, and otherwise it keeps it. */
nifforan_reply nifforan_compare_and_set(nifforan *map, uint64_t key, const nifforan_optional *expected, const nifforan_optional *value);

/* Makes a key's new value of its old one, which is 0 if none was found. It must make no call on the map. */
typedef uint64_t (*nifforan_make)(void *context, bool found, uint64_t value);

/* Gives the key the value that `make` makes of its value, or of none. The reply has the old value. This is a nifforan_get and
 * then a nifforan_set; if the set fails, `make` has been called. */
static inline nifforan_reply nifforan_upsert(nifforan *map, uint64_t key, nifforan_make make, void *context)
{
    const nifforan_reply had = nifforan_get(map, key);
    if (had.status != NIFFORAN_OK) return had;
    return nifforan_set(map, key, make(context, had.found, had.value));
}

/* Takes out the pair with the least key, and with the greatest, if there is any pair. */
nifforan_popped nifforan_pop_first(nifforan *map);
nifforan_popped nifforan_pop_last(nifforan *map);

/* Sets each of the pairs, one after the other, so of pairs with the same key the last one stays. If the call ends early, the
 * first `count` of them are set. */
nifforan_filled nifforan_extend(nifforan *map, const nifforan_pair *pairs, size_t count);

/* Takes out the keys of the range from `low` up to `high`. If the call ends early, `removed` of them are out, and no others.
 * It also ends early if page maintenance is cut short, and `status` says why. The same call takes out those that are left:
 * repeat it while it removes any. */
nifforan_cleared nifforan_clear(nifforan *map, uint64_t low, nifforan_high high);

/* Takes memory ahead for the pages that so many more pairs may need, in any order: about six bytes a pair. Puts then need
 * memory only for what the pages hold. With any status but NIFFORAN_OK nothing changes: NIFFORAN_CLOSED_HANDLE,
 * NIFFORAN_FROZEN, NIFFORAN_TABLE_FULL if the pages that the map may have can be too few, or NIFFORAN_NO_MEMORY. */
uint32_t nifforan_reserve(nifforan *map, uint64_t pairs);

/* Rebuilds the map, with the same pairs and settings and no more pages than they need, such as after a nifforan_reserve for
 * too many pairs, or after most keys were taken out. This takes about 0.3 us a pair, and memory for both maps meanwhile. With
 * any status but NIFFORAN_OK nothing changes: NIFFORAN_CLOSED_HANDLE, NIFFORAN_FROZEN, or what ended the call, usually
 * NIFFORAN_NO_MEMORY. */
uint32_t nifforan_shrink(nifforan *map);

/* ---- Frozen maps, which many threads read at once without a lock, through a handle each. */

/* Freezes the map: from now on no call changes it, and nifforan_share opens more handles on it. With any status but
 * NIFFORAN_OK nothing changes: NIFFORAN_CLOSED_HANDLE, NIFFORAN_FROZEN if it is frozen already, or NIFFORAN_NO_MEMORY. */
uint32_t nifforan_freeze(nifforan *map);

/* Opens `other`, which is closed, on the same frozen map, for another thread. With any status but NIFFORAN_OK `other` stays
 * as it was: NIFFORAN_OPEN_HANDLE if it has a map, else NIFFORAN_CLOSED_HANDLE if `map` has none, NIFFORAN_NOT_FROZEN, or
 * NIFFORAN_NO_MEMORY. Close each handle; the last one frees the map. */
uint32_t nifforan_share(nifforan *map, nifforan *other);

/* Takes the frozen map back, to change it again. This must be the last handle that has it: with NIFFORAN_SHARED, as with
 * NIFFORAN_CLOSED_HANDLE and NIFFORAN_NOT_FROZEN, nothing changes. */
uint32_t nifforan_thaw(nifforan *map);

/* Closes the handle, and frees its map, unless that is frozen and other handles have it. A closed handle stays closed. */
void nifforan_close(nifforan *map);

#ifdef __cplusplus
}
#endif

#endif
