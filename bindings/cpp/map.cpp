// The class of nifforan/map.hpp: drawn calls beside std::map, also on a map that is made anew, iterators whose map is changed, faults of both forms, and
// threads that read a frozen map at once. The first argument is how many calls are drawn.
#include <algorithm>
#include <cstdint>
#include <cstdio>
#include <cstdlib>
#include <iterator>
#include <limits>
#include <map>
#include <optional>
#include <string>
#include <thread>
#include <type_traits>
#include <utility>
#include <vector>

#include "nifforan/map.hpp"

using nifforan_cpp::Fault;
using nifforan_cpp::Frozen;
using nifforan_cpp::Map;
using nifforan_cpp::Reads;
using Plain = std::map<std::uint64_t, std::uint64_t>;

static_assert(!std::is_copy_constructible_v<Map> && !std::is_copy_assignable_v<Map>);
static_assert(std::is_nothrow_move_constructible_v<Map> && std::is_nothrow_move_assignable_v<Map>);
static_assert(!std::is_copy_constructible_v<Frozen> && !std::is_copy_assignable_v<Frozen>);
static_assert(std::is_nothrow_move_constructible_v<Frozen> && std::is_nothrow_move_assignable_v<Frozen>);
#if __cplusplus >= 202002L
#include <ranges>
static_assert(std::bidirectional_iterator<Map::iterator>);
static_assert(std::ranges::bidirectional_range<Map> && std::ranges::bidirectional_range<Frozen>);
static_assert(std::ranges::bidirectional_range<Reads::Range>);
#endif

#define MUST(holds)                                                  \
    do {                                                             \
        if (!(holds)) {                                              \
            std::fprintf(stderr, "line %d: %s\n", __LINE__, #holds); \
            std::exit(1);                                            \
        }                                                            \
    } while (0)

// Numbers by Marsaglia's xorshift.
static std::uint64_t thrown = 88172645463325252;
static std::uint64_t draw(std::uint64_t sides) {
    thrown ^= thrown << 13;
    thrown ^= thrown >> 7;
    thrown ^= thrown << 17;
    return (thrown >> 16) % sides;
}

static Reads::value_type pair_of(const Plain::value_type &pair) { return {pair.first, pair.second}; }

static bool same(const Reads::value_type &ours, const Plain::value_type &theirs) { return ours == pair_of(theirs); }

static std::optional<std::uint64_t> value_of(const Plain &plain, std::uint64_t key) {
    const auto there = plain.find(key);
    return there == plain.end() ? std::nullopt : std::optional(there->second);
}

// Walks both by the same drawn steps, forwards and backwards.
static void walk(Map &map, const Plain &plain, std::uint64_t key) {
    auto ours = map.lower_bound(key);
    auto theirs = plain.lower_bound(key);
    for (int step = 0; step < 60; step++) {
        MUST((ours == map.end()) == (theirs == plain.end()));
        if (theirs != plain.end()) MUST(same(*ours, *theirs) && ours->second == theirs->second);
        const bool forward = draw(step % 20 < 10 ? 4 : 2) != 0;
        if (forward ? theirs == plain.end() : theirs == plain.begin()) continue;
        if (forward) {
            MUST(ours++ != ours);
            theirs++;
        } else {
            --ours, --theirs;
        }
    }
}

static void compare_range(Map &map, const Plain &plain, std::uint64_t low, std::uint64_t high) {
    const auto ours = map.range(low, NIFFORAN_BELOW(high));
    const auto from = plain.lower_bound(low), to = low < high ? plain.lower_bound(high) : from;
    MUST(std::equal(ours.begin(), ours.end(), from, to, same));
    MUST(std::equal(ours.rbegin(), ours.rend(), std::make_reverse_iterator(to), std::make_reverse_iterator(from), same));
    MUST(std::distance(ours.begin(), ours.end()) == std::distance(from, to));
}

// An iterator that is at a pair goes on in the map as it is, whatever is changed meanwhile.
static void change_under_way(Map &map, Plain &plain, std::uint64_t key) {
    auto at = map.lower_bound(key);
    for (int step = 0; step < 40 && at != map.end(); step++) {
        const std::uint64_t here = at->first, other = here + draw(9) - std::min<std::uint64_t>(here, 4), value = draw(1000);
        if (draw(3) == 0) {
            at = map.erase(at);
            plain.erase(here);
            const auto next = plain.upper_bound(here);
            MUST(next == plain.end() ? at == map.end() : same(*at, *next));
            continue;
        }
        if (draw(2) == 0) {
            MUST(map.set(other, value) == value_of(plain, other));
            plain[other] = value;
        } else {
            MUST(map.erase(other) == value_of(plain, other));
            plain.erase(other);
        }
        const auto above = plain.upper_bound(here), from = plain.lower_bound(here);
        if (step % 20 < 12 || from == plain.begin()) {
            ++at;
            MUST(above == plain.end() ? at == map.end() : same(*at, *above));
        } else {
            --at;
            MUST(same(*at, *std::prev(from)));
        }
    }
}

static void look(Map &map, const Plain &plain, std::uint64_t key) {
    const auto there = value_of(plain, key);
    MUST(map.get(key) == there && map.contains(key) == there.has_value());
    MUST(map.size() == plain.size() && map.empty() == plain.empty());
    const auto found = map.find(key);
    MUST(there ? found->first == key && found->second == *there && map.at(key) == *there : found == map.end());
    const auto next = plain.lower_bound(key);
    MUST(map.next_at(key) == (next == plain.end() ? std::nullopt : std::optional(pair_of(*next))));
    const auto above = plain.upper_bound(key);
    MUST(map.previous_at(key) == (above == plain.begin() ? std::nullopt : std::optional(pair_of(*std::prev(above)))));
    MUST(above == plain.end() ? map.upper_bound(key) == map.end() : same(*map.upper_bound(key), *above));
    if (!plain.empty()) MUST(map.first() == pair_of(*plain.begin()) && map.last() == pair_of(*plain.rbegin()));
}

// Changes of a key by what it has, of the first pair and the last one, and of many.
static void change_by_value(Map &map, Plain &plain, std::uint64_t key, std::uint64_t value) {
    const auto there = value_of(plain, key);
    const bool is_set = draw(3) != 0;
    const auto expected = draw(3) == 0 ? std::optional(value) : there;
    MUST(map.compare_and_set(key, expected, is_set ? std::optional(value / 2) : std::nullopt) == there);
    if (there == expected) {
        if (is_set) {
            plain[key] = value / 2;
        } else {
            plain.erase(key);
        }
    }
    MUST(map.get(key) == value_of(plain, key));
    const auto before = value_of(plain, key + 1);
    MUST(map.upsert(key + 1, [value](auto had) { return had.value_or(3) + value; }) == before.value_or(3) + value);
    plain[key + 1] = before.value_or(3) + value;
    MUST(map.pop_first() == pair_of(*plain.begin()));
    plain.erase(plain.begin());
    if (!plain.empty()) {
        MUST(map.pop_last() == pair_of(*plain.rbegin()));
        plain.erase(std::prev(plain.end()));
    }
    std::vector<nifforan_pair> many;
    for (std::uint64_t n = draw(200); n > 0; n--) many.push_back({draw(3000), draw(1000000)});
    for (const auto [at, its] : many) plain[at] = its;
    map.extend(many.data(), many.size());
    MUST(map.size() == plain.size());
}

static void call(Map &map, Plain &plain, std::uint64_t keys) {
    const std::uint64_t key = draw(keys), value = draw(1000000);
    const auto there = value_of(plain, key);
    const std::uint64_t which = draw(100);
    if (which < 25) {
        MUST(map.put(key, value) == there);
        plain.emplace(key, value);
    } else if (which < 45) {
        const nifforan_reply reply = map.try_set(key, value);
        MUST(reply.status == NIFFORAN_OK && reply.found == there.has_value() && reply.value == there.value_or(0));
        plain[key] = value;
    } else if (which < 65) {
        MUST(map.erase(key) == there);
        plain.erase(key);
    } else if (which < 85) {
        look(map, plain, key);
    } else if (which < 92) {
        walk(map, plain, key);
    } else if (which < 96) {
        compare_range(map, plain, key, key + draw(100) - std::min<std::uint64_t>(key, 5));
    } else if (which < 97) {
        change_under_way(map, plain, key);
    } else if (which < 98) {
        change_by_value(map, plain, key, value);
    } else {
        const auto from = plain.lower_bound(key), to = plain.lower_bound(key + 20);
        MUST(map.clear(key, NIFFORAN_BELOW(key + 20)) == static_cast<std::uint64_t>(std::distance(from, to)));
        plain.erase(from, to);
    }
}

static void drawn_calls(long calls) {
    nifforan_settings settings = NIFFORAN_USUAL_SETTINGS;
    for (const std::uint32_t fanout : {4u, 16u, 64u}) {
        settings.fanout = fanout;
        settings.chain = 1 + 3 * fanout % 32;
        Map map(settings);
        Plain plain;
        for (long n = 0; n < calls / 3; n++) {
            call(map, plain, 3000);
            if (n % 500 == 100) map.reserve(draw(2) * plain.size() + draw(9000));
            if (n % 900 == 300) map.shrink_to_fit();
        }
        MUST(std::equal(map.begin(), map.end(), plain.begin(), plain.end(), same));
        MUST(std::equal(map.rbegin(), map.rend(), plain.rbegin(), plain.rend(), same));
        MUST((Plain(map.begin(), map.end()) == plain));
        std::vector<nifforan_pair> sorted;
        for (const auto &[key, value] : plain) sorted.push_back({key, value});
        Map again = Map::from_sorted(sorted.data(), sorted.size(), settings);
        MUST(std::equal(again.begin(), again.end(), plain.begin(), plain.end(), same));
    }
}

static void ends_of_keys() {
    const std::uint64_t most = std::numeric_limits<std::uint64_t>::max();
    Map map;
    MUST(map.begin() == map.end() && map.rbegin() == map.rend());
    for (const std::uint64_t key : {std::uint64_t{0}, std::uint64_t{1}, most}) map.put(key, 7);
    MUST(std::next(map.begin(), 3) == map.end() && std::prev(map.end())->first == most);
    MUST(std::prev(map.end(), 3) == map.begin() && map.upper_bound(most) == map.end() && map.find(2) == map.end());
    MUST(map.rbegin()->first == most && std::next(map.rbegin(), 3) == map.rend());
    const auto all = map.range(0, NIFFORAN_TOP), none = map.range(9, NIFFORAN_BELOW(2));
    MUST(std::distance(all.begin(), all.end()) == 3 && none.begin() == none.end());
    MUST(std::next(map.find(most)) == map.end());
    MUST(map.clear() == 3 && map.empty());
    try {
        map.at(1);
        MUST(false);
    } catch (const std::out_of_range &) {
    }
}

template <typename Call> static void must_throw(std::uint32_t status, Call call) {
    try {
        call();
    } catch (const Fault &fault) {
        MUST(fault.status == status && std::string("nifforan: ") + nifforan_status_text(status).text == fault.what());
        return;
    }
    MUST(false);
}

static void faults() {
    nifforan_settings bad = NIFFORAN_USUAL_SETTINGS;
    bad.fanout = 3;
    must_throw(NIFFORAN_BAD_FANOUT, [&] { Map map(bad); });
    Map map = Map::closed();
    MUST(map.try_open(bad) == NIFFORAN_BAD_FANOUT && map.try_open() == NIFFORAN_OK);
    MUST(map.try_open() == NIFFORAN_OPEN_HANDLE && map.free_pages() == nifforan_settings(NIFFORAN_USUAL_SETTINGS).pages - 1);
    map.put(3, 9);
    Map moved = std::move(map);
    must_throw(NIFFORAN_CLOSED_HANDLE, [&] { map.begin(); });
    must_throw(NIFFORAN_CLOSED_HANDLE, [&] { map.put(1, 1); });
    must_throw(NIFFORAN_CLOSED_HANDLE, [&] { map.reserve(1); });
    must_throw(NIFFORAN_TABLE_FULL, [&] { moved.reserve(UINT64_MAX); });
    must_throw(NIFFORAN_CLOSED_HANDLE, [&] { map.shrink_to_fit(); });
    must_throw(NIFFORAN_CLOSED_HANDLE, [&] { map.pop_first(); });
    must_throw(NIFFORAN_CLOSED_HANDLE, [&] { map.extend(nullptr, 0); });
    const nifforan_pair falling[] = {{2, 0}, {1, 0}};
    must_throw(NIFFORAN_UNSORTED, [&] { Map::from_sorted(falling, 2); });
    MUST(Map::from_sorted(nullptr, 0).empty());
    MUST(map.try_put(1, 1).status == NIFFORAN_CLOSED_HANDLE && map.try_clear().status == NIFFORAN_CLOSED_HANDLE);
    Frozen mine, theirs;
    MUST(mine.try_share(theirs) == NIFFORAN_CLOSED_HANDLE && map.try_freeze(mine) == NIFFORAN_CLOSED_HANDLE);
    MUST(moved.try_freeze(mine) == NIFFORAN_OK && mine.try_share(theirs) == NIFFORAN_OK && theirs.at(3) == 9);
    must_throw(NIFFORAN_SHARED, [&] { mine.thaw(); });
    MUST(mine.try_thaw(map) == NIFFORAN_SHARED && mine.size() == 1);
    theirs = Frozen();
    MUST(mine.try_thaw(map) == NIFFORAN_OK && map.set(3, 10) == 9);
    must_throw(NIFFORAN_CLOSED_HANDLE, [&] { mine.size(); });
    nifforan_settings worn = NIFFORAN_USUAL_SETTINGS;
    worn.first_version = std::numeric_limits<std::uint64_t>::max();
    map = Map(worn);
    must_throw(NIFFORAN_WORN, [&] { map.put(1, 1); });
    MUST(map.try_erase(1).status == NIFFORAN_OK && map.empty());
    try {
        nifforan_cpp::check(NIFFORAN_NO_MEMORY);
        MUST(false);
    } catch (const std::bad_alloc &refused) {
        MUST(std::string(nifforan_status_text(NIFFORAN_NO_MEMORY).text) == refused.what());
    }
}

// Each thread reads the same frozen map, and makes one more of it meanwhile.
static void readers() {
    const std::uint64_t keys = 2000;
    Map map;
    for (std::uint64_t key = 0; key < keys; key++) map.put(key, 3 * key);
    Frozen mine = map.freeze();
    std::vector<Frozen> theirs;
    for (int i = 0; i < 4; i++) theirs.push_back(mine.share());
    std::vector<std::thread> threads;
    for (Frozen &its : theirs) {
        threads.emplace_back([frozen = std::move(its)]() mutable {
            std::uint64_t seen = 0;
            for (const auto [key, value] : frozen) MUST(key == seen++ && value == 3 * key);
            Frozen more = frozen.share();
            for (auto it = more.rbegin(); it != more.rend(); ++it) MUST(it->first == --seen && frozen.at(seen) == 3 * seen);
        });
    }
    for (std::thread &thread : threads) thread.join();
    threads.clear();
    map = mine.thaw();
    MUST(map.clear() == keys);
}

int main(int argc, char **argv) {
    const long calls = argc > 1 ? std::atol(argv[1]) : 300000;
    drawn_calls(calls);
    ends_of_keys();
    faults();
    readers();
    std::printf("the same as std::map: %ld calls, and 4 threads read the frozen map at once\n", calls);
    return 0;
}
