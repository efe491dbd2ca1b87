// The forest of nifforan/forest.hpp: threads that change one at once, each beside a std::map of its own keys, and bounds at
// the ends of all keys. The first argument is how many calls the threads make together.
#include <atomic>
#include <cstdint>
#include <cstdio>
#include <cstdlib>
#include <limits>
#include <map>
#include <optional>
#include <stdexcept>
#include <thread>
#include <utility>
#include <vector>

#include "nifforan/forest.hpp"

using nifforan_cpp::Bounds;
using nifforan_cpp::Fault;
using nifforan_cpp::Forest;
using Plain = std::map<std::uint64_t, std::uint64_t>;
using Keys = std::vector<std::uint64_t>;
using Pairs = std::vector<Forest::value_type>;

static_assert(!std::is_copy_constructible_v<Forest>);

#define MUST(holds)                                                  \
    do {                                                             \
        if (!(holds)) {                                              \
            std::fprintf(stderr, "line %d: %s\n", __LINE__, #holds); \
            std::exit(1);                                            \
        }                                                            \
    } while (0)

static const std::uint64_t MOST = std::numeric_limits<std::uint64_t>::max();
static const std::uint64_t KEYS = 6000;

// Numbers by Marsaglia's xorshift.
class Dice {
public:
    explicit Dice(std::uint64_t seed) : thrown(seed) {}
    std::uint64_t operator()(std::uint64_t sides) {
        thrown ^= thrown << 13;
        thrown ^= thrown >> 7;
        thrown ^= thrown << 17;
        return (thrown >> 16) % sides;
    }

private:
    std::uint64_t thrown;
};

static std::optional<std::uint64_t> value_of(const Plain &plain, std::uint64_t key) {
    const auto there = plain.find(key);
    return there == plain.end() ? std::nullopt : std::optional(there->second);
}

static void give(Plain &plain, std::uint64_t key, std::optional<std::uint64_t> value) {
    if (value) {
        plain[key] = *value;
    } else {
        plain.erase(key);
    }
}

static Pairs all_of(Forest &forest, std::uint64_t low = 0, nifforan_high high = NIFFORAN_TOP) {
    Pairs pairs;
    forest.scan(low, high, [&](std::uint64_t key, std::uint64_t value) { return pairs.emplace_back(key, value), true; });
    return pairs;
}

// The thread's own keys from this one on are those of its map, among others' that come and go.
static void compare_scan(Forest &forest, const Plain &plain, std::uint64_t threads, std::uint64_t thread, std::uint64_t key) {
    auto theirs = plain.lower_bound(key);
    int left = 200;
    forest.scan(key, NIFFORAN_TOP, [&](std::uint64_t at, std::uint64_t value) {
        if (at % threads == thread) {
            MUST(theirs != plain.end() && theirs->first == at && theirs->second == value);
            ++theirs;
        }
        return --left > 0;
    });
}

// Drawn calls on the keys that are this thread's, whose values end in its number.
static void call(Forest &forest, std::uint64_t threads, std::uint64_t thread, long calls, Plain &plain) {
    Dice draw(88172645463325252 + thread);
    for (long n = 0; n < calls; n++) {
        const std::uint64_t key = draw(KEYS / threads) * threads + thread, value = draw(1u << 30) * threads + thread;
        const auto had = value_of(plain, key);
        const std::uint64_t which = draw(16);
        if (which < 4) {
            MUST(forest.get(key) == had && forest.contains(key) == had.has_value());
        } else if (which < 7) {
            MUST(forest.set(key, value) == had);
            plain[key] = value;
        } else if (which < 9) {
            MUST(forest.put(key, value) == had);
            plain.emplace(key, value);
        } else if (which < 12) {
            MUST(forest.erase(key) == had);
            plain.erase(key);
        } else if (which < 13) {
            const auto expected = draw(2) == 0 ? std::nullopt : had, given = draw(4) == 0 ? std::nullopt : std::optional(value);
            MUST(forest.compare_and_set(key, expected, given) == had);
            if (expected == had) give(plain, key, given);
        } else if (which < 15) {
            const auto toggled = [=](std::optional<std::uint64_t> it) { return it ? std::nullopt : std::optional(value); };
            MUST(forest.alter(key, toggled) == had);
            give(plain, key, toggled(had));
        } else {
            compare_scan(forest, plain, threads, thread, key);
        }
    }
}

// All pairs again and again: their keys rise, and each value is of its key's thread.
static void look_on(Forest &forest, std::uint64_t threads, const std::atomic<bool> &ended) {
    for (bool is_last = false; !is_last;) {
        is_last = ended;
        std::optional<std::uint64_t> before;
        forest.scan(0, NIFFORAN_TOP, [&](std::uint64_t key, std::uint64_t value) {
            MUST((!before || *before < key) && key % threads == value % threads);
            before = key;
            return true;
        });
        MUST(forest.size() <= KEYS);
    }
}

static void at_once(std::uint64_t threads, std::size_t trees, long calls) {
    Forest forest(Bounds::even(trees, KEYS));
    std::vector<Plain> parts(threads);
    std::vector<std::thread> workers;
    std::atomic<bool> ended = false;
    std::thread reader([&] { look_on(forest, threads, ended); });
    for (std::uint64_t thread = 0; thread < threads; thread++)
        workers.emplace_back([&, thread] { call(forest, threads, thread, calls / static_cast<long>(threads), parts[thread]); });
    for (std::thread &worker : workers) worker.join();
    ended = true;
    reader.join();
    Plain plain;
    for (const Plain &part : parts) plain.insert(part.begin(), part.end());
    MUST(forest.size() == plain.size() && all_of(forest) == Pairs(plain.begin(), plain.end()));
    MUST(forest.first() == Forest::value_type(*plain.begin()) && forest.last() == Forest::value_type(*plain.rbegin()));
}

static void no_change_is_lost() {
    Forest forest(Bounds::even(4, 100));
    std::vector<std::thread> workers;
    for (int thread = 0; thread < 8; thread++)
        workers.emplace_back([&] {
            for (std::uint64_t turn = 0; turn < 2000; turn++)
                forest.alter(turn % 100, [](auto count) { return std::optional(count.value_or(0) + 1); });
        });
    for (std::thread &worker : workers) worker.join();
    std::uint64_t seen = 0;
    for (const auto &[key, count] : all_of(forest)) MUST(key == seen++ && count == 160);
    MUST(seen == 100);
}

template <typename Error, typename Call> static void must_throw(Call call) {
    try {
        call();
    } catch (const Error &) {
        return;
    }
    MUST(false);
}

static void bounds() {
    for (const Keys &bad : {Keys{}, Keys{1, 2}, Keys{0, 2, 2}, Keys{0, 0}, Keys(1025, 0)})
        must_throw<std::invalid_argument>([&] { Bounds made(bad); });
    must_throw<std::invalid_argument>([] { Bounds::even(0, 100); });
    must_throw<std::invalid_argument>([] { Bounds::even(1025, 100); });
    must_throw<std::invalid_argument>([] { Bounds::of_sample({}, 0); });
    MUST((Bounds::even(4, 100).firsts() == Keys{0, 25, 50, 75}) && (Bounds::even(4, 2).firsts() == Keys{0, 1}));
    MUST((Bounds::even(3, 0).firsts() == Keys{0}) && (Bounds::even(2, MOST).firsts() == Keys{0, MOST / 2}));
    MUST(Bounds::even(1024, MOST).firsts().size() == 1024);
    MUST((Bounds::of_sample({7, 1, 900, 5, 3, 800}, 3).firsts() == Keys{0, 5, 800}));
    MUST((Bounds::of_sample({}, 3).firsts() == Keys{0}) && (Bounds::of_sample({5, 5, 5}, 3).firsts() == Keys{0, 5}));
    const Bounds some(Keys{0, 10, 20});
    MUST(some.tree_of(0) == 0 && some.tree_of(9) == 0 && some.tree_of(10) == 1 && some.tree_of(MOST) == 2);
}

static void ends_of_keys() {
    Forest forest{Bounds(Keys{0, 1, 7, MOST})};
    MUST(forest.empty() && !forest.first() && !forest.last() && all_of(forest).empty());
    const Keys ends{0, 1, MOST - 1, MOST};
    for (const std::uint64_t key : ends) MUST(!forest.set(key, ~key));
    MUST(forest.size() == 4 && (forest.first() == Forest::value_type{0, MOST}) && (forest.last() == Forest::value_type{MOST, 0}));
    MUST(all_of(forest).size() == 4 && all_of(forest, MOST).size() == 1 && all_of(forest, 0, NIFFORAN_BELOW(1)).size() == 1);
    MUST(all_of(forest, 1, NIFFORAN_BELOW(MOST)).size() == 2 && all_of(forest, 2, NIFFORAN_BELOW(7)).empty());
    MUST(all_of(forest, 9, NIFFORAN_BELOW(8)).empty() && forest.clear(9, NIFFORAN_BELOW(8)) == 0);
    MUST(forest.clear(1, NIFFORAN_BELOW(MOST)) == 2 && forest.clear(MOST) == 1 && forest.clear() == 1 && forest.empty());
}

static void sorted_and_faults() {
    std::vector<nifforan_pair> pairs;
    for (std::uint64_t n = 0; n < 10000; n++) pairs.push_back({3 * n, n});
    Forest forest(Bounds(Keys{0, 100, 101, 5000, 90000}), pairs.data(), pairs.size());
    Forest balanced = forest.balanced(4);
    MUST((balanced.bounds().firsts() == Keys{0, 7500, 15000, 22500}) && all_of(balanced) == all_of(forest));
    must_throw<std::invalid_argument>([&] { forest.balanced(0); });
    MUST(forest.size() == pairs.size() && forest.get(29997) == 9999 && forest.clear(0, NIFFORAN_BELOW(101)) == 34);
    pairs[5000].key = pairs[4999].key;
    must_throw<Fault>([&] { Forest falling(Bounds::even(3, 30000), pairs.data(), pairs.size()); });
    must_throw<std::runtime_error>([&] { forest.alter(300, [](auto) -> std::optional<std::uint64_t> { throw std::runtime_error("on purpose"); }); });
    MUST(forest.get(300) == 100 && forest.set(300, 1) == 100);
    nifforan_settings bad = NIFFORAN_USUAL_SETTINGS;
    bad.chain = 0;
    must_throw<Fault>([&] { Forest none(Bounds::even(2, 10), bad); });
}

int main(int argc, char **argv) {
    const long calls = argc > 1 ? std::atol(argv[1]) : 200000;
    bounds();
    ends_of_keys();
    sorted_and_faults();
    no_change_is_lost();
    const std::pair<std::uint64_t, std::size_t> shapes[] = {{1, 1}, {2, 3}, {4, 16}, {8, 64}, {8, 1}};
    for (const auto &[threads, trees] : shapes) at_once(threads, trees, calls);
    std::printf("the same as std::map: %ld calls, of 1 to 8 threads at once\n", calls);
    return 0;
}
