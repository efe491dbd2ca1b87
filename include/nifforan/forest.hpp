// A map of C++17 that many threads read and change at once, over nifforan.h: several trees, each a map for a range of keys
// behind a std::mutex of its own, so that threads with keys of different ranges seldom wait for each other.
//
// A call on one key is one call on the map that has it, under its lock. What each map does is proved; the locks and the code here
// around them are not. Calls on many keys go from tree to tree, and see each at a moment of its own.
//
// A call that fails throws, as with nifforan_cpp::Map. If a caller's function throws under a lock, nothing is changed.
#pragma once

#include <algorithm>
#include <cstddef>
#include <cstdint>
#include <functional>
#include <limits>
#include <mutex>
#include <optional>
#include <stdexcept>
#include <utility>
#include <vector>

#include "map.hpp"

namespace nifforan_cpp {

// Where the ranges of a forest's trees begin: the first at 0, each other above the one before.
class Bounds {
public:
    static constexpr std::size_t MOST_TREES = 1024;

    // Throws std::invalid_argument if they don't rise from 0 on, or if there are none or more than 1,024.
    explicit Bounds(std::vector<std::uint64_t> firsts) : keys(std::move(firsts)) {
        see(keys.size());
        if (keys.front() != 0) throw std::invalid_argument("nifforan: the first bound is not 0");
        if (std::adjacent_find(keys.begin(), keys.end(), std::greater_equal<>()) != keys.end())
            throw std::invalid_argument("nifforan: a bound is not above the one before");
    }
    // Cuts the keys below the end into this many ranges of the same length; keys from the end on belong to the last one.
    static Bounds even(std::size_t trees, std::uint64_t end) {
        see(trees);
        // trees are few, so that neither product is too great
        const std::uint64_t part = end / trees, rest = end % trees;
        return of_firsts(trees, [=](std::size_t tree) { return part * tree + rest * tree / trees; });
    }
    // Cuts all keys into this many ranges, each with as many of the sample's keys; into fewer if keys are equal or too few.
    static Bounds of_sample(std::vector<std::uint64_t> sample, std::size_t trees) {
        see(trees);
        std::sort(sample.begin(), sample.end());
        return of_firsts(trees, [&](std::size_t tree) { return sample.empty() ? 0 : sample[sample.size() * tree / trees]; });
    }
    // The number of the tree whose range has the key.
    std::size_t tree_of(std::uint64_t key) const {
        return static_cast<std::size_t>(std::upper_bound(keys.begin(), keys.end(), key) - keys.begin()) - 1;
    }
    const std::vector<std::uint64_t> &firsts() const { return keys; }

private:
    static void see(std::size_t trees) {
        if (trees < 1 || trees > MOST_TREES) throw std::invalid_argument("nifforan: the bounds are not from 1 to 1024");
    }
    template <typename First> static Bounds of_firsts(std::size_t trees, First first) {
        std::vector<std::uint64_t> keys{0};
        for (std::size_t tree = 1; tree < trees; tree++)
            if (first(tree) > keys.back()) keys.push_back(first(tree));
        return Bounds(std::move(keys));
    }

    std::vector<std::uint64_t> keys;
};

class Forest {
    static constexpr std::size_t AT_ONCE = 64;

    // A map that shares its cache lines with nothing, even if they are fetched two by two.
    struct alignas(128) Tree {
        std::mutex lock;
        Map map = Map::closed();

        template <typename Call> auto locked(Call call) {
            const std::lock_guard<std::mutex> held(lock);
            return call(map);
        }
    };

    template <typename Call> auto in_tree_of(std::uint64_t key, Call call) {
        return trees[its_bounds.tree_of(key)].locked(call);
    }

public:
    using value_type = Map::value_type;

    explicit Forest(Bounds bounds, const nifforan_settings &settings = NIFFORAN_USUAL_SETTINGS)
        : its_bounds(std::move(bounds)), trees(its_bounds.firsts().size()) {
        for (Tree &tree : trees) check(tree.map.try_open(settings));
    }
    // With these pairs, whose keys must rise.
    Forest(Bounds bounds, const nifforan_pair *pairs, std::size_t count, const nifforan_settings &settings = NIFFORAN_USUAL_SETTINGS)
        : its_bounds(std::move(bounds)), trees(its_bounds.firsts().size()) {
        const auto not_rising = [](const nifforan_pair &one, const nifforan_pair &next) { return one.key >= next.key; };
        if (std::adjacent_find(pairs, pairs + count, not_rising) != pairs + count) throw Fault(NIFFORAN_UNSORTED);
        const nifforan_pair *from = pairs;
        for (std::size_t tree = 0; tree < trees.size(); tree++) {
            const auto is_inside = [&](const nifforan_pair &pair) { return its_bounds.tree_of(pair.key) == tree; };
            const nifforan_pair *to = std::partition_point(from, pairs + count, is_inside);
            check(trees[tree].map.try_from_sorted(from, static_cast<std::size_t>(to - from), settings).status);
            from = to;
        }
    }
    Forest(const Forest &) = delete;
    Forest &operator=(const Forest &) = delete;

    // A forest with the same pairs and this many trees, or fewer if there are fewer pairs. Each has as many pairs, where this
    // forest may have grown in a few of its ranges alone. No other thread may change it meanwhile. Throws
    // std::invalid_argument for other than 1 to 1,024 trees.
    Forest balanced(std::size_t count, const nifforan_settings &settings = NIFFORAN_USUAL_SETTINGS) {
        std::vector<nifforan_pair> pairs;
        std::vector<std::uint64_t> sample;
        scan(0, NIFFORAN_TOP, [&](std::uint64_t key, std::uint64_t value) {
            pairs.push_back({key, value});
            sample.push_back(key);
            return true;
        });
        return Forest(Bounds::of_sample(std::move(sample), count), pairs.data(), pairs.size(), settings);
    }

    const Bounds &bounds() const { return its_bounds; }

    std::optional<std::uint64_t> get(std::uint64_t key) {
        return in_tree_of(key, [=](Map &map) { return map.get(key); });
    }
    bool contains(std::uint64_t key) { return get(key).has_value(); }
    // Gives the key the value unless it has one, and returns the old one.
    std::optional<std::uint64_t> put(std::uint64_t key, std::uint64_t value) {
        return in_tree_of(key, [=](Map &map) { return map.put(key, value); });
    }
    // Gives the key the value, and returns the old one.
    std::optional<std::uint64_t> set(std::uint64_t key, std::uint64_t value) {
        return in_tree_of(key, [=](Map &map) { return map.set(key, value); });
    }
    // Takes the key out, and returns its value.
    std::optional<std::uint64_t> erase(std::uint64_t key) {
        return in_tree_of(key, [=](Map &map) { return map.erase(key); });
    }
    // As with a map, with no other thread in between.
    std::optional<std::uint64_t> compare_and_set(std::uint64_t key, std::optional<std::uint64_t> expected,
                                                 std::optional<std::uint64_t> value) {
        return in_tree_of(key, [=](Map &map) { return map.compare_and_set(key, expected, value); });
    }
    // Gives the key the value that the function makes of its std::optional value, or takes it out if that is none. Returns the
    // old value. No other thread comes between: the function runs under the tree's lock, and must make no call on this forest.
    template <typename Change> std::optional<std::uint64_t> alter(std::uint64_t key, Change change) {
        return in_tree_of(key, [&](Map &map) {
            const std::optional<std::uint64_t> given = change(map.get(key));
            return given ? map.set(key, *given) : map.erase(key);
        });
    }

    // How many pairs the trees have, each counted at a moment of its own. While other threads change them, the forest need never
    // have had that many.
    std::uint64_t size() {
        std::uint64_t pairs = 0;
        for (Tree &tree : trees) pairs += tree.locked([](Map &map) { return map.size(); });
        return pairs;
    }
    bool empty() { return size() == 0; }
    // The pair with the least key, of the first tree that has any when it is asked, and with the greatest, of the last one.
    std::optional<value_type> first() {
        for (Tree &tree : trees)
            if (const auto pair = tree.locked([](Map &map) { return map.first(); })) return pair;
        return std::nullopt;
    }
    std::optional<value_type> last() {
        for (auto tree = trees.rbegin(); tree != trees.rend(); ++tree)
            if (const auto pair = tree->locked([](Map &map) { return map.last(); })) return pair;
        return std::nullopt;
    }
    // Takes out the keys from the low on and below the high, tree by tree, and returns how many. If it throws, some are out.
    std::uint64_t clear(std::uint64_t low = 0, nifforan_high high = NIFFORAN_TOP) {
        std::uint64_t removed = 0;
        if (!high.is_top && high.key <= low) return removed;
        const std::size_t last = its_bounds.tree_of(high.is_top ? std::numeric_limits<std::uint64_t>::max() : high.key - 1);
        for (std::size_t tree = its_bounds.tree_of(low); tree <= last; tree++)
            removed += trees[tree].locked([&](Map &map) { return map.clear(low, high); });
        return removed;
    }
    // Passes each pair from the low on and below the high, in the order of their keys, to the function, until that returns false.
    // It copies at most 64 pairs at once under a tree's lock, which are of one moment, and holds no lock while the function runs.
    template <typename See> void scan(std::uint64_t low, nifforan_high high, See see) {
        std::vector<value_type> some;
        some.reserve(AT_ONCE);
        std::size_t tree = its_bounds.tree_of(low);
        while (high.is_top || low < high.key) {
            some.clear();
            const bool is_done = trees[tree].locked([&](Map &map) {
                const auto pairs = map.range(low, high);
                auto at = pairs.begin();
                for (; at != pairs.end() && some.size() < AT_ONCE; ++at) some.push_back(*at);
                return at == pairs.end();
            });
            for (const auto &[key, value] : some)
                if (!see(key, value)) return;
            if (!is_done) {
                low = some.back().first + 1;
            } else if (++tree < trees.size()) {
                low = its_bounds.firsts()[tree];
            } else {
                return;
            }
        }
    }

private:
    Bounds its_bounds;
    std::vector<Tree> trees;
};

}  // namespace nifforan_cpp
