// What threads are to do on an index.

#pragma once

#include "dice.hpp"
#include "index.hpp"
#include "zipf.hpp"

#include <array>
#include <cstddef>
#include <cstdint>
#include <numeric>
#include <ostream>
#include <string_view>
#include <vector>

// How many calls found or changed something.
struct Tally {
    std::uint64_t found = 0;
    std::uint64_t inserted = 0;
    std::uint64_t replaced = 0;
    std::uint64_t removed = 0;
    std::uint64_t scanned = 0;

    Tally &operator+=(const Tally &other) {
        found += other.found;
        inserted += other.inserted;
        replaced += other.replaced;
        removed += other.removed;
        scanned += other.scanned;
        return *this;
    }

    friend std::ostream &operator<<(std::ostream &out, const Tally &tally) {
        return out << "found " << tally.found << " inserted " << tally.inserted << " replaced " << tally.replaced
                   << " removed " << tally.removed << " scanned " << tally.scanned;
    }
};

// The kind of the operations.
struct Work {
    enum class Kind { load, mix, zipf, near, set, remove, scan };

    std::string_view name;
    Kind kind;
    // of a hundred operations of a mixture; of the others half are puts, half deletes
    std::uint32_t gets = 0;
    // whether keys are put in rising order, and not in one that is drawn
    bool is_rising = false;

    // whether each key has one turn
    bool has_each_key() const { return kind == Kind::load || kind == Kind::remove; }

    // whether the keys are drawn by Zipf's distribution
    bool is_zipf() const { return kind == Kind::zipf || kind == Kind::near; }

    bool has_deletes() const { return kind == Kind::remove || ((kind == Kind::mix || is_zipf()) && gets < 100); }
};

inline constexpr std::array works = {
    Work{"load", Work::Kind::load},
    Work{"rising", Work::Kind::load, 0, true},
    // without an operation these only fill a map, for the memory that it takes
    Work{"fill", Work::Kind::scan},
    Work{"fill-rising", Work::Kind::scan, 0, true},
    Work{"100", Work::Kind::mix, 100},
    // which other structures do eight at once
    Work{"eights", Work::Kind::mix, 100},
    Work{"95", Work::Kind::mix, 95},
    Work{"50", Work::Kind::mix, 50},
    Work{"zipf", Work::Kind::zipf, 100},
    Work{"zipf95", Work::Kind::zipf, 95},
    Work{"zipf50", Work::Kind::zipf, 50},
    Work{"near", Work::Kind::near, 100},
    Work{"near50", Work::Kind::near, 50},
    Work{"set", Work::Kind::set},
    Work{"delete", Work::Kind::remove},
    Work{"scan", Work::Kind::scan},
};

struct Task {
    Work work;
    std::uint32_t threads;
    std::uint32_t keys;
    std::uint32_t operations;

    // How many operations each thread does.
    std::uint32_t turns() const { return operations / threads; }

    // How many operations all threads do together.
    std::uint32_t count() const { return work.has_each_key() ? keys : turns() * threads; }

    // The keys, each once, in the order in which they are put.
    std::vector<std::uint32_t> order() const {
        if (!work.is_rising) {
            return Dice(0, 0).order(keys);
        }
        std::vector<std::uint32_t> order(keys);
        std::iota(order.begin(), order.end(), 0);
        return order;
    }

    // Puts every second key of those that are drawn later, where the work begins with a map.
    template <class Index>
    void fill(Index &index, const std::vector<std::uint32_t> &order) const {
        if (work.kind != Work::Kind::load) {
            for (const std::uint32_t key : order) {
                index.put(2 * Key{key}, key);
            }
        }
    }

    // The keys of all operations, where threads don't draw them as they go.
    std::vector<std::uint32_t> known_keys(std::vector<std::uint32_t> order) const {
        return work.is_zipf() ? zipf::draw(2 * keys, count(), work.kind == Work::Kind::near) : order;
    }

    // Does one worker's part.
    template <class Index>
    Tally run(std::uint32_t worker, const std::vector<std::uint32_t> &known, Index &index) const {
        switch (work.kind) {
        case Work::Kind::load:
            return load(worker, known, index);
        case Work::Kind::mix:
        case Work::Kind::zipf:
        case Work::Kind::near:
            return mix(worker, known, index);
        case Work::Kind::set:
            return set_often(worker, index);
        case Work::Kind::remove:
            return remove_each(worker, known, index);
        case Work::Kind::scan:
            return scan_often(worker, index);
        }
        return {};
    }

private:
    // How many pairs a scan asks for.
    static constexpr std::size_t scanned = 100;

    // A key below twice their number.
    Key drawn_key(Dice &dice) const { return dice.below(2 * keys); }

    template <class Index>
    Tally load(std::uint32_t worker, const std::vector<std::uint32_t> &known, Index &index) const {
        Tally tally;
        for (std::size_t place = worker; place < known.size(); place += threads) {
            tally.inserted += index.put(known[place], known[place]);
        }
        return tally;
    }

    template <class Index>
    Tally remove_each(std::uint32_t worker, const std::vector<std::uint32_t> &known, Index &index) const {
        Tally tally;
        if constexpr (Index::can_remove) {
            for (std::size_t place = worker; place < known.size(); place += threads) {
                tally.removed += index.remove(2 * Key{known[place]}).has_value();
            }
        }
        return tally;
    }

    template <class Index>
    Tally mix(std::uint32_t worker, const std::vector<std::uint32_t> &known, Index &index) const {
        Tally tally;
        Dice dice(worker, 1);
        const bool is_known = work.is_zipf();
        const std::size_t start = std::size_t{turns()} * worker;
        for (std::uint32_t turn = 0; turn < turns(); ++turn) {
            const Key key = is_known ? known[start + turn] : drawn_key(dice);
            const std::uint32_t draw = dice.below(200);
            if (draw / 2 < work.gets) {
                tally.found += index.get(key).has_value();
            } else if (draw % 2 == 0) {
                tally.inserted += index.put(key, key);
            } else if constexpr (Index::can_remove) {
                tally.removed += index.remove(key).has_value();
            }
        }
        return tally;
    }

    template <class Index>
    Tally set_often(std::uint32_t worker, Index &index) const {
        Tally tally;
        Dice dice(worker, 1);
        for (std::uint32_t turn = 0; turn < turns(); ++turn) {
            const Key key = 2 * Key{dice.below(keys)};
            const bool was_there = index.set(key, dice.word()).has_value();
            ++(was_there ? tally.replaced : tally.inserted);
        }
        return tally;
    }

    template <class Index>
    Tally scan_often(std::uint32_t worker, const Index &index) const {
        Tally tally;
        Dice dice(worker, 1);
        for (std::uint32_t turn = 0; turn < turns(); ++turn) {
            const Pairs pairs = index.scan(drawn_key(dice), scanned);
            // the compiler is to believe that somebody reads the pairs
            asm volatile("" : : "r"(pairs.data()) : "memory");
            tally.scanned += pairs.size();
        }
        return tally;
    }
};
