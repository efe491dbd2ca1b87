// Maps of C++17 over nifforan.h. A Map owns its handle, and can be moved but not copied. A Frozen has a map that nobody changes:
// many threads read it at once, each through a Frozen of its own, which share makes.
//
// A call that fails throws NoMemory, which is a std::bad_alloc as in other containers, or else a Fault. Its twin whose name
// begins with try_ throws nothing, and returns the status as nifforan.h does, for programs without exceptions and for loops that
// often meet a full map. A fault that only cuts page maintenance short is never thrown, since the answer stands: care() tells it.
//
// No call is const. Each writes the word of its handle, even if it only looks. So two threads may not make calls at once on one
// Map or Frozen, which a const call would promise in C++.
#pragma once

#include <cstddef>
#include <cstdint>
#include <iterator>
#include <limits>
#include <new>
#include <optional>
#include <stdexcept>
#include <string>
#include <utility>

#include "nifforan.h"

namespace nifforan_cpp {

class Fault : public std::runtime_error {
public:
    explicit Fault(std::uint32_t status)
        : std::runtime_error(std::string("nifforan: ") + nifforan_status_text(status).text), status(status) {}
    const std::uint32_t status;
};

class NoMemory : public std::bad_alloc {
public:
    const char *what() const noexcept override { return meaning.text; }

private:
    nifforan_text meaning = nifforan_status_text(NIFFORAN_NO_MEMORY);
};

// Throws what the status says, unless it is NIFFORAN_OK.
inline void check(std::uint32_t status) {
    if (status == NIFFORAN_NO_MEMORY) throw NoMemory();
    if (status != NIFFORAN_OK) throw Fault(status);
}

// A handle, and the calls that look at its map. They need no memory. If the map was moved from, they throw.
class Reads {
public:
    using key_type = std::uint64_t;
    using mapped_type = std::uint64_t;
    using value_type = std::pair<std::uint64_t, std::uint64_t>;
    using size_type = std::uint64_t;
    class Iterator;
    class Range;
    using iterator = Iterator;
    using const_iterator = Iterator;
    using reverse_iterator = std::reverse_iterator<Iterator>;

    ~Reads() { nifforan_close(&handle); }
    Reads(const Reads &) = delete;
    Reads &operator=(const Reads &) = delete;

    std::uint64_t size() { return count().pairs; }
    bool empty() { return size() == 0; }
    // How many more pages there is room for. If there is none, pairs still go in, and pages grow longer.
    std::uint64_t free_pages() { return count().free_pages; }
    std::optional<std::uint64_t> get(std::uint64_t key) { return value(nifforan_get(&handle, key)); }
    bool contains(std::uint64_t key) { return get(key).has_value(); }
    // The value at the key. Throws std::out_of_range if there is none.
    std::uint64_t at(std::uint64_t key) {
        if (const auto there = get(key)) return *there;
        throw std::out_of_range("nifforan: no such key");
    }
    // The pairs with the least key and with the greatest, and the nearest ones at a key or beside it.
    std::optional<value_type> first() { return pair(nifforan_first(&handle)); }
    std::optional<value_type> last() { return pair(nifforan_last(&handle)); }
    std::optional<value_type> next_at(std::uint64_t key) { return pair(nifforan_next_at(&handle, key)); }
    std::optional<value_type> previous_at(std::uint64_t key) { return pair(nifforan_previous_at(&handle, key)); }

    Iterator begin();
    Iterator end();
    reverse_iterator rbegin();
    reverse_iterator rend();
    Iterator find(std::uint64_t key);
    // At the first pair whose key is not below this one, and at the first above it.
    Iterator lower_bound(std::uint64_t key);
    Iterator upper_bound(std::uint64_t key);
    // The pairs from the low on and below the high.
    Range range(std::uint64_t low, nifforan_high high);

protected:
    Reads() = default;
    explicit Reads(nifforan handle) noexcept : handle(handle) {}
    Reads(Reads &&other) noexcept : handle(other.let_go()) {}
    // The handle, which is closed here from now on.
    nifforan let_go() noexcept {
        changes++;
        return std::exchange(handle, nifforan{nullptr});
    }
    void swap_handles(Reads &other) noexcept {
        std::swap(handle, other.handle);
        changes++;
    }
    nifforan_count count() {
        const nifforan_count count = nifforan_pairs(&handle);
        check(count.status);
        return count;
    }
    static std::optional<std::uint64_t> value(const nifforan_reply &reply) {
        check(reply.status);
        if (!reply.found) return std::nullopt;
        return reply.value;
    }
    template <typename Found> static std::optional<value_type> pair(const Found &found) {
        check(found.status);
        if (!found.found) return std::nullopt;
        return value_type{found.key, found.value};
    }

    nifforan handle = NIFFORAN_CLOSED;
    // how many calls may have changed what iterators have read
    std::uint64_t changes = 0;
};

// A place in a map: at a pair, or past all pairs. It reads a few pairs at once, and again if the map has changed. So it stays
// valid whatever changes, even if its pair is erased, and goes on from its key in the map as it is then. It is valid as long as
// the map it was made from, which may not be moved. As with a std::vector<bool>, *it is a value, not a reference.
class Reads::Iterator {
public:
    using iterator_category = std::bidirectional_iterator_tag;
    using value_type = Reads::value_type;
    using difference_type = std::ptrdiff_t;
    using reference = value_type;
    class pointer {
    public:
        const value_type *operator->() const { return &pair; }

    private:
        friend class Iterator;
        explicit pointer(value_type pair) : pair(pair) {}
        value_type pair;
    };

    Iterator() = default;
    reference operator*() const { return {window[place].key, window[place].value}; }
    pointer operator->() const { return pointer(**this); }
    Iterator &operator++() {
        if (place + 1 < count && is_fresh()) {
            place++;
        } else if (is_last()) {
            count = 0;
        } else {
            read_from(window[place].key + 1);
        }
        return *this;
    }
    Iterator &operator--() {
        if (count != 0 && place > 0 && is_fresh()) {
            place--;
        } else {
            read_below(count == 0 ? NIFFORAN_TOP : NIFFORAN_BELOW(window[place].key));
        }
        return *this;
    }
    Iterator operator++(int) {
        Iterator before = *this;
        ++*this;
        return before;
    }
    Iterator operator--(int) {
        Iterator before = *this;
        --*this;
        return before;
    }
    friend bool operator==(const Iterator &a, const Iterator &b) {
        return a.count == 0 || b.count == 0 ? a.count == b.count : a.window[a.place].key == b.window[b.place].key;
    }
    friend bool operator!=(const Iterator &a, const Iterator &b) { return !(a == b); }

private:
    friend class Reads;
    static constexpr std::size_t ROOM = 16;

    Iterator(Reads &map, const nifforan_found &found) : map(&map), changes(map.changes), count(found.found ? 1 : 0) {
        check(found.status);
        window[0] = nifforan_pair{found.key, found.value};
    }
    bool is_fresh() const { return changes == map->changes; }
    bool is_last() const {
        return window[place].key == std::numeric_limits<std::uint64_t>::max() || (place + 1 == count && ends && is_fresh());
    }
    void read_from(std::uint64_t low) {
        const nifforan_read_answer read = nifforan_read(&map->handle, low, NIFFORAN_TOP, window, ROOM);
        check(read.status);
        filled(read.count, 0, !read.has_next);
    }
    // The window rises, even if it is read backwards.
    void read_below(nifforan_high high) {
        nifforan_pair falling[ROOM];
        const nifforan_read_answer read = nifforan_read_back(&map->handle, 0, high, falling, ROOM);
        check(read.status);
        for (std::size_t i = 0; i < read.count; i++) window[read.count - 1 - i] = falling[i];
        filled(read.count, read.count == 0 ? 0 : read.count - 1, high.is_top);
    }
    void filled(std::size_t pairs, std::size_t at, bool has_end) {
        changes = map->changes;
        count = pairs;
        place = at;
        ends = has_end;
    }

    Reads *map = nullptr;
    std::uint64_t changes = 0;
    nifforan_pair window[ROOM] = {};
    std::size_t count = 0;  // of the pairs in the window: 0 past all pairs
    std::size_t place = 0;
    bool ends = false;  // no pair is past those of the window
};

// The pairs of a map in a range of keys.
class Reads::Range {
public:
    Iterator begin() const { return first; }
    Iterator end() const { return past; }
    reverse_iterator rbegin() const { return reverse_iterator(past); }
    reverse_iterator rend() const { return reverse_iterator(first); }

private:
    friend class Reads;
    Range(Iterator first, Iterator past) : first(first), past(past) {}
    Iterator first, past;
};

inline Reads::Iterator Reads::begin() { return Iterator(*this, nifforan_first(&handle)); }
inline Reads::Iterator Reads::end() { return Iterator(*this, nifforan_found{NIFFORAN_OK, false, 0, 0}); }
inline Reads::reverse_iterator Reads::rbegin() { return reverse_iterator(end()); }
inline Reads::reverse_iterator Reads::rend() { return reverse_iterator(begin()); }
inline Reads::Iterator Reads::find(std::uint64_t key) {
    const nifforan_reply reply = nifforan_get(&handle, key);
    return Iterator(*this, nifforan_found{reply.status, reply.found, key, reply.value});
}
inline Reads::Iterator Reads::lower_bound(std::uint64_t key) { return Iterator(*this, nifforan_next_at(&handle, key)); }
inline Reads::Iterator Reads::upper_bound(std::uint64_t key) {
    return key == std::numeric_limits<std::uint64_t>::max() ? end() : lower_bound(key + 1);
}
inline Reads::Range Reads::range(std::uint64_t low, nifforan_high high) {
    const Iterator past = high.is_top ? end() : lower_bound(high.key);
    return Range(high.is_top || low < high.key ? lower_bound(low) : past, past);
}

class Frozen;

class Map : public Reads {
public:
    explicit Map(const nifforan_settings &settings = NIFFORAN_USUAL_SETTINGS) { check(try_open(settings)); }
    // The map that is moved from is closed.
    Map(Map &&other) noexcept : Reads(std::move(other)), cut_short(std::exchange(other.cut_short, NIFFORAN_OK)) {}
    Map &operator=(Map &&other) noexcept {
        Map moved(std::move(other));
        swap_handles(moved);
        std::swap(cut_short, moved.cut_short);
        return *this;
    }

    // A map with these pairs, whose keys must rise.
    static Map from_sorted(const nifforan_pair *pairs, std::size_t count, const nifforan_settings &settings = NIFFORAN_USUAL_SETTINGS) {
        Map map = closed();
        check(map.try_from_sorted(pairs, count, settings).status);
        return map;
    }
    [[nodiscard]] nifforan_filled try_from_sorted(const nifforan_pair *pairs, std::size_t count,
                                                  const nifforan_settings &settings = NIFFORAN_USUAL_SETTINGS) noexcept {
        const nifforan_pair none{0, 0};
        return nifforan_from_sorted(&handle, &settings, count == 0 ? &none : pairs, count);
    }

    // A closed map, for try_open, which returns a status: NIFFORAN_OPEN_HANDLE if the map isn't closed.
    static Map closed() noexcept { return Map(nifforan{nullptr}); }
    [[nodiscard]] std::uint32_t try_open(const nifforan_settings &settings = NIFFORAN_USUAL_SETTINGS) noexcept {
        return nifforan_create(&handle, &settings);
    }

    // Gives the key the value unless it has one, and returns the old one.
    std::optional<std::uint64_t> put(std::uint64_t key, std::uint64_t v) { return value(try_put(key, v)); }
    [[nodiscard]] nifforan_reply try_put(std::uint64_t key, std::uint64_t v) noexcept { return seen(nifforan_put(&handle, key, v)); }
    // Gives the key the value, and returns the old one.
    std::optional<std::uint64_t> set(std::uint64_t key, std::uint64_t v) { return value(try_set(key, v)); }
    [[nodiscard]] nifforan_reply try_set(std::uint64_t key, std::uint64_t v) noexcept { return seen(nifforan_set(&handle, key, v)); }
    // Takes the key out, and returns its value.
    std::optional<std::uint64_t> erase(std::uint64_t key) { return value(try_erase(key)); }
    [[nodiscard]] nifforan_reply try_erase(std::uint64_t key) noexcept { return seen(nifforan_delete(&handle, key)); }
    // If the key has the expected value, or no value if none is expected, gives it the new value, or takes it out if there is
    // none. Returns the old value: if that is the expected one, the key was changed.
    std::optional<std::uint64_t> compare_and_set(std::uint64_t key, std::optional<std::uint64_t> expected, std::optional<std::uint64_t> v) {
        return value(try_compare_and_set(key, expected, v));
    }
    [[nodiscard]] nifforan_reply try_compare_and_set(std::uint64_t key, std::optional<std::uint64_t> expected,
                                                     std::optional<std::uint64_t> v) noexcept {
        const nifforan_optional wanted = optional(expected), given = optional(v);
        return seen(nifforan_compare_and_set(&handle, key, &wanted, &given));
    }
    // Gives the key the value that the function makes of its old one, or of none, and returns it. Looks the key up twice.
    template <typename Make> std::uint64_t upsert(std::uint64_t key, Make make) {
        const std::uint64_t made = make(get(key));
        set(key, made);
        return made;
    }
    // Takes out the pair with the least key, or with the greatest, and returns it.
    std::optional<value_type> pop_first() { return pair(try_pop_first()); }
    std::optional<value_type> pop_last() { return pair(try_pop_last()); }
    [[nodiscard]] nifforan_popped try_pop_first() noexcept { return seen(nifforan_pop_first(&handle)); }
    [[nodiscard]] nifforan_popped try_pop_last() noexcept { return seen(nifforan_pop_last(&handle)); }
    // Sets each of the pairs, one after the other. If it throws, the first ones are set; try_extend says how many.
    void extend(const nifforan_pair *pairs, std::size_t count) { check(try_extend(pairs, count).status); }
    [[nodiscard]] nifforan_filled try_extend(const nifforan_pair *pairs, std::size_t count) noexcept {
        const nifforan_pair none{0, 0};
        return seen(nifforan_extend(&handle, count == 0 ? &none : pairs, count));
    }
    // Takes out the pair at the iterator, and returns an iterator at the next one.
    Iterator erase(Iterator at) {
        const std::uint64_t key = at->first;
        erase(key);
        return upper_bound(key);
    }
    // Takes out the keys from the low on and below the high, and returns how many. If it throws, some of them are out.
    std::uint64_t clear(std::uint64_t low = 0, nifforan_high high = NIFFORAN_TOP) {
        const nifforan_cleared cleared = try_clear(low, high);
        check(cleared.status);
        return cleared.removed;
    }
    [[nodiscard]] nifforan_cleared try_clear(std::uint64_t low = 0, nifforan_high high = NIFFORAN_TOP) noexcept {
        changes++;
        return nifforan_clear(&handle, low, high);
    }
    // Takes memory ahead for that many pairs, as in an unordered_map: those already there count. It throws
    // NIFFORAN_TABLE_FULL if the settings allow too few pages.
    void reserve(std::uint64_t pairs) { check(try_reserve(pairs)); }
    [[nodiscard]] std::uint32_t try_reserve(std::uint64_t pairs) noexcept {
        const std::uint64_t there = nifforan_pairs(&handle).pairs;
        return nifforan_reserve(&handle, pairs > there ? pairs - there : 0);
    }
    // Rebuilds the map to give back the memory for pages that the pairs don't need. If it throws, the map stays as it was.
    void shrink_to_fit() { check(try_shrink_to_fit()); }
    [[nodiscard]] std::uint32_t try_shrink_to_fit() noexcept { return nifforan_shrink(&handle); }
    // What cut page maintenance short in the last call that changed the map, except clear: NIFFORAN_OK, or a fault. The call's
    // answer stands, and a later call resumes the maintenance.
    std::uint32_t care() const noexcept { return cut_short; }

    // The map, which nobody changes from now on. This Map is then closed; if it throws, it stays as it was.
    Frozen freeze();
    [[nodiscard]] std::uint32_t try_freeze(Frozen &frozen) noexcept;

private:
    friend class Frozen;
    explicit Map(nifforan handle) noexcept : Reads(handle) {}

    template <typename Answer> Answer seen(const Answer &answer) noexcept {
        changes++;
        cut_short = answer.care;
        return answer;
    }
    static nifforan_optional optional(std::optional<std::uint64_t> v) noexcept { return {v.value_or(0), v.has_value()}; }

    std::uint32_t cut_short = NIFFORAN_OK;
};

// A map that nobody changes. Many threads read it at once, each through a Frozen of its own, which share makes.
class Frozen : public Reads {
public:
    // Closed, for try_freeze and try_share.
    Frozen() = default;
    Frozen(Frozen &&other) noexcept : Reads(std::move(other)) {}
    Frozen &operator=(Frozen &&other) noexcept {
        Frozen moved(std::move(other));
        swap_handles(moved);
        return *this;
    }

    // One more of the same map.
    Frozen share() {
        Frozen another;
        check(try_share(another));
        return another;
    }
    // Puts it into `another`, unless the answer is a fault.
    [[nodiscard]] std::uint32_t try_share(Frozen &another) noexcept {
        Frozen made;
        const std::uint32_t status = nifforan_share(&handle, &made.handle);
        if (status == NIFFORAN_OK) another = std::move(made);
        return status;
    }
    // The map, to be changed again. This Frozen is then closed. If others have the map, it throws NIFFORAN_SHARED, and stays.
    Map thaw() {
        Map map = Map::closed();
        check(try_thaw(map));
        return map;
    }
    // Puts it into `map`, unless the answer is a fault.
    [[nodiscard]] std::uint32_t try_thaw(Map &map) noexcept {
        const std::uint32_t status = nifforan_thaw(&handle);
        if (status == NIFFORAN_OK) map = Map(let_go());
        return status;
    }

private:
    friend class Map;
    explicit Frozen(nifforan handle) noexcept : Reads(handle) {}
};

inline Frozen Map::freeze() {
    Frozen frozen;
    check(try_freeze(frozen));
    return frozen;
}

inline std::uint32_t Map::try_freeze(Frozen &frozen) noexcept {
    const std::uint32_t status = nifforan_freeze(&handle);
    if (status == NIFFORAN_OK) frozen = Frozen(let_go());
    return status;
}

}  // namespace nifforan_cpp
