// Squares of a few numbers, in a map that is moved, and read by two threads while it is frozen.
#include <cstdio>
#include <thread>

#include "nifforan/map.hpp"

using nifforan_cpp::Frozen;
using nifforan_cpp::Map;

static unsigned long long shown(std::uint64_t number) { return number; }

int main() {
    Map made;
    for (std::uint64_t n = 1; n <= 1000; n++) made.put(n, n * n);
    Map map = std::move(made);
    std::printf("12 squared: %llu of %llu\n", shown(map.at(12)), shown(map.size()));
    map.erase(12);
    std::printf("12 is %s\n", map.contains(12) ? "there" : "gone");
    std::uint64_t sum = 0;
    for (const auto [key, square] : map.range(991, NIFFORAN_TOP)) sum += square;
    std::printf("the last ten come to %llu\n", shown(sum));

    Frozen mine = map.freeze();
    Frozen theirs = mine.share();
    std::uint64_t rising = 0, falling = 0;
    std::thread reader([&rising, &theirs] {
        for (const auto [key, square] : theirs.range(0, NIFFORAN_BELOW(100))) rising += square;
    });
    const auto squares = mine.range(0, NIFFORAN_BELOW(100));
    for (auto it = squares.rbegin(); it != squares.rend(); ++it) falling += it->second;
    reader.join();
    std::printf("two threads come to %llu and %llu\n", shown(rising), shown(falling));
    try {
        map = mine.thaw();
        return 1;
    } catch (const nifforan_cpp::Fault &fault) {
        std::printf("%s\n", fault.what());
    }
    { Frozen gone = std::move(theirs); }
    map = mine.thaw();

    const std::uint64_t cleared = map.clear(0, NIFFORAN_BELOW(991));
    std::printf("%llu cleared, %llu left\n", shown(cleared), shown(map.size()));
    nifforan_settings few = NIFFORAN_USUAL_SETTINGS;
    few.fanout = few.chain = 4;
    few.pages = 8;
    Map full(few);
    for (std::uint64_t n = 1; full.care() == NIFFORAN_OK; n++) full.put(n, n * n);
    std::printf("no page is left to split at %llu squares\n", shown(full.size()));
    try {
        made.size();
        return 1;
    } catch (const nifforan_cpp::Fault &fault) {
        return fault.status == NIFFORAN_CLOSED_HANDLE ? 0 : 1;
    }
}
