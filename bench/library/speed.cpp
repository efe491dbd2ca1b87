// Times puts and gets of the library beside std::map's, and absl::btree_map's where its headers are there, in one
// process: nanoseconds of processor time a call, the median of n rounds (n is the first argument, or five) in which each
// map has its turn. Processor time leaves out when other programs run.
#include <algorithm>
#include <cstdint>
#include <cstdio>
#include <cstdlib>
#include <map>
#include <time.h>
#include <vector>

#if __has_include(<absl/container/btree_map.h>)
#include <absl/container/btree_map.h>
#define HAS_ABSL 1
#endif

#include "nifforan.h"

// Keys in random order: the finalizer of splitmix64, which is one to one.
static std::uint64_t mixed(std::uint64_t n) {
    n = (n ^ (n >> 30)) * 0xbf58476d1ce4e5b9u;
    n = (n ^ (n >> 27)) * 0x94d049bb133111ebu;
    return n ^ (n >> 31);
}

static void must(bool holds) {
    if (!holds) std::abort();
}

// The processor time that this process has taken, in nanoseconds.
static double processor_time() {
    timespec time;
    must(clock_gettime(CLOCK_PROCESS_CPUTIME_ID, &time) == 0);
    return 1e9 * double(time.tv_sec) + double(time.tv_nsec);
}

template <typename Work> static double nanoseconds(std::uint64_t calls, Work work) {
    const double start = processor_time();
    work();
    return (processor_time() - start) / double(calls);
}

static double median(std::vector<double> rounds) {
    std::sort(rounds.begin(), rounds.end());
    return rounds[rounds.size() / 2];
}

// The most changes that a page may carry is CHAIN: few are good for gets, many for puts.
template <std::uint32_t CHAIN> class Library {
public:
    // with room for the keys, also where pages are a quarter full
    explicit Library(std::uint64_t keys) {
        const auto pages = static_cast<std::uint32_t>(std::clamp<std::uint64_t>(keys / 16, 64, 65536));
        const nifforan_settings settings = { sizeof(nifforan_settings), 64, CHAIN, pages, 1000, 0 };
        must(nifforan_create(&handle, &settings) == NIFFORAN_OK);
    }
    ~Library() { nifforan_close(&handle); }
    Library(const Library &) = delete;
    Library &operator=(const Library &) = delete;
    void put(std::uint64_t key, std::uint64_t value) {
        const nifforan_reply reply = nifforan_put(&handle, key, value);
        must(reply.status == NIFFORAN_OK && !reply.found);
    }
    void find(std::uint64_t key, std::uint64_t value) {
        const nifforan_reply reply = nifforan_get(&handle, key);
        must(reply.found && reply.value == value);
    }

private:
    nifforan handle = NIFFORAN_CLOSED;
};

template <typename Map> class Plain {
public:
    explicit Plain(std::uint64_t) {}
    void put(std::uint64_t key, std::uint64_t value) { must(map.emplace(key, value).second); }
    void find(std::uint64_t key, std::uint64_t value) {
        const auto found = map.find(key);
        must(found != map.end() && found->second == value);
    }

private:
    Map map;
};

// What a map's calls took in each round, nanoseconds.
struct Took {
    const char *name, *chain;
    std::vector<double> puts, gets;
};

template <typename Map> static void round_of(Took &took, std::uint64_t keys) {
    Map map(keys);
    took.puts.push_back(nanoseconds(keys, [&] {
        for (std::uint64_t n = 0; n < keys; n++) map.put(mixed(n), n);
    }));
    took.gets.push_back(nanoseconds(keys, [&] {
        for (std::uint64_t n = 0; n < keys; n++) map.find(mixed(n), n);
    }));
}

static void rows(std::uint64_t keys, long rounds) {
    Took plain{"std::map", "", {}, {}}, absl{"absl::btree_map", "", {}, {}};
    Took fewer{"nifforan", "1", {}, {}}, more{"nifforan", "8", {}, {}};
    for (long i = 0; i < rounds; i++) {
        round_of<Plain<std::map<std::uint64_t, std::uint64_t>>>(plain, keys);
#ifdef HAS_ABSL
        round_of<Plain<absl::btree_map<std::uint64_t, std::uint64_t>>>(absl, keys);
#endif
        round_of<Library<1>>(fewer, keys);
        round_of<Library<8>>(more, keys);
    }
    for (const Took *took : {&plain, &absl, &fewer, &more}) {
        if (took->puts.empty()) continue;
        std::printf("| %llu | %s | %s | %.0f | %.0f |\n", (unsigned long long)keys, took->name, took->chain, median(took->puts), median(took->gets));
    }
}

int main(int count, char **words) {
    const long rounds = count > 1 ? std::atol(words[1]) : 5;
    must(rounds > 0);
    std::printf("| keys | map | chain | put, ns | get, ns |\n|---|---|---|---|---|\n");
    for (const std::uint64_t keys : {1000u, 100000u, 1000000u}) rows(keys, rounds);
}
