// The operations of bench_tree on ordered maps of C++ libraries.

#include "index.hpp"
#include "task.hpp"

#include <charconv>
#include <chrono>
#include <cstdint>
#include <iomanip>
#include <iostream>
#include <optional>
#include <string_view>
#include <thread>
#include <utility>
#include <vector>

namespace {

constexpr std::string_view usage = R"(usage: peers STRUCTURE WORK THREADS KEYS OPERATIONS
       peers tallies KEYS OPERATIONS
STRUCTURE is absl or tbb, if this was built with it;
WORK is load, rising, set, delete, scan, 100, 95, 50 (percent of gets beside puts and deletes), zipf, zipf95, zipf50, near, near50,
fill or fill-rising (scans after the one or other load). tbb has no deletes beside other threads.
)";

struct Run {
    Tally tally;
    std::chrono::duration<double> time;
};

// Does the task on a new index, each worker in a thread of its own.
template <class Index>
Run run(const Task &task) {
    Index index;
    auto order = task.order();
    task.fill(index, order);
    const auto known = task.known_keys(std::move(order));
    std::vector<Tally> tallies(task.threads);
    std::vector<std::thread> threads;
    const auto start = std::chrono::steady_clock::now();
    for (std::uint32_t worker = 0; worker < task.threads; ++worker) {
        threads.emplace_back([&, worker] { tallies[worker] = task.run(worker, known, index); });
    }
    for (auto &thread : threads) {
        thread.join();
    }
    Run run{{}, std::chrono::steady_clock::now() - start};
    for (const auto &tally : tallies) {
        run.tally += tally;
    }
    return run;
}

template <class Index>
bool is_for(const Work &work) {
    return Index::can_remove || !work.has_deletes();
}

// How many million operations a second are done.
template <class Index>
bool print_rate(const Task &task) {
    if (!is_for<Index>(task.work)) {
        return false;
    }
    const double rate = task.count() / 1e6 / run<Index>(task).time.count();
    std::cout << Index::name << ' ' << std::fixed << std::setprecision(3) << rate << '\n';
    return true;
}

// What one worker is answered.
template <class Index>
void print_tally(const Task &task) {
    if (is_for<Index>(task.work)) {
        std::cout << Index::name << ' ' << task.work.name << ": " << run<Index>(task).tally << '\n';
    }
}

// Each structure that was built in.
bool print_rate_of(std::string_view name, const Task &task) {
#ifdef WITH_ABSL
    if (name == AbslIndex::name) {
        return print_rate<AbslIndex>(task);
    }
#endif
#ifdef WITH_TBB
    if (name == TbbIndex::name) {
        return print_rate<TbbIndex>(task);
    }
#endif
    return false;
}

void print_tallies_of(const Task &task) {
#ifdef WITH_ABSL
    print_tally<AbslIndex>(task);
#endif
#ifdef WITH_TBB
    print_tally<TbbIndex>(task);
#endif
}

std::optional<std::uint32_t> number(std::string_view word, std::uint32_t least, std::uint32_t most) {
    std::uint32_t number = 0;
    const char *const end = word.data() + word.size();
    const auto [rest, error] = std::from_chars(word.data(), end, number);
    const bool is_fine = error == std::errc() && rest == end && least <= number && number <= most;
    return is_fine ? std::optional(number) : std::nullopt;
}

std::optional<Task> task_of(Work work, std::string_view threads, std::string_view keys, std::string_view operations) {
    const auto thread_count = number(threads, 1, 64);
    const auto key_count = number(keys, 1, std::uint32_t{1} << 30);
    const auto operation_count = number(operations, 0, UINT32_MAX);
    if (!thread_count || !key_count || !operation_count) {
        return std::nullopt;
    }
    return Task{work, *thread_count, *key_count, *operation_count};
}

bool answer(const std::vector<std::string_view> &words) {
    if (words.size() == 3 && words[0] == "tallies") {
        for (const Work &work : works) {
            const auto task = task_of(work, "1", words[1], words[2]);
            if (!task) {
                return false;
            }
            print_tallies_of(*task);
        }
        return true;
    }
    if (words.size() != 5) {
        return false;
    }
    for (const Work &work : works) {
        if (work.name == words[1]) {
            const auto task = task_of(work, words[2], words[3], words[4]);
            return task && print_rate_of(words[0], *task);
        }
    }
    return false;
}

} // namespace

int main(int count, char **words) {
    if (answer({words + 1, words + count})) {
        return 0;
    }
    std::cerr << usage;
    return 2;
}
