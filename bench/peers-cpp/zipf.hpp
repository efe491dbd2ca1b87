// Keys drawn by Zipf's distribution with exponent 0.99, the same as bench_tree draws, and so by integers.

#pragma once

#include "dice.hpp"

#include <algorithm>
#include <cstddef>
#include <cstdint>
#include <vector>

namespace zipf {

// The weight of the first rank: so great that a later one, rounded down, is wrong by less than a
// ten-thousandth up to millions of ranks, and so small that no sum or product here reaches 2^64.
constexpr std::uint64_t first_weight = std::uint64_t{1} << 54;

// A prime above every `end`, so that the ranks times this, modulo `end`, are all the keys.
constexpr std::uint64_t step = 2'654'435'761;

// The weights of the ranks, each with those of the ranks before it. Those of all ranks r are as r^-0.99 to
// within a thousandth: from r to r + 1 that falls by (1 + 1/r)^-0.99, which is (r + 1/200) / (r + 199/200)
// but for terms of 1/r^3.
inline std::vector<std::uint64_t> cumulative_weights(std::uint32_t ranks) {
    std::vector<std::uint64_t> sums;
    sums.reserve(ranks);
    std::uint64_t weight = first_weight;
    std::uint64_t sum = 0;
    for (std::uint64_t rank = 1; rank <= ranks; ++rank) {
        sum += weight;
        sums.push_back(sum);
        weight = weight * (200 * rank + 1) / (200 * rank + 199);
    }
    return sums;
}

// So many keys, each below `end`. Those that are drawn often are the least ones, or don't lie side by side.
inline std::vector<std::uint32_t> draw(std::uint32_t end, std::size_t count, bool are_near) {
    const auto sums = cumulative_weights(end);
    Dice dice(0, 2);
    std::vector<std::uint32_t> keys(count);
    for (auto &key : keys) {
        const std::uint64_t drawn = dice.long_word() % sums.back();
        const auto rank = static_cast<std::uint64_t>(std::upper_bound(sums.begin(), sums.end(), drawn) - sums.begin());
        key = static_cast<std::uint32_t>(are_near ? rank : rank * step % end);
    }
    return keys;
}

} // namespace zipf
