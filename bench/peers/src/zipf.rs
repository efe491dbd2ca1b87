//! Keys drawn by Zipf's distribution with exponent 0.99, the same as `bench_tree` draws, and so by integers.

use crate::dice::Dice;

/// The weight of the first rank: so great that a later one, rounded down, is wrong by less than a
/// ten-thousandth up to millions of ranks, and so small that no sum or product here reaches 2^64.
const FIRST_WEIGHT: u64 = 1 << 54;

/// A prime above every `end`, so that the ranks times this, modulo `end`, are all the keys.
const STEP: u64 = 2_654_435_761;

/// So many keys, each below `end`. Those that are drawn often are the least ones, or don't lie side by side.
pub fn draw(end: u32, count: u32, are_near: bool) -> Vec<u32> {
    let sums = cumulative_weights(end);
    let total = *sums.last().expect("there is a key");
    let mut dice = Dice::new(0, 2);
    (0..count)
        .map(|_| {
            let drawn = dice.long_word() % total;
            let rank = sums.partition_point(|sum| *sum <= drawn);
            if are_near {
                rank as u32
            } else {
                (rank as u64 * STEP % u64::from(end)) as u32
            }
        })
        .collect()
}

/// The weights of the ranks, each with those of the ranks before it.
fn cumulative_weights(ranks: u32) -> Vec<u64> {
    let mut weight = FIRST_WEIGHT;
    let mut sum = 0;
    (1..=ranks)
        .map(|rank| {
            sum += weight;
            weight = next_weight(weight, rank);
            sum
        })
        .collect()
}

/// The weight of the next rank. Those of all ranks r are as r^-0.99 to within a thousandth: from r to
/// r + 1 that falls by (1 + 1/r)^-0.99, which is (r + 1/200) / (r + 199/200) but for terms of 1/r^3.
fn next_weight(weight: u64, rank: u32) -> u64 {
    let base = 200 * u64::from(rank);
    weight * (base + 1) / (base + 199)
}
