//! Drawn numbers, and the cases that are made by them.

use std::env;
use std::ops::Bound::{self, Excluded, Included, Unbounded};
use std::thread;

/// The variable that names the seed of the one case that is to be run.
const SEED: &str = "NIFFORAN_SEED";

/// Numbers by SplitMix64 (Steele, Lea and Flood, 2014), which may begin with any seed.
pub struct Dice(u64);

impl Dice {
    fn number(&mut self) -> u64 {
        self.0 = self.0.wrapping_add(0x9e37_79b9_7f4a_7c15);
        let mixed = (self.0 ^ (self.0 >> 30)).wrapping_mul(0xbf58_476d_1ce4_e5b9);
        let mixed = (mixed ^ (mixed >> 27)).wrapping_mul(0x94d0_49bb_1331_11eb);
        mixed ^ (mixed >> 31)
    }

    /// A number below the sides.
    pub fn throw(&mut self, sides: u64) -> u64 {
        self.number() % sides
    }

    pub fn one_of<T: Copy>(&mut self, those: &[T]) -> T {
        those[self.throw(those.len() as u64) as usize]
    }

    /// An end of a range at the key, or none.
    pub fn bound(&mut self, key: u64) -> Bound<u64> {
        match self.throw(5) {
            0 => Unbounded,
            1 | 2 => Included(key),
            _ => Excluded(key),
        }
    }
}

/// The seed of the one case that is to be run, if one is named.
pub fn named_seed() -> Option<u64> {
    let named = env::var(SEED).ok()?;
    Some(named.parse().expect("NIFFORAN_SEED is a number"))
}

/// Runs so many cases, by the seeds from 0 on, or the one whose seed is named.
pub fn for_each_seed(cases: u64, mut case: impl FnMut(u64, Dice)) {
    let seeds = named_seed().map_or(0..cases, |seed| seed..seed + 1);
    for seed in seeds {
        let _told = ToldInPanic(seed);
        case(seed, Dice(seed));
    }
}

/// The seed of a case, which is printed where that panics.
struct ToldInPanic(u64);

impl Drop for ToldInPanic {
    fn drop(&mut self) {
        if thread::panicking() {
            let thread = thread::current();
            let test = thread.name().unwrap_or("");
            eprintln!("again: {SEED}={} cargo test --test drawn {test}", self.0);
        }
    }
}
