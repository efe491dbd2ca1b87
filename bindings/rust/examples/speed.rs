//! Times calls of the library beside `BTreeMap`'s, in one process: nanoseconds of processor time a call, the
//! median of n rounds (n is the first argument, or five) in which each map has its turn. Processor time leaves out
//! when other programs run.
//!
//! `speed MAP WORK KEYS CALLS` only makes the calls, for a profile: MAP is btree or library, and WORK is put, rising,
//! set, get, scan or delete.

use nifforan::{Map, Reads, Settings};
use std::collections::BTreeMap;
use std::hint::black_box;

const KEYS: [u64; 3] = [10_000, 100_000, 1_000_000];

/// The most changes that a page may carry before it is written anew: 1 is the usual setting.
const CHAINS: [u32; 2] = [1, 8];

/// How many pairs a scan reads.
const SCANNED: usize = 100;

/// A scan is made for each n keys.
const KEYS_A_SCAN: u64 = 50;

const WORKS: [&str; 6] = [
    "puts, random order",
    "puts, rising order",
    "sets",
    "gets",
    "scans of 100",
    "deletes",
];

/// What is timed.
trait Ordered {
    /// The value that was there stays.
    fn put(&mut self, key: u64, value: u64) -> Option<u64>;
    fn set(&mut self, key: u64, value: u64) -> Option<u64>;
    fn get(&self, key: u64) -> Option<u64>;
    fn delete(&mut self, key: u64) -> Option<u64>;
    /// The sum of the first values from the key on.
    fn scan(&self, low: u64) -> u64;
}

impl Ordered for BTreeMap<u64, u64> {
    fn put(&mut self, key: u64, value: u64) -> Option<u64> {
        use std::collections::btree_map::Entry;
        match self.entry(key) {
            Entry::Vacant(place) => {
                place.insert(value);
                None
            }
            Entry::Occupied(there) => Some(*there.get()),
        }
    }

    fn set(&mut self, key: u64, value: u64) -> Option<u64> {
        self.insert(key, value)
    }

    fn get(&self, key: u64) -> Option<u64> {
        self.get(&key).copied()
    }

    fn delete(&mut self, key: u64) -> Option<u64> {
        self.remove(&key)
    }

    fn scan(&self, low: u64) -> u64 {
        sum(self.range(low..).map(|(_, value)| *value))
    }
}

impl Ordered for Map {
    fn put(&mut self, key: u64, value: u64) -> Option<u64> {
        Map::put(self, key, value).expect("there is room")
    }

    fn set(&mut self, key: u64, value: u64) -> Option<u64> {
        Map::set(self, key, value).expect("there is room")
    }

    fn get(&self, key: u64) -> Option<u64> {
        Reads::get(self, key)
    }

    fn delete(&mut self, key: u64) -> Option<u64> {
        self.remove(key).expect("a delete takes no page")
    }

    fn scan(&self, low: u64) -> u64 {
        sum(self.range(low..).map(|(_, value)| value))
    }
}

fn sum(values: impl Iterator<Item = u64>) -> u64 {
    values.take(SCANNED).fold(0, u64::wrapping_add)
}

/// Keys in random order: the finalizer of splitmix64, which is one to one.
fn mixed(n: u64) -> u64 {
    let n = (n ^ (n >> 30)).wrapping_mul(0xbf58476d1ce4e5b9);
    let n = (n ^ (n >> 27)).wrapping_mul(0x94d049bb133111eb);
    n ^ (n >> 31)
}

/// C's `timespec`.
#[repr(C)]
struct Time {
    seconds: i64,
    nanoseconds: i64,
}

/// POSIX's number of the clock of a process's processor time, on Linux.
const PROCESSOR_TIME: i32 = 2;

extern "C" {
    fn clock_gettime(clock: i32, time: *mut Time) -> i32;
}

/// The processor time that this process has taken, in nanoseconds.
fn processor_time() -> i64 {
    let mut time = Time {
        seconds: 0,
        nanoseconds: 0,
    };
    // SAFETY: the clock is there, and the time is written to a place of its own.
    assert_eq!(unsafe { clock_gettime(PROCESSOR_TIME, &mut time) }, 0);
    time.seconds * 1_000_000_000 + time.nanoseconds
}

fn nanoseconds(calls: u64, mut call: impl FnMut(u64)) -> f64 {
    let start = processor_time();
    for n in 0..calls {
        call(black_box(n));
    }
    (processor_time() - start) as f64 / calls as f64
}

/// What a call of each work takes on two new maps. Keys are got and set in another order than they were put in.
fn times<M: Ordered>(new: impl Fn() -> M, keys: u64) -> [f64; WORKS.len()] {
    let anywhere = |n: u64| mixed(mixed(n) % keys);
    let mut map = new();
    let put = nanoseconds(keys, |n| assert_eq!(map.put(mixed(n), n), None));
    let set = nanoseconds(keys, |n| assert!(map.set(anywhere(n), n).is_some()));
    let get = nanoseconds(keys, |n| assert!(map.get(anywhere(n)).is_some()));
    let scan = nanoseconds(keys / KEYS_A_SCAN, |n| {
        black_box(map.scan(anywhere(n)));
    });
    let delete = nanoseconds(keys, |n| assert!(map.delete(mixed(n)).is_some()));
    drop(map);
    let mut map = new();
    let rising = nanoseconds(keys, |n| assert_eq!(map.put(n, n), None));
    [put, rising, set, get, scan, delete]
}

/// Makes calls of one work on a map that has n keys already. None where there is no such work.
fn make_calls<M: Ordered>(mut map: M, work: &str, keys: u64, calls: u64) -> Option<()> {
    let anywhere = |n: u64| mixed(mixed(n) % keys);
    let order = |n: u64| if work == "rising" { n } else { mixed(n) };
    for n in 0..keys {
        map.put(order(n), n);
    }
    let mut call: Box<dyn FnMut(u64) -> bool> = match work {
        "put" | "rising" => Box::new(|n| map.put(order(keys + n), n).is_none()),
        "set" => Box::new(|n| map.set(anywhere(n), n).is_some()),
        "get" => Box::new(|n| map.get(anywhere(n)).is_some()),
        "scan" => Box::new(|n| map.scan(anywhere(n)) > 0),
        "delete" => Box::new(|n| map.delete(order(n)).is_some()),
        _ => return None,
    };
    for n in 0..calls {
        assert!(call(black_box(n)));
    }
    Some(())
}

/// Makes the calls that four words tell of.
fn make_told(words: &[String]) -> Option<()> {
    let [map, work, keys, calls] = words else {
        return None;
    };
    let (keys, calls) = (keys.parse().ok()?, calls.parse().ok()?);
    match map.as_str() {
        "btree" => make_calls(BTreeMap::new(), work, keys, calls),
        "library" => make_calls(library(keys + calls, CHAINS[0]), work, keys, calls),
        _ => None,
    }
}

fn library(keys: u64, chain: u32) -> Map {
    // room for the keys, also where pages are a quarter full
    let settings = Settings {
        fanout: 64,
        chain,
        pages: (keys as u32 / 16).clamp(64, 65536),
        ..Settings::default()
    };
    Map::new(&settings).expect("the settings are good")
}

/// The median of each work over rounds.
fn medians(rounds: &[[f64; WORKS.len()]]) -> [f64; WORKS.len()] {
    std::array::from_fn(|work| {
        let mut times: Vec<f64> = rounds.iter().map(|round| round[work]).collect();
        times.sort_by(f64::total_cmp);
        times[times.len() / 2]
    })
}

fn rows(keys: u64, rounds: usize) {
    let mut theirs = Vec::new();
    let mut ours = CHAINS.map(|_| Vec::new());
    for _ in 0..rounds {
        theirs.push(times(BTreeMap::new, keys));
        for (took, chain) in ours.iter_mut().zip(CHAINS) {
            took.push(times(|| library(keys, chain), keys));
        }
    }
    let theirs = medians(&theirs);
    let ours = ours.map(|took| medians(&took));
    for (work, name) in WORKS.iter().enumerate() {
        print!("| {name} | {keys} | {:.0} |", theirs[work]);
        for took in &ours {
            print!(" {:.0} |", took[work]);
        }
        for took in &ours {
            print!(" {:.2} |", theirs[work] / took[work]);
        }
        println!();
    }
}

fn main() {
    let words: Vec<String> = std::env::args().skip(1).collect();
    if words.len() > 1 {
        return make_told(&words).expect("MAP WORK KEYS CALLS");
    }
    let rounds = words
        .first()
        .map_or(5, |word| word.parse().expect("rounds, a number from 1 on"));
    print!("| work | keys | BTreeMap, ns |");
    for chain in CHAINS {
        print!(" chain {chain}, ns |");
    }
    for chain in CHAINS {
        print!(" chain {chain} by BTreeMap |");
    }
    println!("\n|---|---|---|{}", "---|".repeat(2 * CHAINS.len()));
    for keys in KEYS {
        rows(keys, rounds);
    }
}
