//! Times how a map grows, beside `BTreeMap`: what a pair takes where a map is made of a million sorted ones, how long
//! loads take and the longest put among them, and the memory of many small maps. Times are of this process's processor;
//! the first argument says how many pairs the loads have, in millions (3), the second how many rounds a map of sorted
//! pairs is made in (5).

use nifforan::{Map, Settings};
use std::collections::BTreeMap;
use std::time::Instant;

const SORTED: u64 = 1_000_000;
const SMALL_MAPS: usize = 10_000;
const SMALL_MAP_PAIRS: u64 = 10;

/// Keys in random order: the finalizer of splitmix64, which is one to one.
fn mixed(n: u64) -> u64 {
    let n = (n ^ (n >> 30)).wrapping_mul(0xbf58476d1ce4e5b9);
    let n = (n ^ (n >> 27)).wrapping_mul(0x94d049bb133111eb);
    n ^ (n >> 31)
}

/// C's `timespec`.
#[repr(C)]
struct Time {
    seconds: i64,
    nanoseconds: i64,
}

/// POSIX's number of the clock of a process's processor time, on Linux.
const PROCESSOR_TIME: i32 = 2;

extern "C" {
    fn clock_gettime(clock: i32, time: *mut Time) -> i32;
}

/// The processor time that this process has taken, in seconds.
fn processor_time() -> f64 {
    let mut time = Time {
        seconds: 0,
        nanoseconds: 0,
    };
    // SAFETY: the clock is there, and the time is written to a place of its own.
    assert_eq!(unsafe { clock_gettime(PROCESSOR_TIME, &mut time) }, 0);
    time.seconds as f64 + time.nanoseconds as f64 * 1e-9
}

fn library() -> Map {
    Map::new(&Settings::default()).expect("there is memory")
}

fn put(map: &mut Map, key: u64) {
    map.put(key, key).expect("there is room");
}

/// The median time that a pair takes, in nanoseconds, where `make` makes a map of `SORTED` pairs, which is dropped.
fn a_pair<M>(rounds: usize, make: impl Fn() -> M) -> f64 {
    let mut times: Vec<f64> = (0..rounds)
        .map(|_| {
            let start = processor_time();
            drop(make());
            (processor_time() - start) * 1e9 / SORTED as f64
        })
        .collect();
    times.sort_by(f64::total_cmp);
    times[times.len() / 2]
}

fn print_sorted(rounds: usize) {
    let pairs = || (0..SORTED).map(|key| (key, key));
    let made = a_pair(rounds, || {
        Map::from_sorted(&Settings::default(), pairs()).expect("they rise")
    });
    let theirs = a_pair(rounds, || BTreeMap::from_iter(pairs()));
    let puts = a_pair(rounds, || {
        let mut map = library();
        (0..SORTED).for_each(|key| put(&mut map, key));
        map
    });
    println!("| a million sorted pairs, made and dropped | ns a pair |\n|---|---|");
    println!("| `Map::from_sorted` | {made:.0} |\n| `BTreeMap::from_iter` | {theirs:.0} |\n| rising puts of a `Map` | {puts:.0} |\n");
}

/// The key that comes at a place.
type Order = fn(u64) -> u64;

/// The seconds of a load of the keys by `put`, and the longest of these in milliseconds, by the clock on the wall.
fn load(keys: impl Iterator<Item = u64>, mut put: impl FnMut(u64)) -> (f64, f64) {
    let start = processor_time();
    let mut longest = 0.0f64;
    for key in keys {
        let before = Instant::now();
        put(key);
        longest = longest.max(before.elapsed().as_secs_f64());
    }
    (processor_time() - start, longest * 1e3)
}

fn print_loads(pairs: u64) {
    println!("| {pairs} puts | `Map`, s | longest, ms | `BTreeMap`, s | longest, ms |\n|---|---|---|---|---|");
    let orders: [(&str, Order); 3] = [
        ("rising", |n| n),
        ("falling", |n| u64::MAX - n),
        ("random", mixed),
    ];
    for (name, key) in orders {
        let mut map = library();
        let (ours, our_longest) = load((0..pairs).map(key), |key| put(&mut map, key));
        drop(map);
        let mut map = BTreeMap::new();
        let (theirs, their_longest) = load((0..pairs).map(key), |key| {
            map.entry(key).or_insert(key);
        });
        println!("| {name} | {ours:.2} | {our_longest:.1} | {theirs:.2} | {their_longest:.1} |");
    }
}

/// The memory of this process that is resident, in KB, where Linux tells.
fn resident() -> Option<usize> {
    let told = std::fs::read_to_string("/proc/self/status").ok()?;
    let line = told.lines().find(|line| line.starts_with("VmRSS:"))?;
    line.split_whitespace().nth(1)?.parse().ok()
}

fn print_small() -> Option<()> {
    let before = resident()?;
    let start = processor_time();
    let maps: Vec<Map> = (0..SMALL_MAPS)
        .map(|_| {
            let mut map = library();
            (0..SMALL_MAP_PAIRS).for_each(|key| put(&mut map, key));
            map
        })
        .collect();
    let took = processor_time() - start;
    let kept = (resident()? - before) as f64 / 1e3;
    println!(
        "\n{} maps of {SMALL_MAP_PAIRS} pairs: {kept:.1} MB, made in {took:.3} s",
        maps.len()
    );
    Some(())
}

fn main() {
    let mut words = std::env::args()
        .skip(1)
        .map(|word| word.parse().expect("a number"));
    let millions: u64 = words.next().unwrap_or(3);
    let rounds = words.next().unwrap_or(5) as usize;
    print_small();
    print_sorted(rounds);
    print_loads(millions * 1_000_000);
}
