//! A forest beside the same partition of `Mutex<BTreeMap>`, by several threads, as a table: million operations a second.
//! The argument is in how many rounds both have their turn (3); a figure is the median of the rounds.

use nifforan::{Bounds, Forest, Settings};
use std::collections::BTreeMap;
use std::hint::black_box;
use std::sync::{Mutex, MutexGuard};
use std::thread;
use std::time::Instant;

const KEYS: [u64; 2] = [100_000, 1_000_000];
const THREADS: [u64; 3] = [1, 2, 4];
const TREES: [usize; 2] = [16, 64];

/// The operations of all threads of one run, but for scans, and the pairs of a scan.
const OPERATIONS: u64 = 1_000_000;
const SCANS: u64 = 40_000;
const SCANNED: usize = 100;

/// The order of a load: `n` times this modulo the number of keys, of which it is no multiple.
const STEP: u64 = 2_654_435_761;

/// What is timed, on one partition or the other.
trait Ordered: Sync {
    fn get(&self, key: u64) -> Option<u64>;
    fn set(&self, key: u64, value: u64) -> Option<u64>;
    fn remove(&self, key: u64) -> Option<u64>;
    fn scan(&self, low: u64) -> Vec<(u64, u64)>;
}

impl Ordered for Forest {
    fn get(&self, key: u64) -> Option<u64> {
        Forest::get(self, key)
    }

    fn set(&self, key: u64, value: u64) -> Option<u64> {
        self.insert(key, value).expect("there is memory")
    }

    fn remove(&self, key: u64) -> Option<u64> {
        Forest::remove(self, key).expect("there is memory")
    }

    fn scan(&self, low: u64) -> Vec<(u64, u64)> {
        self.range(low..).take(SCANNED).collect()
    }
}

#[repr(align(128))]
struct Padded(Mutex<BTreeMap<u64, u64>>);

struct Mutexes {
    bounds: Bounds,
    parts: Vec<Padded>,
}

impl Mutexes {
    fn part_of(&self, key: u64) -> MutexGuard<'_, BTreeMap<u64, u64>> {
        let part = &self.parts[self.bounds.tree_of(key)];
        part.0.lock().expect("no thread panics")
    }
}

impl Ordered for Mutexes {
    fn get(&self, key: u64) -> Option<u64> {
        self.part_of(key).get(&key).copied()
    }

    fn set(&self, key: u64, value: u64) -> Option<u64> {
        self.part_of(key).insert(key, value)
    }

    fn remove(&self, key: u64) -> Option<u64> {
        self.part_of(key).remove(&key)
    }

    fn scan(&self, low: u64) -> Vec<(u64, u64)> {
        let mut pairs = Vec::with_capacity(SCANNED);
        for part in &self.parts[self.bounds.tree_of(low)..] {
            let part = part.0.lock().expect("no thread panics");
            let more = part.range(low..).take(SCANNED - pairs.len());
            pairs.extend(more.map(|(key, value)| (*key, *value)));
            if pairs.len() == SCANNED {
                break;
            }
        }
        pairs
    }
}

#[derive(Clone, Copy)]
enum Work {
    Load,
    Get,
    Half,
    Set,
    Scan,
}

impl Work {
    const ALL: [(&'static str, Work); 5] = [
        ("load, random order", Work::Load),
        ("100% gets", Work::Get),
        ("50% gets", Work::Half),
        ("sets of keys that are there", Work::Set),
        ("scans of 100 pairs", Work::Scan),
    ];

    fn count(self, keys: u64) -> u64 {
        match self {
            Work::Load => keys,
            Work::Scan => SCANS,
            _ => OPERATIONS,
        }
    }

    /// The part of one of so many threads, on keys below twice their number, every second of which is there.
    fn run(self, map: &impl Ordered, keys: u64, threads: u64, thread: u64) {
        let mut state = 88172645463325252 + thread;
        let mut draw = |sides: u64| {
            state ^= state << 13;
            state ^= state >> 7;
            state ^= state << 17;
            (state >> 16) % sides
        };
        for n in (thread..self.count(keys)).step_by(threads as usize) {
            match self {
                Work::Load => drop(map.set(2 * (n * STEP % keys), n)),
                Work::Get => drop(black_box(map.get(draw(2 * keys)))),
                Work::Half => match draw(4) {
                    0 => drop(map.set(draw(2 * keys), n)),
                    1 => drop(map.remove(draw(2 * keys))),
                    _ => drop(black_box(map.get(draw(2 * keys)))),
                },
                Work::Set => drop(map.set(2 * draw(keys), n)),
                Work::Scan => drop(black_box(map.scan(draw(2 * keys)))),
            }
        }
    }

    /// Million operations a second, of a map that is filled before unless it is loaded.
    fn rate(self, map: impl Ordered, keys: u64, threads: u64) -> f64 {
        if !matches!(self, Work::Load) {
            Work::Load.run(&map, keys, 1, 0);
        }
        let start = Instant::now();
        thread::scope(|scope| {
            for thread in 0..threads {
                let map = &map;
                scope.spawn(move || self.run(map, keys, threads, thread));
            }
        });
        self.count(keys) as f64 / 1e6 / start.elapsed().as_secs_f64()
    }
}

fn median(mut rates: Vec<f64>) -> f64 {
    rates.sort_by(f64::total_cmp);
    rates[rates.len() / 2]
}

fn main() {
    let rounds = std::env::args().nth(1);
    let rounds: usize = rounds.map_or(3, |it| it.parse().expect("a number of rounds"));
    println!("| work | keys | threads | trees | Forest | Mutex<BTreeMap> each | Forest/Mutex |");
    println!("|---|---|---|---|---|---|---|");
    for (name, work) in Work::ALL {
        for (keys, threads) in KEYS.iter().flat_map(|keys| THREADS.map(|its| (*keys, its))) {
            for trees in TREES {
                let bounds = Bounds::even(trees, 2 * keys).expect("they are good");
                let (mut ours, mut theirs) = (Vec::new(), Vec::new());
                for _ in 0..rounds {
                    let forest = Forest::new(&Settings::default(), bounds.clone());
                    ours.push(work.rate(forest.expect("there is memory"), keys, threads));
                    let parts = (0..bounds.firsts().len()).map(|_| Padded(Mutex::default()));
                    let mutexes = Mutexes {
                        bounds: bounds.clone(),
                        parts: parts.collect(),
                    };
                    theirs.push(work.rate(mutexes, keys, threads));
                }
                let (ours, theirs) = (median(ours), median(theirs));
                let ratio = ours / theirs;
                println!("| {name} | {keys} | {threads} | {trees} | {ours:.2} | {theirs:.2} | {ratio:.2} |");
            }
        }
    }
}
