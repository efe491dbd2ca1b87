//! The operations of `bench_tree` on the ordered maps of Rust's standard library.

mod beside;
mod dice;
mod index;
mod tally;
mod task;
mod zipf;

use beside::{run_beside, Beside};
use index::{Locked, Map, Parted, Whole, Worker};
use std::process::ExitCode;
use std::sync::{Mutex, RwLock};
use std::time::{Duration, Instant};
use std::{env, thread};
use tally::Tally;
use task::{Task, Work};

const USAGE: &str = "usage: peers STRUCTURE WORK THREADS KEYS OPERATIONS
       peers beside STRUCTURE WORK THREADS KEYS OPERATIONS
       peers tallies KEYS OPERATIONS
STRUCTURE is btree (one thread, and no other beside it), mutex or rwlock, or mutexes PARTS or rwlocks PARTS (not beside),
which are as many maps by ranges of keys, each behind a lock of its own;
WORK is load, rising, set, delete, scan, list, the percent of gets beside puts and deletes, or zipf with a percent
behind it (100 if there is none), or near, the same with those keys side by side that are drawn often, and fill or
fill-rising are scans after the one or other load.";

/// The parts of a map whose answers are told.
const PARTS: u32 = 16;

#[derive(Clone, Copy, PartialEq, Eq)]
enum Structure {
    Btree,
    Mutex,
    Rwlock,
    Mutexes(u32),
    Rwlocks(u32),
}

impl Structure {
    const ALL: [(&'static str, Structure); 5] = [
        ("btree", Structure::Btree),
        ("mutex", Structure::Mutex),
        ("rwlock", Structure::Rwlock),
        ("mutexes", Structure::Mutexes(PARTS)),
        ("rwlocks", Structure::Rwlocks(PARTS)),
    ];

    /// The structure that the first words name, and the other words.
    fn read(words: &[String]) -> Option<(Structure, &[String])> {
        let (name, rest) = words.split_first()?;
        let (_, structure) = Structure::ALL.into_iter().find(|(its, _)| its == name)?;
        let parted = match structure {
            Structure::Mutexes(_) => Structure::Mutexes,
            Structure::Rwlocks(_) => Structure::Rwlocks,
            whole => return Some((whole, rest)),
        };
        let (parts, rest) = rest.split_first()?;
        let parts = parts
            .parse()
            .ok()
            .filter(|parts| (1..=1024).contains(parts))?;
        Some((parted(parts), rest))
    }

    fn is_for(self, threads: u32) -> bool {
        self != Structure::Btree || threads == 1
    }

    /// Does the task on a new map, and tells what was answered, and how long that took.
    fn run(self, task: &Task) -> (Tally, Duration) {
        let order = task.order();
        let mut map = task.map(&order);
        let keys = task.known_keys(order);
        match self {
            Structure::Btree => {
                let start = Instant::now();
                let tally = task.work(0, &keys, &mut map);
                (tally, start.elapsed())
            }
            Structure::Mutex => run_whole::<Mutex<_>>(task, &keys, map),
            Structure::Rwlock => run_whole::<RwLock<_>>(task, &keys, map),
            Structure::Mutexes(parts) => run_parted::<Mutex<_>>(task, &keys, map, parts),
            Structure::Rwlocks(parts) => run_parted::<RwLock<_>>(task, &keys, map, parts),
        }
    }

    /// Does the task on a new map beside a thread that changes it. None where threads can't share it.
    fn run_beside(self, task: &Task) -> Option<Beside> {
        let order = task.order();
        let map = task.map(&order);
        let keys = task.known_keys(order);
        match self {
            Structure::Mutex => {
                let shared = Whole(Mutex::new(map));
                Some(run_beside(task, &keys, || &shared))
            }
            Structure::Rwlock => {
                let shared = Whole(RwLock::new(map));
                Some(run_beside(task, &keys, || &shared))
            }
            _ => None,
        }
    }
}

fn run_whole<L: Locked>(task: &Task, keys: &[u32], map: Map) -> (Tally, Duration) {
    let shared = Whole(L::of(map));
    run_together(task, keys, || &shared)
}

fn run_parted<L: Locked>(task: &Task, keys: &[u32], map: Map, parts: u32) -> (Tally, Duration) {
    let shared = Parted::<L>::of(map, parts, task.end());
    run_together(task, keys, || &shared)
}

/// The workers side by side, each with what it is handed of the map.
fn run_together<W: Worker + Send>(
    task: &Task,
    keys: &[u32],
    handed: impl Fn() -> W,
) -> (Tally, Duration) {
    let start = Instant::now();
    let tally = thread::scope(|scope| {
        let workers: Vec<_> = (0..task.threads)
            .map(|worker| {
                let index = handed();
                scope.spawn(move || task.work(worker, keys, index))
            })
            .collect();
        workers
            .into_iter()
            .map(|worker| worker.join().unwrap())
            .sum()
    });
    (tally, start.elapsed())
}

/// Million operations a second.
fn rate_of(task: &Task, time: Duration) -> f64 {
    f64::from(task.count()) / 1e6 / time.as_secs_f64()
}

fn rate(words: &[String]) -> Option<String> {
    let name = words.first()?;
    let (structure, rest) = Structure::read(words)?;
    let task = Task::read(rest).filter(|task| structure.is_for(task.threads))?;
    let (_, time) = structure.run(&task);
    let rate = rate_of(&task, time);
    Some(format!("{name} {rate:.3}\n"))
}

/// How many million operations and changes a second are done side by side.
fn rates_beside(words: &[String]) -> Option<String> {
    let name = words.first()?;
    let (structure, rest) = Structure::read(words)?;
    let task = Task::read(rest)?;
    let Beside { time, changes } = structure.run_beside(&task)?;
    let rate = rate_of(&task, time);
    let changes = changes / 1e6;
    Some(format!("{name} {rate:.9} writer {changes:.6}\n"))
}

/// What one worker is answered, a line for each work and structure.
fn tallies(words: &[String]) -> Option<String> {
    let [keys, operations] = words else {
        return None;
    };
    let mut text = String::new();
    for work in Work::ALL {
        let task = Task::new(work, "1", keys, operations)?;
        for (name, structure) in Structure::ALL {
            let (tally, _) = structure.run(&task);
            text += &format!("{name} {work}: {tally}\n");
        }
    }
    Some(text)
}

fn main() -> ExitCode {
    let words: Vec<String> = env::args().skip(1).collect();
    let text = match words.split_first() {
        Some((first, rest)) if first == "beside" => rates_beside(rest),
        Some((first, rest)) if first == "tallies" => tallies(rest),
        _ => rate(&words),
    };
    match text {
        Some(text) => {
            print!("{text}");
            ExitCode::SUCCESS
        }
        None => {
            eprintln!("{USAGE}");
            ExitCode::from(2)
        }
    }
}
