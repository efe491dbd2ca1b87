//! What workers are to do on a map.

use crate::dice::Dice;
use crate::index::{Map, Worker};
use crate::tally::Tally;
use crate::zipf;
use std::fmt;
use std::hint::black_box;

/// How many pairs a scan asks for.
const SCANNED: usize = 100;

/// The order in which keys are put.
#[derive(Clone, Copy, PartialEq, Eq)]
pub enum Order {
    Drawn,
    Rising,
}

#[derive(Clone, Copy, PartialEq, Eq)]
pub enum Work {
    /// Each key is put once.
    Load(Order),
    /// Scans of a map that was filled in this order. Without an operation the filling is left, for
    /// the memory that it takes.
    Fill(Order),
    /// The share of gets, in percent; of the other operations half are puts, half deletes.
    Mix { gets: u32 },
    /// The same by Zipf's distribution, so that a few keys are drawn often. They lie apart, or side by side.
    Zipf { gets: u32, are_near: bool },
    /// Gets, which other structures do eight at once.
    Eights,
    /// Keys that are there are given other values.
    Set,
    /// Each key of a map is taken out once.
    Delete,
    /// The first hundred pairs from a key on.
    Scan,
    /// All pairs.
    List,
}

impl Work {
    /// The kinds that `bench/compare` times.
    pub const ALL: [Work; 16] = [
        Work::Load(Order::Drawn),
        Work::Load(Order::Rising),
        Work::Fill(Order::Drawn),
        Work::Fill(Order::Rising),
        Work::Mix { gets: 100 },
        Work::Eights,
        Work::Mix { gets: 95 },
        Work::Mix { gets: 50 },
        Work::scattered(100),
        Work::scattered(95),
        Work::scattered(50),
        Work::near(100),
        Work::near(50),
        Work::Set,
        Work::Delete,
        Work::Scan,
    ];

    const fn scattered(gets: u32) -> Work {
        Work::Zipf {
            gets,
            are_near: false,
        }
    }

    const fn near(gets: u32) -> Work {
        Work::Zipf {
            gets,
            are_near: true,
        }
    }

    fn read(word: &str) -> Option<Work> {
        match word {
            "load" => Some(Work::Load(Order::Drawn)),
            "rising" => Some(Work::Load(Order::Rising)),
            "fill" => Some(Work::Fill(Order::Drawn)),
            "fill-rising" => Some(Work::Fill(Order::Rising)),
            "eights" => Some(Work::Eights),
            "set" => Some(Work::Set),
            "delete" => Some(Work::Delete),
            "scan" => Some(Work::Scan),
            "list" => Some(Work::List),
            "zipf" => Some(Work::scattered(100)),
            "near" => Some(Work::near(100)),
            mixture => {
                if let Some(gets) = mixture.strip_prefix("zipf") {
                    Some(Work::scattered(percent(gets)?))
                } else if let Some(gets) = mixture.strip_prefix("near") {
                    Some(Work::near(percent(gets)?))
                } else {
                    Some(Work::Mix {
                        gets: percent(mixture)?,
                    })
                }
            }
        }
    }

    /// The order of the puts by which the map is loaded or filled.
    fn order(self) -> Order {
        match self {
            Work::Load(order) | Work::Fill(order) => order,
            _ => Order::Drawn,
        }
    }
}

fn percent(word: &str) -> Option<u32> {
    word.parse().ok().filter(|percent| *percent <= 100)
}

impl fmt::Display for Work {
    fn fmt(&self, f: &mut fmt::Formatter) -> fmt::Result {
        match self {
            Work::Load(Order::Drawn) => f.write_str("load"),
            Work::Load(Order::Rising) => f.write_str("rising"),
            Work::Fill(Order::Drawn) => f.write_str("fill"),
            Work::Fill(Order::Rising) => f.write_str("fill-rising"),
            Work::Mix { gets } => write!(f, "{gets}"),
            Work::Zipf { gets, are_near } => {
                f.write_str(if *are_near { "near" } else { "zipf" })?;
                match gets {
                    100 => Ok(()),
                    _ => write!(f, "{gets}"),
                }
            }
            Work::Eights => f.write_str("eights"),
            Work::Set => f.write_str("set"),
            Work::Delete => f.write_str("delete"),
            Work::Scan => f.write_str("scan"),
            Work::List => f.write_str("list"),
        }
    }
}

#[derive(Clone, Copy)]
pub struct Task {
    pub work: Work,
    pub threads: u32,
    pub keys: u32,
    pub operations: u32,
}

impl Task {
    pub fn new(work: Work, threads: &str, keys: &str, operations: &str) -> Option<Task> {
        let task = Task {
            work,
            threads: threads.parse().ok()?,
            keys: keys.parse().ok()?,
            operations: operations.parse().ok()?,
        };
        let fits = (1..=64).contains(&task.threads) && (1..=1 << 30).contains(&task.keys);
        fits.then_some(task)
    }

    pub fn read(words: &[String]) -> Option<Task> {
        let [work, threads, keys, operations] = words else {
            return None;
        };
        Task::new(Work::read(work)?, threads, keys, operations)
    }

    /// How many operations all threads do together.
    pub fn count(&self) -> u32 {
        match self.work {
            Work::Load(_) | Work::Delete => self.keys,
            _ => self.turns() * self.threads,
        }
    }

    /// How many operations each thread does.
    fn turns(&self) -> u32 {
        self.operations / self.threads
    }

    /// The keys, each once, in the order in which they are put.
    pub fn order(&self) -> Vec<u32> {
        match self.work.order() {
            Order::Drawn => Dice::new(0, 0).order(self.keys),
            Order::Rising => (0..self.keys).collect(),
        }
    }

    /// The keys of all operations, where workers don't draw them as they go: those of a load, and of
    /// deletes, are in the order of the puts, and Zipf's take too long to be drawn while a clock runs.
    pub fn known_keys(&self, order: Vec<u32>) -> Vec<u32> {
        match self.work {
            Work::Load(_) | Work::Delete => order,
            Work::Zipf { are_near, .. } => zipf::draw(2 * self.keys, self.count(), are_near),
            _ => Vec::new(),
        }
    }

    /// The keys of the worker's turns, of the known keys of all operations. None where these aren't known.
    fn part<'a>(&self, worker: u32, keys: &'a [u32]) -> &'a [u32] {
        let turns = self.turns() as usize;
        let start = turns * worker as usize;
        keys.get(start..start + turns).unwrap_or_default()
    }

    /// What all keys of the task lie below.
    pub fn end(&self) -> u64 {
        match self.work {
            Work::Load(_) => u64::from(self.keys),
            _ => 2 * u64::from(self.keys),
        }
    }

    /// A map with every second key of those that are drawn later, put one by one, where the work
    /// begins with one.
    pub fn map(&self, order: &[u32]) -> Map {
        let mut map = Map::new();
        if !matches!(self.work, Work::Load(_)) {
            for key in order {
                map.insert(2 * u64::from(*key), u64::from(*key));
            }
        }
        map
    }

    /// Does one worker's part, whose keys are given where they are known.
    pub fn work(&self, worker: u32, keys: &[u32], mut index: impl Worker) -> Tally {
        match self.work {
            Work::Load(_) => self.load(worker, keys, &mut index),
            Work::Delete => self.delete_each(worker, keys, &mut index),
            Work::Mix { gets } | Work::Zipf { gets, .. } => {
                self.mix(worker, gets, keys, &mut index)
            }
            Work::Eights => self.mix(worker, 100, keys, &mut index),
            Work::Set => self.set_often(worker, &mut index),
            Work::Fill(_) | Work::Scan | Work::List => self.scan_often(worker, &mut index),
        }
    }

    fn load(&self, worker: u32, keys: &[u32], index: &mut impl Worker) -> Tally {
        let mut tally = Tally::default();
        let own = keys.iter().skip(worker as usize);
        for key in own.step_by(self.threads as usize) {
            tally.inserted += u64::from(index.put(u64::from(*key), u64::from(*key)));
        }
        tally
    }

    fn delete_each(&self, worker: u32, keys: &[u32], index: &mut impl Worker) -> Tally {
        let mut tally = Tally::default();
        let own = keys.iter().skip(worker as usize);
        for key in own.step_by(self.threads as usize) {
            let removed = black_box(index.delete(2 * u64::from(*key)));
            tally.removed += u64::from(removed.is_some());
        }
        tally
    }

    fn mix(&self, worker: u32, gets: u32, keys: &[u32], index: &mut impl Worker) -> Tally {
        let mut tally = Tally::default();
        let mut dice = Dice::new(u64::from(worker), 1);
        let part = self.part(worker, keys);
        for turn in 0..self.turns() {
            let key = match part.get(turn as usize) {
                Some(key) => u64::from(*key),
                None => self.drawn_key(&mut dice),
            };
            let draw = dice.below(200);
            if draw / 2 < gets {
                tally.found += u64::from(black_box(index.get(key)).is_some());
            } else if draw % 2 == 0 {
                tally.inserted += u64::from(index.put(key, key));
            } else {
                tally.removed += u64::from(black_box(index.delete(key)).is_some());
            }
        }
        tally
    }

    fn set_often(&self, worker: u32, index: &mut impl Worker) -> Tally {
        let mut tally = Tally::default();
        let mut dice = Dice::new(u64::from(worker), 1);
        for _ in 0..self.turns() {
            let key = 2 * u64::from(dice.below(self.keys));
            let value = u64::from(dice.word());
            match black_box(index.set(key, value)) {
                Some(_) => tally.replaced += 1,
                None => tally.inserted += 1,
            }
        }
        tally
    }

    fn scan_often(&self, worker: u32, index: &mut impl Worker) -> Tally {
        let mut tally = Tally::default();
        let mut dice = Dice::new(u64::from(worker), 1);
        for _ in 0..self.turns() {
            let (low, limit) = self.drawn_part(&mut dice);
            tally.scanned += black_box(index.scan(low, limit)).len() as u64;
        }
        tally
    }

    /// From which key on pairs are listed, and how many at most.
    fn drawn_part(&self, dice: &mut Dice) -> (u64, usize) {
        match self.work {
            Work::List => (0, usize::MAX),
            _ => (self.drawn_key(dice), SCANNED),
        }
    }

    /// A key below twice their number.
    pub fn drawn_key(&self, dice: &mut Dice) -> u64 {
        u64::from(dice.below(2 * self.keys))
    }
}
