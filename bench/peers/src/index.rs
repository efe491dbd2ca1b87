//! The ordered maps that are timed, each through what a worker of its own holds of it.

use std::collections::btree_map::Entry;
use std::collections::BTreeMap;
use std::sync::{Mutex, RwLock};

pub type Map = BTreeMap<u64, u64>;

/// What one worker does on a map.
pub trait Worker {
    fn get(&mut self, key: u64) -> Option<u64>;

    /// Gives the key the value, unless the key is there. Whether it did.
    fn put(&mut self, key: u64, value: u64) -> bool;

    /// Gives the key the value. What it had.
    fn set(&mut self, key: u64, value: u64) -> Option<u64>;

    fn delete(&mut self, key: u64) -> Option<u64>;

    /// The first pairs from a key on, at most n.
    fn scan(&mut self, low: u64, limit: usize) -> Vec<(u64, u64)>;
}

fn put_absent(map: &mut Map, key: u64, value: u64) -> bool {
    match map.entry(key) {
        Entry::Vacant(place) => {
            place.insert(value);
            true
        }
        Entry::Occupied(_) => false,
    }
}

fn first_from(map: &Map, low: u64, limit: usize) -> Vec<(u64, u64)> {
    map.range(low..)
        .take(limit)
        .map(|(key, value)| (*key, *value))
        .collect()
}

impl Worker for &mut Map {
    fn get(&mut self, key: u64) -> Option<u64> {
        Map::get(self, &key).copied()
    }

    fn put(&mut self, key: u64, value: u64) -> bool {
        put_absent(self, key, value)
    }

    fn set(&mut self, key: u64, value: u64) -> Option<u64> {
        self.insert(key, value)
    }

    fn delete(&mut self, key: u64) -> Option<u64> {
        self.remove(&key)
    }

    fn scan(&mut self, low: u64, limit: usize) -> Vec<(u64, u64)> {
        first_from(self, low, limit)
    }
}

/// A map behind a lock, which a thread holds to read it or to change it.
pub trait Locked: Sync {
    fn of(map: Map) -> Self;

    fn read<T>(&self, look: impl FnOnce(&Map) -> T) -> T;

    fn write<T>(&self, change: impl FnOnce(&mut Map) -> T) -> T;
}

impl Locked for Mutex<Map> {
    fn of(map: Map) -> Mutex<Map> {
        Mutex::new(map)
    }

    fn read<T>(&self, look: impl FnOnce(&Map) -> T) -> T {
        look(&self.lock().unwrap())
    }

    fn write<T>(&self, change: impl FnOnce(&mut Map) -> T) -> T {
        change(&mut self.lock().unwrap())
    }
}

impl Locked for RwLock<Map> {
    fn of(map: Map) -> RwLock<Map> {
        RwLock::new(map)
    }

    fn read<T>(&self, look: impl FnOnce(&Map) -> T) -> T {
        look(&RwLock::read(self).unwrap())
    }

    fn write<T>(&self, change: impl FnOnce(&mut Map) -> T) -> T {
        change(&mut RwLock::write(self).unwrap())
    }
}

/// A map by itself on its cache lines, also where those are fetched two by two.
#[repr(align(128))]
struct Padded<L>(L);

/// Maps by ranges of keys, each behind a lock of its own.
pub struct Parted<L> {
    /// The first key of each range. The least one is 0.
    firsts: Vec<u64>,
    parts: Vec<Padded<L>>,
}

impl<L: Locked> Parted<L> {
    /// Parts a map into ranges of the same length of the keys below the end.
    pub fn of(mut map: Map, parts: u32, end: u64) -> Parted<L> {
        let firsts: Vec<u64> = (0..u64::from(parts))
            .map(|part| part * end / u64::from(parts))
            .collect();
        let mut parted: Vec<_> = firsts
            .iter()
            .rev()
            .map(|first| Padded(L::of(map.split_off(first))))
            .collect();
        parted.reverse();
        Parted {
            firsts,
            parts: parted,
        }
    }

    #[inline]
    fn number_of(&self, key: u64) -> usize {
        self.firsts.partition_point(|first| *first <= key) - 1
    }

    #[inline]
    fn part_of(&self, key: u64) -> &L {
        &self.parts[self.number_of(key)].0
    }
}

impl<L: Locked> Worker for &Parted<L> {
    fn get(&mut self, key: u64) -> Option<u64> {
        self.part_of(key).read(|map| map.get(&key).copied())
    }

    fn put(&mut self, key: u64, value: u64) -> bool {
        self.part_of(key).write(|map| put_absent(map, key, value))
    }

    fn set(&mut self, key: u64, value: u64) -> Option<u64> {
        self.part_of(key).write(|map| map.insert(key, value))
    }

    fn delete(&mut self, key: u64) -> Option<u64> {
        self.part_of(key).write(|map| map.remove(&key))
    }

    fn scan(&mut self, low: u64, limit: usize) -> Vec<(u64, u64)> {
        let mut pairs = Vec::with_capacity(limit.min(1000));
        for part in &self.parts[self.number_of(low)..] {
            let left = limit - pairs.len();
            if left == 0 {
                break;
            }
            part.0.read(|map| {
                let more = map.range(low..).take(left);
                pairs.extend(more.map(|(key, value)| (*key, *value)));
            });
        }
        pairs
    }
}

/// A map behind one lock.
pub struct Whole<L>(pub L);

impl<L: Locked> Worker for &Whole<L> {
    fn get(&mut self, key: u64) -> Option<u64> {
        self.0.read(|map| map.get(&key).copied())
    }

    fn put(&mut self, key: u64, value: u64) -> bool {
        self.0.write(|map| put_absent(map, key, value))
    }

    fn set(&mut self, key: u64, value: u64) -> Option<u64> {
        self.0.write(|map| map.insert(key, value))
    }

    fn delete(&mut self, key: u64) -> Option<u64> {
        self.0.write(|map| map.remove(&key))
    }

    fn scan(&mut self, low: u64, limit: usize) -> Vec<(u64, u64)> {
        self.0.read(|map| first_from(map, low, limit))
    }
}
