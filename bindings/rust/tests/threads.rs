//! Maps that go from thread to thread, and a frozen one that many read at once.

use nifforan::{Frozen, Map};
use std::sync::{mpsc, Barrier};
use std::thread;

const READERS: u64 = 4;
const KEYS: u64 = 100_000;

/// Reads the even keys, each with three times itself: from either end, by their keys, and next to them.
fn read(map: &Frozen, seed: u64) {
    let pairs = || (0..KEYS).map(|n| (2 * n, 6 * n));
    assert!(map.iter().eq(pairs()));
    assert!(map.iter().rev().eq(pairs().rev()));
    for n in 0..KEYS {
        let key = (n * 7919 + seed * 31) % (2 * KEYS);
        assert_eq!(map.get(key), key.is_multiple_of(2).then_some(3 * key));
        let below = key - key % 2;
        assert_eq!(map.previous_at(key), Some((below, 3 * below)));
        assert_eq!(map.range(key..).next(), map.next_at(key));
    }
}

#[test]
fn four_threads_read_one_frozen_map() {
    let map: Map = (0..KEYS).map(|n| (2 * n, 6 * n)).collect();
    let frozen = map.freeze().expect("there is memory");
    let start = Barrier::new(READERS as usize);
    thread::scope(|scope| {
        for seed in 0..READERS {
            let (its, start) = (frozen.clone(), &start);
            scope.spawn(move || {
                start.wait();
                // each makes one more meanwhile, and gives it up
                read(&its.clone(), seed);
                read(&its, seed + 1);
            });
        }
    });
    let map = frozen.thaw().expect("the others are gone");
    assert_eq!(map.len() as u64, KEYS);
}

#[test]
fn the_last_thread_that_has_a_frozen_map_frees_it() {
    let frozen = Map::from([(3, 9)]).freeze().expect("there is memory");
    let readers: Vec<_> = (0..READERS)
        .map(|_| frozen.clone())
        .map(|its| thread::spawn(move || its.get(3)))
        .collect();
    drop(frozen);
    for reader in readers {
        assert_eq!(reader.join().expect("it ends"), Some(9));
    }
}

#[test]
fn a_map_is_changed_by_one_thread_after_another() {
    let (give, take) = mpsc::channel::<Map>();
    let filler = thread::spawn(move || {
        let map = (0..KEYS).map(|key| (key, key)).collect();
        give.send(map).expect("it is taken");
    });
    let mut map = take.recv().expect("it is given");
    let removed = map.retain(|key, _| key % 2 == 0);
    assert_eq!(removed, Ok(KEYS / 2));
    filler.join().expect("it ends");
    let pairs = thread::spawn(move || map.into_iter())
        .join()
        .expect("it ends");
    assert!(pairs.eq((0..KEYS).step_by(2).map(|key| (key, key))));
}
