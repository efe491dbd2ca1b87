//! Forests: threads that change one at once, each beside a `BTreeMap` of its own keys, and bounds at the ends of all keys.

use nifforan::{BadBounds, Bounds, CompareAndSet, Fault, Forest, Map, Settings, Unfinished};
use std::collections::BTreeMap;
use std::ops::Bound::{Excluded, Unbounded};
use std::panic::{self, AssertUnwindSafe};
use std::sync::atomic::{AtomicBool, Ordering::SeqCst};
use std::thread;

/// How many calls all threads make together.
const CALLS: u64 = 400_000;
const KEYS: u64 = 20_000;

/// Numbers by Marsaglia's xorshift.
struct Dice(u64);

impl Dice {
    fn throw(&mut self, sides: u64) -> u64 {
        self.0 ^= self.0 << 13;
        self.0 ^= self.0 >> 7;
        self.0 ^= self.0 << 17;
        (self.0 >> 16) % sides
    }
}

fn forest(bounds: Result<Bounds, BadBounds>) -> Forest {
    let bounds = bounds.expect("they are good");
    Forest::new(&Settings::default(), bounds).expect("there is memory")
}

/// Drawn calls on the keys that are this thread's, whose values end in its number.
fn call(forest: &Forest, threads: u64, thread: u64) -> BTreeMap<u64, u64> {
    let mut plain = BTreeMap::new();
    let mut dice = Dice(88172645463325252 + thread);
    for _ in 0..CALLS / threads {
        let key = dice.throw(KEYS / threads) * threads + thread;
        let value = dice.throw(1 << 40) * threads + thread;
        let had = plain.get(&key).copied();
        match dice.throw(16) {
            0..4 => assert_eq!(forest.get(key), had),
            4..7 => assert_eq!(forest.set(key, value), Ok(plain.insert(key, value))),
            7..9 => {
                assert_eq!(forest.put(key, value), Ok(had));
                plain.entry(key).or_insert(value);
            }
            9..12 => assert_eq!(forest.remove(key), Ok(plain.remove(&key))),
            12 => {
                let expected = had.filter(|had| had % 3 > 0);
                let new = (value % 5 > 1).then_some(value);
                let answer = forest.compare_and_set(key, expected, new);
                if expected == had {
                    assert_eq!(answer, Ok(CompareAndSet::Set));
                    plain.remove(&key);
                    plain.extend(new.map(|new| (key, new)));
                } else {
                    assert_eq!(answer, Ok(CompareAndSet::Differs(had)));
                }
            }
            13 => {
                let toggled = |had: Option<u64>| if had.is_some() { None } else { Some(value) };
                assert_eq!(forest.alter(key, toggled), Ok(had));
                plain.remove(&key);
                plain.extend(toggled(had).map(|new| (key, new)));
            }
            14 => assert_eq!(forest.contains_key(key), had.is_some()),
            _ => {
                let pairs = forest.range(key..).take(200);
                let own = pairs.filter(|(key, _)| key % threads == thread);
                let ours: Vec<_> = own.collect();
                let theirs = plain.range(key..).map(|(key, value)| (*key, *value));
                assert!(theirs.take(ours.len()).eq(ours));
            }
        }
    }
    plain
}

/// Reads all pairs again and again: their keys rise, and each value is of its key's thread.
fn look_on(forest: &Forest, threads: u64, ended: &AtomicBool) {
    loop {
        let is_last = ended.load(SeqCst);
        let mut least = Some(0);
        for (key, value) in forest {
            assert!(least.is_some_and(|least| least <= key));
            assert_eq!(value % threads, key % threads);
            least = key.checked_add(1);
        }
        assert!(forest.len() as u64 <= KEYS);
        if is_last {
            return;
        }
    }
}

#[test]
fn threads_change_a_forest_at_once() {
    for (threads, trees) in [(1, 1), (2, 3), (4, 16), (8, 64), (8, 1)] {
        let forest = forest(Bounds::even(trees, KEYS));
        let ended = AtomicBool::new(false);
        let mut plain = BTreeMap::new();
        thread::scope(|scope| {
            scope.spawn(|| look_on(&forest, threads, &ended));
            let workers: Vec<_> = (0..threads)
                .map(|thread| {
                    let forest = &forest;
                    scope.spawn(move || call(forest, threads, thread))
                })
                .collect();
            let parts: Vec<_> = workers.into_iter().map(|it| it.join()).collect();
            ended.store(true, SeqCst);
            for part in parts {
                plain.extend(part.expect("it ends"));
            }
        });
        assert_eq!(forest.len(), plain.len());
        let pair = |(key, value): (&u64, &u64)| (*key, *value);
        assert_eq!(forest.first_key_value(), plain.first_key_value().map(pair));
        assert_eq!(forest.last_key_value(), plain.last_key_value().map(pair));
        assert!(forest.iter().eq(plain.clone()));
        assert!(forest.into_iter().eq(plain));
    }
}

#[test]
fn no_change_is_lost() {
    let forest = forest(Bounds::even(4, 100));
    thread::scope(|scope| {
        for _ in 0..8 {
            scope.spawn(|| {
                for turn in 0..20_000 {
                    let one_more = |count: Option<u64>| Some(count.unwrap_or(0) + 1);
                    forest.alter(turn % 100, one_more).expect("there is memory");
                }
            });
        }
    });
    assert!(forest.iter().eq((0..100).map(|key| (key, 1600))));
}

#[test]
fn bounds_are_told_and_refused() {
    let refused = [
        (Bounds::of(vec![]), BadBounds::Count(0)),
        (Bounds::of((0..1025).collect()), BadBounds::Count(1025)),
        (Bounds::of(vec![1, 2]), BadBounds::First(1)),
        (Bounds::of(vec![0, 2, 2]), BadBounds::Unsorted(2)),
        (Bounds::of(vec![0, 0]), BadBounds::Unsorted(1)),
        (Bounds::even(0, 100), BadBounds::Count(0)),
        (Bounds::even(1025, 100), BadBounds::Count(1025)),
        (Bounds::of_sample([], 0), BadBounds::Count(0)),
    ];
    for (bounds, why) in refused {
        assert_eq!(bounds, Err(why));
        assert!(!why.to_string().is_empty());
    }
    let firsts =
        |bounds: Result<Bounds, BadBounds>| bounds.expect("they are good").firsts().to_vec();
    assert_eq!(firsts(Bounds::of((0..1024).collect())).len(), 1024);
    assert_eq!(firsts(Bounds::even(1, 0)), [0]);
    assert_eq!(firsts(Bounds::even(3, 0)), [0]);
    assert_eq!(firsts(Bounds::even(2, u64::MAX)), [0, u64::MAX / 2]);
    assert_eq!(firsts(Bounds::even(1024, u64::MAX)).len(), 1024);
    assert_eq!(firsts(Bounds::of_sample([5, 5, 5, 5], 4)), [0, 5]);
    assert_eq!(
        firsts(Bounds::of_sample([0, 0, 0, u64::MAX], 4)),
        [0, u64::MAX]
    );
    assert_eq!(
        firsts(Bounds::of_sample((0..1000).rev(), 4)),
        [0, 250, 500, 750]
    );
}

#[test]
fn a_crooked_forest_is_balanced_again() -> Result<(), Fault> {
    let settings = Settings {
        fanout: 4,
        ..Settings::default()
    };
    let bounds = Bounds::of(vec![0, 10, 1 << 40]).expect("they rise");
    let mut crooked = Forest::new(&settings, bounds)?;
    assert_eq!(crooked.balanced(8)?.bounds().firsts(), [0]);
    for key in 0..10_000 {
        crooked.set(key * key, key)?;
    }
    for trees in [0, 1, 7, 64, 1024, 5000] {
        let forest = crooked.balanced(trees)?;
        let trees = trees.clamp(1, 1024);
        assert_eq!(forest.bounds().firsts().len(), trees);
        assert!(forest.iter().eq(&crooked));
        for map in forest.into_maps() {
            assert!(map.len().abs_diff(10_000 / trees) <= 1);
            assert_eq!(*map.settings(), settings);
        }
    }
    Ok(())
}

#[test]
fn the_least_and_the_greatest_key_have_their_trees() {
    let ends = [0, 1, u64::MAX - 1, u64::MAX];
    let forest = forest(Bounds::of(vec![0, 1, 7, u64::MAX]));
    assert_eq!(ends.map(|key| forest.bounds().tree_of(key)), [0, 1, 2, 3]);
    assert!(forest.is_empty() && forest.first_key_value().is_none());
    for key in ends {
        assert_eq!(forest.insert(key, !key), Ok(None));
    }
    assert_eq!(forest.len(), 4);
    assert_eq!(forest.first_key_value(), Some((0, u64::MAX)));
    assert_eq!(forest.last_key_value(), Some((u64::MAX, 0)));
    let keys = |pairs: Vec<(u64, u64)>| pairs.into_iter().map(|(key, _)| key).collect::<Vec<_>>();
    assert_eq!(keys(forest.iter().collect()), ends);
    assert_eq!(keys(forest.range(u64::MAX..).collect()), [u64::MAX]);
    assert_eq!(keys(forest.range(..=0).collect()), [0]);
    assert_eq!(keys(forest.range(1..u64::MAX).collect()), [1, u64::MAX - 1]);
    assert_eq!(keys(forest.range(2..7).collect()), []);
    assert_eq!(
        keys(forest.range((Excluded(u64::MAX), Unbounded)).collect()),
        []
    );
    let (high, low) = (9, 8);
    assert_eq!(keys(forest.range(high..low).collect()), []);
    assert_eq!(forest.clear(high..low), Ok(0));
    assert_eq!(forest.clear(1..u64::MAX), Ok(2));
    assert_eq!(forest.clear(u64::MAX..), Ok(1));
    assert_eq!(forest.clear(..), Ok(1));
    assert!(forest.is_empty());
}

#[test]
fn sorted_pairs_lie_in_their_trees() {
    let bounds = Bounds::of(vec![0, 100, 101, 5_000, 90_000]).expect("they are good");
    let made =
        |pairs: Vec<(u64, u64)>| Forest::from_sorted(&Settings::default(), bounds.clone(), pairs);
    let pairs: Vec<_> = (0..10_000).map(|key| (3 * key, key)).collect();
    let forest = made(pairs.clone()).expect("they rise");
    assert!(forest.iter().eq(pairs.clone()));
    let maps = forest.into_maps();
    assert_eq!(
        maps.iter().map(|map| map.len()).collect::<Vec<_>>(),
        [34, 0, 1633, 8333, 0]
    );
    assert!(maps.into_iter().flat_map(Map::into_iter).eq(pairs));
    assert_eq!(made(vec![]).map(|forest| forest.len()).ok(), Some(0));
    for (falling, number) in [
        (vec![3, 3], 1),
        (vec![200, 3], 1),
        (vec![100, 99], 1),
        (vec![90_000, 4], 1),
        (vec![3, 150, 200, 120], 3),
        (vec![3, 100, 101, 102, 6_000, 6_000, 7_000], 5),
    ] {
        let pairs = falling.into_iter().map(|key| (key, 0)).collect();
        assert_eq!(made(pairs).err(), Some(Fault::Unsorted(number)));
    }
}

#[test]
fn an_update_goes_from_tree_to_tree() {
    let pairs = (0..1_000).map(|key| (3 * key, key));
    let bounds = Bounds::of(vec![0, 100, 101, 2_000]).expect("they are good");
    let made = Forest::from_sorted(&Settings::default(), bounds, pairs.clone());
    let forest = made.expect("they rise");
    let mut plain: BTreeMap<u64, u64> = pairs.collect();
    for (low, high) in [(0, 0), (9, 90), (90, 103), (50, 2_500), (2_999, 9_999)] {
        assert_eq!(
            forest.update(low..high, |key, value| 2 * value + key),
            Ok(())
        );
        for (key, value) in plain.range_mut(low..high) {
            *value = 2 * *value + key;
        }
        assert!(forest.iter().eq(plain.clone()));
    }
}

#[test]
fn a_panic_under_the_lock_changes_nothing() {
    let forest = forest(Bounds::even(2, 10));
    assert_eq!(forest.insert(3, 9), Ok(None));
    let thrown = panic::catch_unwind(AssertUnwindSafe(|| {
        forest.alter(3, |_| panic!("on purpose"))
    }));
    assert!(thrown.is_err());
    assert_eq!(forest.get(3), Some(9));
    assert_eq!(forest.insert(4, 16), Ok(None));
    assert_eq!(forest.len(), 2);
    assert_eq!(forest.into_maps().len(), 2);
}

#[test]
fn a_tree_that_is_full_says_so() {
    let few = Settings {
        pages: 8,
        fanout: 4,
        chain: 4,
        ..Settings::default()
    };
    let bounds = Bounds::even(2, 2_000).expect("they are good");
    let forest = Forest::new(&few, bounds).expect("there is memory");
    for key in 0..2_000 {
        assert_eq!(forest.insert(key, key), Ok(None));
    }
    match forest.clear(500..1_500) {
        Ok(removed) => assert_eq!(removed, 1_000),
        Err(Unfinished { removed, .. }) => assert_eq!(forest.len() as u64 + removed, 2_000),
    }
    let bad = Settings {
        chain: 0,
        ..Settings::default()
    };
    let bounds = Bounds::even(2, 2_000).expect("they are good");
    assert_eq!(Forest::new(&bad, bounds).err(), Some(Fault::BadChain));
}

fn is_shared_by_threads<T: Send + Sync>(_: T) {}

#[test]
fn a_forest_is_sync() {
    is_shared_by_threads(forest(Bounds::even(1, 1)));
}
