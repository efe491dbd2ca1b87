//! Maps that are made of pairs whose keys rise, and pairs whose keys don't.

use crate::dice::{for_each_seed, Dice};
use crate::pairs::{same_pairs, Pair};
use nifforan::{Fault, Map, Settings};
use std::collections::BTreeMap;

/// Fanout and chain.
const KINDS: [(u32, u32); 6] = [(4, 1), (4, 3), (5, 1), (7, 32), (64, 1), (64, 8)];

/// How many pairs: none, one, about as many as a leaf has, or as are set at once, and trees of several levels.
const COUNTS: [u64; 18] = [
    0, 1, 2, 3, 4, 5, 6, 8, 9, 63, 64, 65, 66, 127, 128, 129, 193, 1500,
];

/// How many cases each kind of map has with each number of pairs.
const CASES: u64 = 200;

/// So many pairs with rising keys, of which the last may have the greatest key.
fn rising(count: u64, to_the_end: bool) -> Vec<Pair> {
    let mut pairs: Vec<Pair> = (0..count).map(|number| (3 * number, number ^ 5)).collect();
    if let Some(last) = pairs.last_mut().filter(|_| to_the_end) {
        last.0 = u64::MAX;
    }
    pairs
}

/// The most pages that pairs take whose leaves are full but for the last two, where each other page has at least half of
/// the pages below that it may have.
fn most_pages(pairs: u64, fanout: u64) -> u64 {
    let leaves = pairs / fanout + 2;
    let above = |below: &u64| (*below > 1).then_some(below / (fanout / 2));
    std::iter::successors(Some(leaves), above).sum::<u64>() + 1
}

/// Sets and removes drawn keys.
fn change(map: &mut Map, plain: &mut BTreeMap<u64, u64>, dice: &mut Dice, calls: u64) {
    for _ in 0..calls {
        let (key, value) = (dice.throw(3 * calls), dice.throw(u64::MAX));
        match value % 2 {
            0 => assert_eq!(map.set(key, value), Ok(plain.insert(key, value))),
            _ => assert_eq!(map.remove(key), Ok(plain.remove(&key))),
        }
    }
    same_pairs(map, plain);
}

#[test]
fn a_map_of_rising_pairs_has_full_leaves_and_is_changed_as_any() {
    let kinds = KINDS.len() * COUNTS.len();
    for_each_seed(CASES * kinds as u64, |seed, mut dice| {
        let case = seed as usize % kinds;
        let (fanout, chain) = KINDS[case % KINDS.len()];
        let count = COUNTS[case / KINDS.len()];
        let settings = Settings {
            fanout,
            chain,
            ..Settings::default()
        };
        let pairs = rising(count, dice.throw(2) == 0);
        let mut map = Map::from_sorted(&settings, pairs.clone()).expect("there is memory");
        let mut plain = BTreeMap::from_iter(pairs);
        same_pairs(&map, &plain);
        assert_eq!(map.settings(), &settings);
        let in_use = settings.pages as usize - map.free_pages();
        let most = most_pages(count, fanout.into());
        assert!(in_use as u64 <= most, "{in_use} pages, and not {most}");
        change(&mut map, &mut plain, &mut dice, 2 * count);
    });
}

#[test]
fn a_map_that_runs_out_of_pages_has_all_rising_pairs() {
    let settings = Settings {
        fanout: 4,
        pages: 8,
        ..Settings::default()
    };
    let pairs = rising(200, true);
    let map = Map::from_sorted(&settings, pairs.clone()).expect("it is made");
    assert!(map.is_full());
    assert!(map.into_iter().eq(pairs));
}

/// The places of a pair that isn't above the one before: in the first leaf and later, and about as many as are set at
/// once.
const PLACES: [usize; 16] = [1, 2, 3, 4, 5, 6, 9, 10, 63, 64, 65, 66, 127, 128, 129, 139];

#[test]
fn pairs_that_do_not_rise_make_no_map() {
    for settings in [4, 64].map(|fanout| Settings {
        fanout,
        ..Settings::default()
    }) {
        for place in PLACES {
            for less in [0, 1, 3] {
                let mut pairs = rising(140, false);
                pairs[place].0 = pairs[place - 1].0.saturating_sub(less);
                let made = Map::from_sorted(&settings, pairs);
                assert_eq!(
                    made.err(),
                    Some(Fault::Unsorted(place)),
                    "{place}, {less} less"
                );
            }
        }
    }
}
