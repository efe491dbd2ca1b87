//! How maps use their pages: as they are made anew, and as leaves are tended that were found before a change.

use crate::dice::{for_each_seed, Dice};
use crate::pairs::same_pairs;
use nifforan::{CompareAndSet, Fault, Map, Settings};
use std::collections::BTreeMap;

/// How many cases each kind of map has.
const CASES: u64 = 100;

/// Fanout, chain and pages: leaves of 64 and of few pairs, and short and long chains.
const KINDS: [(u32, u32, u32); 4] = [
    (64, 1, 1 << 24),
    (64, 8, 4096),
    (4, 1, 16_384),
    (8, 32, 16_384),
];

/// How many pairs pages are taken ahead for.
const AHEAD: usize = 5000;

fn settings((fanout, chain, pages): (u32, u32, u32)) -> Settings {
    Settings {
        fanout,
        chain,
        pages,
        ..Settings::default()
    }
}

/// Makes drawn calls, mostly sets or mostly removals.
fn call(map: &mut Map, plain: &mut BTreeMap<u64, u64>, dice: &mut Dice, fills: bool) {
    for _ in 0..2 * AHEAD {
        let (key, value) = (dice.throw(3 * AHEAD as u64), dice.throw(u64::MAX));
        match (dice.throw(4) == 0) != fills {
            true => assert_eq!(map.set(key, value), Ok(plain.insert(key, value))),
            false => assert_eq!(map.remove(key), Ok(plain.remove(&key))),
        }
    }
    same_pairs(map, plain);
}

#[test]
fn a_map_that_is_made_anew_has_its_pairs() {
    for_each_seed(CASES * KINDS.len() as u64, |seed, mut dice| {
        let settings = settings(KINDS[seed as usize % KINDS.len()]);
        let mut map = Map::new(&settings).expect("there is memory");
        let mut plain = BTreeMap::new();
        for fills in [true, false] {
            call(&mut map, &mut plain, &mut dice, fills);
            assert_eq!(map.reserve(AHEAD), Ok(()));
        }
        let free = map.free_pages();
        assert_eq!(map.shrink_to_fit(), Ok(()));
        assert!(map.free_pages() >= free);
        assert_eq!(map.settings(), &settings);
        same_pairs(&map, &plain);
        call(&mut map, &mut plain, &mut dice, true);
    });
}

/// How many keys come and go.
const KEYS: u64 = 50_000;

/// Gives the key a value that it hasn't, or takes out the one that it has, by a call that finds its leaf before it changes
/// that, and by one that searches for it.
fn add_or_remove(map: &mut Map, other: &mut Map, key: u64, adds: bool) -> Result<(), Fault> {
    let (had, new) = if adds {
        (None, Some(0))
    } else {
        (Some(0), None)
    };
    assert_eq!(map.compare_and_set(key, had, new)?, CompareAndSet::Set);
    let answer = match adds {
        true => other.put(key, 0)?,
        false => other.remove(key)?,
    };
    assert_eq!(answer, had);
    Ok(())
}

#[test]
fn a_leaf_that_was_found_is_tended() -> Result<(), Fault> {
    for kind in [(4, 8, 1 << 24), (64, 8, 1 << 24), (8, 32, 1 << 24)].map(settings) {
        let (mut map, mut other) = (Map::new(&kind)?, Map::new(&kind)?);
        let least = [true, false].map(|adds| {
            for key in 0..KEYS {
                add_or_remove(&mut map, &mut other, key, adds).expect("there is memory");
                assert_eq!(map.free_pages(), other.free_pages(), "{kind:?}: {key}");
            }
            map.free_pages()
        });
        assert!(map.is_empty() && least[0] < least[1], "{least:?}");
    }
    Ok(())
}
