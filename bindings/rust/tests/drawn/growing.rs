//! Maps that grow, beside the same calls on maps that took all their pages ahead, and on a `BTreeMap`; and maps of more
//! pages than most have.

use crate::dice::{for_each_seed, Dice};
use crate::pairs::{owned, same_pairs};
use nifforan::{Fault, Map, Settings};
use std::collections::BTreeMap;

/// How many cases each kind of map has.
const CASES: u64 = 100;

struct Kind {
    fanout: u32,
    chain: u32,
    pages: u32,
    /// How many keys are drawn, and whether they are too many for the pages.
    keys: u64,
    is_small: bool,
}

/// Maps of the fewest pages, of some that aren't eight doubled, of too few and of enough, and leaves of all sizes and
/// chains.
#[rustfmt::skip]
const KINDS: [Kind; 8] = [
    Kind { fanout: 4, chain: 1, pages: 8, keys: 60, is_small: true },
    Kind { fanout: 4, chain: 1, pages: 12, keys: 60, is_small: true },
    Kind { fanout: 4, chain: 2, pages: 64, keys: 600, is_small: true },
    Kind { fanout: 4, chain: 1, pages: 16_384, keys: 4000, is_small: false },
    Kind { fanout: 5, chain: 3, pages: 4096, keys: 2000, is_small: false },
    Kind { fanout: 16, chain: 1, pages: 1024, keys: 3000, is_small: false },
    Kind { fanout: 16, chain: 8, pages: 1024, keys: 1000, is_small: false },
    Kind { fanout: 64, chain: 32, pages: 16_384, keys: 3000, is_small: false },
];

/// Calls that fill the maps, that empty them, and that fill them again: of each three times as many as there are keys.
const TIDES: [bool; 3] = [true, false, true];

/// The most pairs of a scan.
const SCAN: usize = 40;

/// A map that grows, one that has all pages, and a plain one, on which the same calls are made.
struct Twins {
    growing: Map,
    whole: Map,
    plain: BTreeMap<u64, u64>,
    /// Whether a call found no page free.
    was_full: bool,
}

/// Creates a map that has nearly all the pages it may have: those of the greatest capacity that isn't refused.
fn whole_map(settings: &Settings) -> Map {
    let (mut fits, mut too_many) = (0, 1 << 32);
    while too_many - fits > 1 {
        let middle = fits + (too_many - fits) / 2;
        match Map::with_capacity(settings, middle) {
            Ok(_) => fits = middle,
            Err(_) => too_many = middle,
        }
    }
    Map::with_capacity(settings, fits).expect("there is memory")
}

impl Twins {
    fn new(settings: &Settings) -> Twins {
        Twins {
            growing: Map::new(settings).expect("there is memory"),
            whole: whole_map(settings),
            plain: BTreeMap::new(),
            was_full: false,
        }
    }

    /// Makes a call on both maps, which answer it alike, with the same care and as many pages left. Returns the value
    /// before it, unless no page was free for it: then it changed nothing.
    fn answer(
        &mut self,
        call: impl Fn(&mut Map) -> Result<Option<u64>, Fault>,
    ) -> Option<Option<u64>> {
        let (answer, other) = (call(&mut self.growing), call(&mut self.whole));
        assert_eq!(answer, other);
        let (care, other) = (self.growing.care(), self.whole.care());
        assert_eq!(care, other);
        assert_eq!(self.growing.free_pages(), self.whole.free_pages());
        if let Some(fault) = care.or(answer.err()) {
            assert_eq!(fault, Fault::TableFull);
            self.was_full = true;
        }
        answer.ok()
    }

    fn put(&mut self, key: u64, value: u64) {
        if let Some(had) = self.answer(|map| map.put(key, value)) {
            assert_eq!(had, self.plain.get(&key).copied());
            self.plain.entry(key).or_insert(value);
        }
    }

    fn set(&mut self, key: u64, value: u64) {
        if let Some(had) = self.answer(|map| map.set(key, value)) {
            assert_eq!(had, self.plain.insert(key, value));
        }
    }

    fn remove(&mut self, key: u64) {
        if let Some(had) = self.answer(|map| map.remove(key)) {
            assert_eq!(had, self.plain.remove(&key));
        }
    }

    fn get(&self, key: u64) {
        assert_eq!(self.growing.get(key), self.plain.get(&key).copied());
    }

    fn scan(&self, key: u64) {
        let plain = self.plain.range(key..).map(owned).take(SCAN);
        assert!(self.growing.range(key..).take(SCAN).eq(plain));
    }

    /// One drawn call, mostly a put or mostly a removal.
    fn call(&mut self, dice: &mut Dice, keys: u64, fills: bool) {
        let (key, value) = (3 * dice.throw(keys), dice.throw(u64::MAX));
        match (dice.throw(16), fills) {
            (0..=8, true) | (0, false) => self.put(key, value),
            (9, _) => self.set(key, value),
            (10, true) | (1..=10, false) => self.remove(key),
            (11..=13, _) => self.get(key),
            _ => self.scan(key),
        }
    }

    fn same_pairs(&self) {
        same_pairs(&self.growing, &self.plain);
        same_pairs(&self.whole, &self.plain);
    }

    fn fill_or_empty(&mut self, dice: &mut Dice, keys: u64, fills: bool) {
        for call in 0..3 * keys {
            self.call(dice, keys, fills);
            if call % 1024 == 0 {
                same_pairs(&self.growing, &self.plain);
            }
        }
        if !fills {
            (0..keys).for_each(|key| self.remove(3 * key));
            assert!(self.growing.is_empty());
        }
        self.same_pairs();
    }

    fn pages_in_use(&self) -> usize {
        self.growing.settings().pages as usize - self.growing.free_pages()
    }
}

#[test]
fn a_map_that_grows_is_one_that_had_all_pages() {
    for_each_seed(CASES * KINDS.len() as u64, |seed, mut dice| {
        let kind = &KINDS[seed as usize % KINDS.len()];
        let mut twins = Twins::new(&Settings {
            fanout: kind.fanout,
            chain: kind.chain,
            pages: kind.pages,
            ..Settings::default()
        });
        let in_use = TIDES.map(|fills| {
            twins.fill_or_empty(&mut dice, kind.keys, fills);
            twins.pages_in_use()
        });
        assert_eq!(twins.was_full, kind.is_small);
        assert!(kind.is_small || in_use[1] < in_use[0], "{in_use:?}");
    });
}

/// The pages that are asked for, with the chain and the tries, and the pages that are free or the fault that comes of it.
const ASKED: [(u32, u32, u32, Result<usize, Fault>); 9] = [
    (0, 1, 1, Err(Fault::BadPages)),
    (7, 1, 1, Err(Fault::BadPages)),
    (8, 1, 1, Ok(7)),
    (65_536, 1, 1, Ok(65_535)),
    (65_537, 1, 1, Ok(65_536)),
    (16_777_216, 1, 1, Ok(16_777_215)),
    (16_777_217, 1, 0, Err(Fault::BadPages)),
    (u32::MAX, 1, 1, Err(Fault::BadPages)),
    (u32::MAX, 0, 1, Err(Fault::BadChain)),
];

#[test]
fn a_map_may_have_so_many_pages_and_no_more() {
    for (pages, chain, tries, wanted) in ASKED {
        let made = Map::new(&Settings {
            pages,
            chain,
            tries,
            ..Settings::default()
        });
        assert_eq!(made.map(|map| map.free_pages()), wanted, "{pages} pages");
    }
}

/// Leaves that were split by rising keys have three pairs, and there is one page above for each three below: two pairs a
/// page. So these keys take more than the 65,536 pages that a shared tree may have.
const MANY_KEYS: u64 = 132_000;

/// One pair in so many stays.
const KEPT: u64 = 64;

#[test]
fn a_map_comes_to_have_more_pages_than_a_shared_tree() -> Result<(), Fault> {
    let mut twins = Twins::new(&Settings {
        fanout: 6,
        pages: 1 << 20,
        ..Settings::default()
    });
    (0..MANY_KEYS).for_each(|key| twins.put(2 * key, !key));
    (0..MANY_KEYS / 32).for_each(|key| twins.put(64 * key + 1, key));
    twins.same_pairs();
    assert!(twins.pages_in_use() > 65_536);
    let gone = (0..MANY_KEYS).filter(|key| key % KEPT != 0);
    gone.for_each(|key| twins.remove(2 * key));
    twins.same_pairs();
    assert!(twins.pages_in_use() < 65_536 && !twins.was_full);
    Ok(())
}
