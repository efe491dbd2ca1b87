//! Twenty million calls on maps of all kinds, each beside the same call on a `BTreeMap`; then each map is frozen, and
//! compared by threads at once.

use crate::dice::{for_each_seed, named_seed, Dice};
use crate::pairs::{owned, same_pairs, Pair};
use nifforan::{CompareAndSet, Entry, Fault, Frozen, Map, Settings, Unfinished, Upsert};
use std::collections::{btree_map, BTreeMap};
use std::fmt::Debug;
use std::io::{self, Write};
use std::ops::Bound::{self, Excluded, Included};
use std::ops::RangeBounds;

/// The most pages of a map: the fewest, some that aren't eight doubled, and more and more.
const PAGES: [u32; 6] = [8, 12, 64, 4096, 65_536, 1 << 24];

const FANOUTS: u64 = 61;

/// How many cases each fanout has with each number of pages, and how many calls a case makes.
const CASES: u64 = 2;
const CALLS: u64 = 28_000;

/// Few keys, which come and go, and many.
const KEYS: [u64; 3] = [24, 400, 20_000];

/// Keys at both ends of all.
const ENDS: [u64; 8] = [
    0,
    1,
    2,
    3,
    u64::MAX - 3,
    u64::MAX - 2,
    u64::MAX - 1,
    u64::MAX,
];

const READERS: usize = 4;

/// How many pairs of a range are compared at most.
const STEPS: u64 = 100;

type Bounds = (Bound<u64>, Bound<u64>);

type Call = fn(&mut Both);

/// The calls of one key or of few, each with the number below which a number of a hundred draws it.
const ON_KEYS: [(u64, Call); 14] = [
    (20, Both::put),
    (35, Both::set),
    (49, Both::remove),
    (70, Both::get),
    (72, Both::neighbours),
    (74, Both::range),
    (76, Both::clear_few),
    (80, Both::or_insert),
    (84, Both::modify),
    (87, Both::place),
    (91, Both::compare_and_set),
    (95, Both::upsert),
    (98, Both::pop),
    (100, Both::extend),
];

/// The calls of all pairs, or of those of any range.
const ON_ALL: [Call; 9] = [
    Both::parts,
    Both::update,
    Both::update,
    Both::retain,
    Both::clear,
    Both::copy,
    Both::make_anew,
    Both::show,
    Both::take_ahead,
];

/// How many calls found the map full, and how many had their care for the pages cut short by it.
#[derive(Clone, Copy, Default)]
struct Full {
    refused: u64,
    cut: u64,
}

/// The library's map, and one that sees the same calls.
struct Both {
    map: Map,
    plain: BTreeMap<u64, u64>,
    dice: Dice,
    /// How many keys are drawn, and how far one lies from the next.
    keys: u64,
    apart: u64,
    full: Full,
}

impl Both {
    fn new(settings: &Settings, mut dice: Dice) -> Both {
        // so few that a full map's pages don't get too long
        let most = 4 * u64::from(settings.fanout) * u64::from(settings.pages);
        let keys = dice.one_of(&KEYS).min(most);
        let apart = dice.one_of(&[1, 3, u64::MAX / keys]);
        Both {
            map: Map::new(settings).expect("the settings are good"),
            plain: BTreeMap::new(),
            dice,
            keys,
            apart,
            full: Full::default(),
        }
    }

    /// One drawn call. A call of all pairs takes a time by their number, so it is the rarer the more there are.
    fn call(&mut self) {
        let pairs = self.plain.len() as u64;
        if self.dice.throw(50 + 2 * pairs) == 0 {
            self.dice.one_of(&ON_ALL)(self);
        } else {
            let drawn = self.dice.throw(100);
            let row = ON_KEYS.iter().find(|(below, _)| drawn < *below);
            row.expect("the last is drawn below a hundred").1(self);
        }
    }

    /// One of the keys, or now and then one at either end of all.
    fn key(&mut self) -> u64 {
        match self.dice.throw(16) {
            0 => self.dice.one_of(&ENDS),
            _ => self.dice.throw(self.keys) * self.apart,
        }
    }

    fn value(&mut self) -> u64 {
        self.dice.throw(u64::MAX)
    }

    /// A key, and one that mostly lies a few keys above it.
    fn keys_of_range(&mut self) -> (u64, u64) {
        let (low, steps) = (self.key(), self.dice.throw(STEPS));
        let high = match self.dice.throw(8) {
            0 => self.key(),
            1 => low.saturating_sub(steps),
            _ => low.saturating_add(steps.saturating_mul(self.apart)),
        };
        (low, high)
    }

    /// A range, which may be whole or empty, and may run backwards.
    fn bounds(&mut self) -> Bounds {
        let (low, high) = self.keys_of_range();
        (self.dice.bound(low), self.dice.bound(high))
    }

    /// What the plain map has within the bounds.
    fn within(&self, bounds: Bounds) -> Vec<Pair> {
        let pairs = self.plain.iter().map(owned);
        pairs.filter(|(key, _)| bounds.contains(key)).collect()
    }

    fn had(&self, key: u64) -> Option<u64> {
        self.plain.get(&key).copied()
    }

    /// The key has in the map what it has in the plain one.
    fn same_at(&self, key: u64) {
        assert_eq!(self.map.get(key), self.had(key));
        assert_eq!(self.map.contains_key(key), self.had(key).is_some());
    }

    fn get(&mut self) {
        let key = self.key();
        self.same_at(key);
    }

    fn put(&mut self) {
        let (key, value) = (self.key(), self.value());
        let answer = self.map.put(key, value);
        if self.is_done(answer, self.had(key)) {
            self.plain.entry(key).or_insert(value);
        }
        self.same_at(key);
    }

    fn set(&mut self) {
        let (key, value) = (self.key(), self.value());
        let answer = match value % 2 {
            0 => self.map.set(key, value),
            _ => self.map.insert(key, value),
        };
        if self.is_done(answer, self.had(key)) {
            self.plain.insert(key, value);
        }
        self.same_at(key);
    }

    fn remove(&mut self) {
        let key = self.key();
        let answer = self.map.remove(key);
        if self.is_done(answer, self.had(key)) {
            self.plain.remove(&key);
        }
        self.same_at(key);
    }

    fn or_insert(&mut self) {
        let (key, value) = (self.key(), self.value());
        let place = self.map.entry(key);
        assert_eq!(place.key(), key);
        let answer = match value % 3 {
            0 => place.or_insert(value),
            1 => place.or_insert_with(|| value),
            _ => place.or_insert_with_key(|it| it ^ value ^ key),
        };
        if self.is_done(answer, self.had(key).unwrap_or(value)) {
            self.plain.entry(key).or_insert(value);
        }
        self.same_at(key);
    }

    /// Changes the value that is there, or inserts another; where the first of both is made, the key is there.
    fn modify(&mut self) {
        let (key, value) = (self.key(), self.value());
        let changed = |it: u64| it.rotate_left(7) ^ value;
        let wanted = self.had(key).map_or(value, changed);
        let answer = self
            .map
            .entry(key)
            .and_modify(|it| *it = changed(*it))
            .and_then(|place| place.or_insert(value));
        if self.is_done(answer, wanted) {
            self.plain.insert(key, wanted);
        }
        self.same_at(key);
    }

    /// What is done at the place of a key that is there, or isn't.
    fn place(&mut self) {
        let (key, value) = (self.key(), self.value());
        let plain = self.plain.entry(key);
        match (self.map.entry(key), plain) {
            (Entry::Vacant(place), btree_map::Entry::Vacant(_)) => {
                let answer = place.insert_entry(value).map(|there| there.get());
                if self.is_done(answer, value) {
                    self.plain.insert(key, value);
                }
            }
            (Entry::Occupied(mut there), btree_map::Entry::Occupied(plain)) => {
                let old = *plain.get();
                assert_eq!((there.key(), there.get()), (key, old));
                if value.is_multiple_of(2) {
                    let answer = there.remove_entry();
                    if self.is_done(answer, (key, old)) {
                        self.plain.remove(&key);
                    }
                } else {
                    let answer = there.insert(value);
                    let wanted = if answer.is_ok() { value } else { old };
                    assert_eq!(there.get(), wanted);
                    if self.is_done(answer, old) {
                        self.plain.insert(key, value);
                    }
                }
            }
            (ours, plain) => panic!("{ours:?} beside {plain:?}"),
        }
        self.same_at(key);
    }

    /// With what the key has, or with another value or none; to a new value or to none.
    fn compare_and_set(&mut self) {
        let (key, value) = (self.key(), self.value());
        let there = self.had(key);
        let expected = self.dice.one_of(&[there, there, None, Some(value)]);
        let new = (!value.is_multiple_of(3)).then_some(value / 2);
        let answer = self.map.compare_and_set(key, expected, new);
        let wanted = match there == expected {
            true => CompareAndSet::Set,
            false => CompareAndSet::Differs(there),
        };
        if self.is_done(answer, wanted) && there == expected {
            self.plain.remove(&key);
            self.plain.extend(new.map(|new| (key, new)));
        }
        self.same_at(key);
    }

    fn upsert(&mut self) {
        let (key, value) = (self.key(), self.value());
        let new = |old: Option<u64>| old.unwrap_or(7) ^ value;
        let old = self.had(key);
        let answer = self.map.upsert(key, new);
        if self.is_done(answer, Upsert { old, new: new(old) }) {
            self.plain.insert(key, new(old));
        }
        self.same_at(key);
    }

    fn pop(&mut self) {
        let (answer, wanted) = match self.dice.throw(2) {
            0 => (self.map.pop_first(), self.plain.first_key_value()),
            _ => (self.map.pop_last(), self.plain.last_key_value()),
        };
        let wanted = wanted.map(owned);
        if self.is_done(answer, wanted) {
            wanted.map(|(key, _)| self.plain.remove(&key));
        }
        self.same_near(0);
    }

    /// Sets a few pairs. Where the map is full, those before the one that was refused are in it.
    fn extend(&mut self) {
        let count = self.dice.throw(20);
        let pairs: Vec<Pair> = (0..count).map(|_| (self.key(), self.value())).collect();
        let mut drawn = 0;
        let answer = self
            .map
            .try_extend(pairs.iter().copied().inspect(|_| drawn += 1));
        let done = match answer {
            Ok(()) => drawn,
            Err(_) => drawn - 1,
        };
        self.plain.extend(pairs[..done].iter().copied());
        self.is_done(answer, ());
        pairs.iter().for_each(|(key, _)| self.same_at(*key));
    }

    /// Whether the call was made, as it is unless the map is full.
    fn is_done<T: PartialEq + Debug>(&mut self, answer: Result<T, Fault>, wanted: T) -> bool {
        match answer {
            Ok(answer) => {
                assert_eq!(answer, wanted);
                self.see_care();
                true
            }
            Err(Fault::TableFull) => {
                self.see_full();
                false
            }
            Err(fault) => panic!("{fault}"),
        }
    }

    fn see_care(&mut self) {
        match self.map.care() {
            None => {}
            Some(Fault::TableFull) => self.full.cut += 1,
            Some(fault) => panic!("{fault}"),
        }
    }

    /// A full map has lost nothing: that is seen where it is found full for the first time, and now and then.
    fn see_full(&mut self) {
        if self.full.refused.is_multiple_of(100) {
            same_pairs(&self.map, &self.plain);
        }
        self.full.refused += 1;
    }

    /// A range with ends of all kinds, taken from either end by drawn turns. Where it runs backwards, and `BTreeMap`
    /// panics, it has no keys.
    fn range(&mut self) {
        let bounds = self.bounds();
        let mut pairs = self.map.range(bounds);
        let backwards = match bounds {
            (Excluded(low), Excluded(high)) => low >= high,
            (Included(low) | Excluded(low), Included(high) | Excluded(high)) => low > high,
            _ => false,
        };
        if backwards {
            assert_eq!((pairs.next(), pairs.next_back()), (None, None));
            return;
        }
        let mut plain = self.plain.range(bounds).map(owned);
        assert_eq!(self.map.range(bounds).min(), plain.clone().next());
        assert_eq!(self.map.range(bounds).max(), plain.clone().next_back());
        let turns = 1 + self.dice.throw(4);
        for _ in 0..STEPS {
            let (least, most) = pairs.size_hint();
            assert!(least <= self.map.len() && most.is_some_and(|most| least <= most));
            let (ours, theirs) = match self.dice.throw(turns) {
                0 => (pairs.next(), plain.next()),
                _ => (pairs.next_back(), plain.next_back()),
            };
            assert_eq!(ours, theirs, "{bounds:?}");
            if ours.is_none() {
                assert_eq!((pairs.next(), pairs.next_back()), (None, None));
                return;
            }
        }
    }

    /// All pairs, keys and values, taken from either end by drawn turns, each iterator with its length.
    fn parts(&mut self) {
        let ours = (self.map.iter(), self.map.keys(), self.map.values());
        let (mut pairs, mut keys, mut values) = ours;
        let mut plain = self.plain.iter().map(owned);
        loop {
            let left = plain.len();
            assert_eq!((pairs.len(), keys.len(), values.len()), (left, left, left));
            let (ours, theirs) = match self.dice.throw(2) {
                0 => ((pairs.next(), keys.next(), values.next()), plain.next()),
                _ => (
                    (pairs.next_back(), keys.next_back(), values.next_back()),
                    plain.next_back(),
                ),
            };
            let (key, value) = theirs.unzip();
            assert_eq!(ours, (theirs, key, value));
            if theirs.is_none() {
                return;
            }
        }
    }

    fn neighbours(&mut self) {
        let key = self.key();
        self.same_near(key);
    }

    /// The pairs at both ends are the same, and those next to the key.
    fn same_near(&self, key: u64) {
        let (map, plain) = (&self.map, &self.plain);
        assert_eq!(map.len(), plain.len());
        assert_eq!(map.first_key_value(), plain.first_key_value().map(owned));
        assert_eq!(map.last_key_value(), plain.last_key_value().map(owned));
        let (next, previous) = (plain.range(key..).next(), plain.range(..=key).next_back());
        assert_eq!(map.next_at(key), next.map(owned));
        assert_eq!(map.previous_at(key), previous.map(owned));
    }

    /// Takes out the keys of a short range.
    fn clear_few(&mut self) {
        let (low, steps) = (self.key(), self.dice.throw(10));
        let high = low.saturating_add(steps.saturating_mul(self.apart));
        let there: Vec<Pair> = self.plain.range(low..high).map(owned).collect();
        let answer = self.map.clear(low..high);
        self.took_out(&there, answer);
    }

    fn clear(&mut self) {
        let bounds = self.bounds();
        let there = self.within(bounds);
        let answer = self.map.clear(bounds);
        self.took_out(&there, answer);
        same_pairs(&self.map, &self.plain);
    }

    /// Keeps three pairs in four. Each is asked about once, in the order of the keys.
    fn retain(&mut self) {
        let out = self.dice.throw(4);
        let there = self.within((Bound::Unbounded, Bound::Unbounded));
        let mut asked = Vec::new();
        let answer = self.map.retain(|key, value| {
            asked.push((key, value));
            value % 4 != out
        });
        match answer {
            Ok(_) => assert_eq!(asked, there),
            Err(_) => assert!(there.starts_with(&asked)),
        }
        asked.retain(|(_, value)| value % 4 == out);
        self.took_out(&asked, answer);
        same_pairs(&self.map, &self.plain);
    }

    /// Gives two pairs in three of a range other values. Where the map is full, a first part of them has these.
    fn update(&mut self) {
        let (bounds, value) = (self.bounds(), self.value());
        let made = |key: u64, had: u64| match key % 3 == value % 3 {
            true => had,
            false => had ^ value,
        };
        let there = self.within(bounds);
        let mut asked = Vec::new();
        let answer = self.map.update(bounds, |key, had| {
            asked.push((key, had));
            made(key, had)
        });
        let has = |pair: &&Pair| self.map.get(pair.0) == Some(made(pair.0, pair.1));
        let done = match answer {
            Ok(()) => asked.len(),
            Err(_) => there.iter().take_while(has).count(),
        };
        assert!(there.starts_with(&asked) && done <= asked.len());
        assert!(answer.is_err() || asked == there);
        let new = there[..done]
            .iter()
            .map(|(key, had)| (*key, made(*key, *had)));
        self.plain.extend(new);
        self.is_done(answer, ());
        same_pairs(&self.map, &self.plain);
    }

    /// These pairs are gone; where the map is full, as many of them as the call says.
    fn took_out(&mut self, there: &[Pair], answer: Result<u64, Unfinished>) {
        let gone = there
            .iter()
            .filter(|(key, _)| self.map.get(*key).is_none())
            .filter_map(|(key, _)| self.plain.remove(key))
            .count();
        match answer {
            Ok(removed) => {
                assert_eq!((removed, gone), (there.len() as u64, there.len()));
                self.see_care();
            }
            Err(ended) => {
                assert_eq!(ended.fault, Fault::TableFull);
                assert_eq!(ended.removed, gone as u64);
                self.see_full();
            }
        }
    }

    /// The map equals a copy until that changes.
    fn copy(&mut self) {
        let copy = self.map.try_clone().expect("there is memory");
        self.equals_until_changed(copy);
    }

    /// The map equals one that is made of the plain one's pairs, and such a one takes its place, with other pages.
    fn make_anew(&mut self) {
        let made = |it: &Both| {
            let pairs = it.plain.iter().map(owned);
            Map::from_sorted(it.map.settings(), pairs).expect("there is memory")
        };
        self.equals_until_changed(made(self));
        self.map = made(self);
    }

    /// The map equals the other one, which has its settings, until that has another pair.
    fn equals_until_changed(&mut self, mut other: Map) {
        assert_eq!(other.settings(), self.map.settings());
        assert_eq!(other, self.map);
        let (key, value) = (self.key(), self.value());
        if let Ok(had) = other.set(key, value) {
            assert_eq!(other == self.map, had == Some(value));
        }
    }

    fn show(&mut self) {
        assert_eq!(format!("{:?}", self.map), format!("{:?}", self.plain));
    }

    /// Takes pages ahead, or gives back those that the pairs don't want.
    fn take_ahead(&mut self) {
        let answer = match self.dice.throw(2) {
            0 => self.map.reserve(self.dice.throw(1000) as usize),
            _ => self.map.shrink_to_fit(),
        };
        assert!(matches!(answer, Ok(()) | Err(Fault::TableFull)));
        same_pairs(&self.map, &self.plain);
    }

    /// The map copied, then frozen, and read by threads at once, each through one of its own; then it is thawed.
    fn freeze(self) {
        let Both { map, plain, .. } = self;
        let copy = map.clone();
        assert_eq!(copy, map);
        let mine = map.freeze().expect("there is memory");
        let theirs = [(); READERS].map(|()| mine.clone());
        let mine = mine.thaw().expect_err("others have it too");
        std::thread::scope(|scope| {
            for its in theirs {
                scope.spawn(|| read(its, &plain));
            }
        });
        let map = mine.thaw().expect("the others are gone");
        assert_eq!(copy, map);
        assert!(map.into_iter().eq(plain.iter().map(owned)));
        assert!(copy.into_iter().rev().eq(plain.iter().map(owned).rev()));
    }
}

/// The frozen map has the plain one's pairs, from the front and from the back, and each by its key.
fn read(frozen: Frozen, plain: &BTreeMap<u64, u64>) {
    let pairs = || plain.iter().map(owned);
    assert!(frozen.iter().eq(pairs()));
    assert!(frozen.iter().rev().eq(pairs().rev()));
    for (key, value) in pairs() {
        assert_eq!(frozen.get(key), Some(value));
    }
}

/// The kind of map that a seed has: all fanouts and numbers of pages come in turn, with chains of all lengths among them.
fn settings_of(seed: u64) -> Settings {
    Settings {
        fanout: 4 + (seed % FANOUTS) as u32,
        chain: 1 + (7 * seed % 32) as u32,
        pages: PAGES[(seed / FANOUTS) as usize % PAGES.len()],
        ..Settings::default()
    }
}

#[test]
fn twenty_million_calls_are_answered_as_by_btree_map() {
    let cases = CASES * FANOUTS * PAGES.len() as u64;
    let mut full = Full::default();
    for_each_seed(cases, |seed, dice| {
        let mut both = Both::new(&settings_of(seed), dice);
        (0..CALLS).for_each(|_| both.call());
        same_pairs(&both.map, &both.plain);
        full.refused += both.full.refused;
        full.cut += both.full.cut;
        both.freeze();
    });
    if named_seed().is_some() {
        return;
    }
    assert!(full.refused > 0 && full.cut > 0, "no map became full");
    let summary = format!(
        "the same as BTreeMap: {} calls on {cases} maps\n\
         full maps: {} calls refused, {} with their care cut short, and nothing lost\n",
        cases * CALLS,
        full.refused,
        full.cut
    );
    // shown also where the test succeeds
    io::stdout()
        .write_all(summary.as_bytes())
        .expect("it can be written");
}
