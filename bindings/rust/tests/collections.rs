//! What collections of Rust have: traits, iterators and entries, by worked examples.

use nifforan::{Entry, Fault, Frozen, Map, Reads, Settings, Unfinished, Unfrozen};
use std::collections::hash_map::DefaultHasher;
use std::collections::BTreeMap;
use std::error::Error;
use std::fmt::Debug;
use std::hash::{Hash, Hasher};
use std::iter::FusedIterator;
use std::panic::{RefUnwindSafe, UnwindSafe};

/// 0 to 99, with their squares.
fn squares() -> Map {
    (0..100).map(|key| (key, key * key)).collect()
}

fn hash(it: &impl Hash) -> u64 {
    let mut hasher = DefaultHasher::new();
    it.hash(&mut hasher);
    hasher.finish()
}

#[test]
fn types_have_the_traits_of_a_collection() {
    fn map<T: Send + UnwindSafe + RefUnwindSafe + Debug + Clone + Eq + Ord + Hash>() {}
    fn iterator<T: DoubleEndedIterator + FusedIterator + Debug>() {}
    fn exact<T: ExactSizeIterator>() {}
    fn error<T: Error + Send + 'static>() {}
    map::<Map>();
    map::<Frozen>();
    iterator::<nifforan::Range<'static>>();
    iterator::<nifforan::Iter<'static>>();
    iterator::<nifforan::Keys<'static>>();
    iterator::<nifforan::Values<'static>>();
    iterator::<nifforan::IntoIter>();
    iterator::<nifforan::IntoKeys>();
    iterator::<nifforan::IntoValues>();
    exact::<nifforan::Iter<'static>>();
    exact::<nifforan::Keys<'static>>();
    exact::<nifforan::Values<'static>>();
    exact::<nifforan::IntoIter>();
    exact::<nifforan::IntoKeys>();
    exact::<nifforan::IntoValues>();
    error::<Fault>();
    error::<Unfinished>();
    error::<Unfrozen>();
}

#[test]
fn maps_are_compared_by_their_pairs() {
    let mut other: Map = squares().into_iter().rev().collect();
    assert_eq!(other, squares());
    assert_eq!(hash(&other), hash(&squares()));
    other.extend([(50, 0)]);
    assert_ne!(other, squares());
    assert!(other < squares());
    assert_ne!(hash(&other), hash(&squares()));
    other.clear(50..).expect("there are pages");
    assert!(other < squares());
    let frozen = squares().freeze().expect("there is memory");
    assert_eq!(*squares(), *frozen);
    assert_eq!(frozen, frozen.clone());
}

#[test]
fn pages_are_taken_ahead_and_given_back() -> Result<(), Fault> {
    let few = Settings {
        pages: 4096,
        ..Settings::default()
    };
    for settings in [few, Settings::default()] {
        let mut map = Map::with_capacity(&settings, 50_000)?;
        assert_eq!(map.free_pages(), settings.pages as usize - 1);
        map.try_extend((0..50_000).rev().map(|key| (key, 2 * key)))?;
        map.reserve(10)?;
        assert_eq!(map.care(), None);
        assert_eq!(map.clear(100..49_900), Ok(49_800));
        let free = map.free_pages();
        map.shrink_to_fit()?;
        assert!(map.free_pages() >= free);
        assert_eq!(map.settings(), &settings);
        let kept = (0..100).chain(49_900..50_000).map(|key| (key, 2 * key));
        assert!(map.iter().eq(kept));
    }
    let mut small = Map::new(&few)?;
    assert_eq!(small.reserve(usize::MAX), Err(Fault::TableFull));
    assert_eq!(
        Map::with_capacity(&few, 200_000).err(),
        Some(Fault::TableFull)
    );
    small.try_extend((0..100).map(|key| (key, key)))?;
    assert_eq!(small.reserve(usize::MAX - 99), Err(Fault::TableFull));
    assert_eq!((small.len(), small.care()), (100, None));
    Ok(())
}

#[test]
fn small_maps_take_little_and_large_ones_are_not_cut_short() -> Result<(), Fault> {
    let small: Vec<Map> = (0..10_000)
        .map(|map| (0..10).map(|key| (key, map)).collect())
        .collect();
    for (place, map) in small.iter().enumerate() {
        assert_eq!((map.len(), map.get(9)), (10, Some(place as u64)));
    }
    let mut large = Map::default();
    for key in (0..600_000).rev() {
        large.put(key, key)?;
        assert_eq!(large.care(), None);
    }
    assert!(large.iter().eq((0..600_000).map(|key| (key, key))));
    Ok(())
}

#[test]
fn a_copy_has_the_settings_and_is_changed_by_itself() -> Result<(), Fault> {
    let settings = Settings {
        fanout: 5,
        pages: 4096,
        ..Settings::default()
    };
    let mut map = Map::new(&settings)?;
    map.extend(&BTreeMap::from([(1, 1), (2, 4)]));
    let mut copy = map.clone();
    assert_eq!(copy.settings(), &settings);
    copy.set(2, 5)?;
    assert_eq!((map.get(2), copy.get(2)), (Some(4), Some(5)));
    let thawed = map.freeze()?.thaw().expect("no other has it");
    assert_eq!(thawed.settings(), &settings);
    Ok(())
}

#[test]
fn maps_are_collected_with_the_usual_settings() {
    let map: Map = (0..600_000).map(|key| (key, 1)).collect();
    assert_eq!((map.len(), map.care()), (600_000, None));
    assert_eq!(map.settings(), &Settings::default());
    assert_eq!(Map::default().settings(), &Settings::default());
    // a later pair with the same key stays
    let map = Map::from([(1, 1), (2, 2), (1, 3)]);
    assert_eq!(map.iter().collect::<Vec<_>>(), [(1, 3), (2, 2)]);
}

#[test]
fn maps_and_iterators_show_what_they_have() {
    let map = Map::from([(3, 9), (1, 1), (2, 4)]);
    assert_eq!(format!("{map:?}"), "{1: 1, 2: 4, 3: 9}");
    assert_eq!(format!("{:?}", map.range(2..)), "[(2, 4), (3, 9)]");
    let mut pairs = map.iter();
    pairs.next();
    assert_eq!(format!("{pairs:?}"), "[(2, 4), (3, 9)]");
    assert_eq!(
        format!("{:?} {:?}", map.keys(), map.values()),
        "[1, 2, 3] [1, 4, 9]"
    );
    let mut pairs = map.clone().into_iter();
    pairs.next_back();
    assert_eq!(format!("{pairs:?}"), "[(1, 1), (2, 4)]");
    assert_eq!(format!("{:?}", map.clone().into_keys()), "[1, 2, 3]");
    assert_eq!(format!("{:?}", map.clone().into_values()), "[1, 4, 9]");
    let frozen = map.freeze().expect("there is memory");
    assert_eq!(format!("{frozen:?}"), "{1: 1, 2: 4, 3: 9}");
    let mut map = frozen.thaw().expect("no other has it");
    let place = "Occupied(OccupiedEntry { key: 3, value: 9 })";
    assert_eq!(format!("{:?}", map.entry(3)), place);
    assert_eq!(format!("{:?}", map.entry(4)), "Vacant(VacantEntry(4))");
}

#[test]
fn owned_iterators_are_taken_from_both_ends() {
    let mut pairs = squares().into_iter();
    for key in 0..50 {
        assert_eq!(pairs.len(), 100 - 2 * key as usize);
        assert_eq!(pairs.next(), Some((key, key * key)));
        assert_eq!(pairs.next_back(), Some((99 - key, (99 - key).pow(2))));
    }
    assert_eq!(
        (pairs.next(), pairs.next_back(), pairs.len()),
        (None, None, 0)
    );
    assert!(squares().into_keys().rev().eq((0..100).rev()));
    assert!(squares().into_values().eq((0..100).map(|key| key * key)));
    assert_eq!(squares().into_iter().last(), Some((99, 9801)));
    assert_eq!(squares().into_iter().skip(70).count(), 30);
    let frozen = squares().freeze().expect("there is memory");
    let other = frozen.clone();
    assert!(frozen.into_iter().eq(&other));
    assert_eq!(other.thaw().expect("no other has it"), squares());
}

#[test]
fn iterators_go_on_from_a_copy_of_theirs() {
    let map = squares();
    let mut pairs = map.range(10..90);
    pairs.nth(20);
    pairs.nth_back(20);
    let copy = pairs.clone();
    assert!(pairs.map(|(key, _)| key).eq(31..69));
    assert!(copy.map(|(key, _)| key).eq(31..69));
    assert_eq!(map.range(10..90).size_hint(), (0, Some(100)));
    assert_eq!(map.range(90..90).size_hint(), (0, Some(0)));
    let mut few = map.range(10..13);
    few.next();
    assert_eq!(few.size_hint(), (2, Some(2)));
}

#[test]
fn entries_take_and_return_values() -> Result<(), Fault> {
    let mut map = Map::default();
    assert_eq!(map.entry(3).or_insert(9)?, 9);
    assert_eq!(map.entry(3).or_insert(10)?, 9);
    assert_eq!(map.entry(4).or_default()?, 0);
    assert_eq!(map.entry(5).or_insert_with_key(|key| key * key)?, 25);
    assert_eq!(
        map.entry(5).or_insert_with(|| unreachable!("5 is there"))?,
        25
    );
    assert_eq!(
        map.entry(5).and_modify(|value| *value += 1)?.or_insert(0)?,
        26
    );
    assert_eq!(
        map.entry(6)
            .and_modify(|_| unreachable!("6 isn't there"))?
            .or_insert(36)?,
        36
    );
    let mut there = map.entry(7).insert_entry(49)?;
    assert_eq!((there.key(), there.get()), (7, 49));
    assert_eq!(there.insert(50)?, 49);
    assert_eq!(there.remove()?, 50);
    assert_eq!(map.entry(3).insert_entry(8)?.get(), 8);
    let Entry::Vacant(place) = map.entry(7) else {
        panic!("7 was removed")
    };
    assert_eq!((place.key(), place.insert(51)?), (7, 51));
    assert_eq!(map.first_entry().map(|there| there.key()), Some(3));
    assert_eq!(map.last_entry().map(|there| there.get()), Some(51));
    let pairs = [(3, 8), (4, 0), (5, 26), (6, 36), (7, 51)];
    assert!(map.iter().eq(pairs));
    Ok(())
}

#[test]
fn care_of_many_changes_is_that_of_the_last_one_cut_short() -> Result<(), Fault> {
    let settings = Settings {
        pages: 8,
        ..Settings::default()
    };
    let mut map = Map::new(&settings)?;
    assert_eq!((map.free_pages(), map.is_full()), (7, false));
    map.try_extend((0..1000).map(|key| (key, 1)))?;
    assert_eq!(map.care(), Some(Fault::TableFull));
    assert_eq!((map.free_pages(), map.is_full()), (0, true));
    // the last page is too long, the first one isn't
    map.set(0, 2)?;
    assert_eq!(map.care(), None);
    map.try_extend([(0, 2), (999, 2), (0, 3)])?;
    assert_eq!(map.care(), Some(Fault::TableFull));
    map.try_extend([])?;
    assert_eq!(map.care(), None);
    assert_eq!(map.clear(2000..), Ok(0));
    assert_eq!(map.care(), None);
    Ok(())
}

#[test]
fn faults_tell_what_they_are() {
    let bad = |settings| Map::new(&settings).expect_err("a setting is out of its range");
    let usual = Settings::default();
    assert_eq!(
        bad(Settings {
            fanout: 65,
            ..usual
        }),
        Fault::BadFanout
    );
    assert_eq!(bad(Settings { chain: 33, ..usual }), Fault::BadChain);
    assert_eq!(bad(Settings { pages: 7, ..usual }), Fault::BadPages);
    assert_eq!(bad(Settings { tries: 0, ..usual }), Fault::BadTries);
    let all = [
        Fault::BadFanout,
        Fault::BadChain,
        Fault::BadPages,
        Fault::BadTries,
        Fault::NoMemory,
        Fault::TableFull,
        Fault::TooTall,
        Fault::Worn,
        Fault::Contended,
        Fault::BadSize,
        Fault::Other(77),
    ];
    let mut texts: Vec<String> = all.iter().map(Fault::to_string).collect();
    texts.sort();
    texts.dedup();
    assert_eq!(texts.len(), all.len());
}

#[test]
fn a_worn_map_stays_as_it_was() -> Result<(), Fault> {
    let settings = Settings {
        first_version: u64::MAX,
        ..Settings::default()
    };
    let mut map = Map::new(&settings)?;
    assert_eq!(map.set(1, 1), Err(Fault::Worn));
    assert_eq!(map.entry(1).or_insert(1), Err(Fault::Worn));
    assert_eq!(map.try_extend([(1, 1)]), Err(Fault::Worn));
    assert!(map.is_empty());
    let extended = std::panic::catch_unwind(move || map.extend([(1, 1)]));
    assert!(extended.is_err(), "Extend has no place for a fault");
    Ok(())
}

/// The first set takes two of the leaf's three versions, one for the change and one for the leaf made anew, and the second
/// one takes the last.
#[test]
fn pairs_before_a_fault_are_in_the_map() -> Result<(), Fault> {
    let settings = Settings {
        first_version: u64::MAX - 3,
        ..Settings::default()
    };
    let mut map = Map::new(&settings)?;
    assert_eq!(
        map.try_extend((0..100).map(|key| (key, 9))),
        Err(Fault::Worn)
    );
    assert!(map.iter().eq([(0, 9), (1, 9)]));
    assert_eq!(map.update(.., |key, _| key), Err(Fault::Worn));
    assert!(map.iter().eq([(0, 9), (1, 9)]));
    Ok(())
}

#[test]
fn a_function_takes_maps_of_both_kinds() {
    fn sum(map: &Reads) -> u64 {
        map.into_iter().map(|(_, value)| value).sum()
    }
    let map = Map::from([(3, 9), (4, 16)]);
    assert_eq!(sum(&map), 25);
    assert_eq!(sum(&map.freeze().expect("there is memory")), 25);
}

#[test]
fn maps_of_sorted_pairs() {
    let settings = Settings::default();
    for count in [0, 1, 63, 64, 65, 10_000] {
        let pairs = || (0..count).map(|n| (n * (u64::MAX / 10_000), n));
        let mut map = Map::from_sorted(&settings, pairs()).expect("they rise");
        assert!(map.iter().eq(pairs()));
        assert!(map.iter().rev().eq(pairs().rev()));
        assert_eq!(map.insert(u64::MAX, 0), Ok(None));
        assert_eq!(map.pop_last(), Ok(Some((u64::MAX, 0))));
        assert_eq!(map.clear(..), Ok(count));
    }
    for (unsorted, number) in [
        ([1, 0, 2], 1),
        ([0, 2, 1], 2),
        ([0, 0, 1], 1),
        ([0, 1, 1], 2),
    ] {
        let map = Map::from_sorted(&settings, unsorted.map(|key| (key, 0)));
        assert_eq!(map.err(), Some(Fault::Unsorted(number)));
    }
    let told = Fault::Unsorted(7).to_string();
    assert!(told.ends_with(": pair 7, counted from 0"), "{told}");
    let worn = Settings {
        first_version: u64::MAX,
        ..settings
    };
    assert_eq!(Map::from_sorted(&worn, [(1, 1)]).err(), Some(Fault::Worn));
    let bad = Settings {
        fanout: 65,
        ..settings
    };
    assert_eq!(Map::from_sorted(&bad, []).err(), Some(Fault::BadFanout));
}

/// Pairs go in by 64 at once, also where an iterator says nothing of how many there are.
#[test]
fn many_pairs_are_set_in_their_order() {
    for count in [0, 1, 63, 64, 65, 127, 128, 129, 1000] {
        let pairs = || {
            (0..count)
                .map(|n| (n % 100, n))
                .filter(|(_, n)| *n < u64::MAX)
        };
        let mut map = Map::from([(7, 0), (200, 200)]);
        map.try_extend(pairs()).expect("there is memory");
        let mut plain = std::collections::BTreeMap::from([(7, 0), (200, 200)]);
        plain.extend(pairs());
        assert!(map.into_iter().eq(plain));
    }
}
