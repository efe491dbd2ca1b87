//! Ranges whose ends are those of the keys.

use nifforan::{Fault, Map, Settings};
use std::ops::Bound::{self, Excluded, Included, Unbounded};

type Ends = (Bound<u64>, Bound<u64>);

const RANGES: [(Ends, &[u64]); 9] = [
    ((Unbounded, Unbounded), &[0, 1, u64::MAX]),
    ((Included(u64::MAX), Unbounded), &[u64::MAX]),
    ((Excluded(u64::MAX), Unbounded), &[]),
    ((Excluded(1), Included(u64::MAX)), &[u64::MAX]),
    ((Excluded(0), Excluded(u64::MAX)), &[1]),
    ((Unbounded, Excluded(0)), &[]),
    ((Unbounded, Included(0)), &[0]),
    ((Excluded(0), Excluded(1)), &[]),
    ((Included(2), Included(1)), &[]),
];

fn filled() -> Result<Map, Fault> {
    let mut map = Map::new(&Settings::default())?;
    for key in [0, 1, u64::MAX] {
        map.insert(key, 7)?;
    }
    Ok(map)
}

#[test]
fn ranges_have_the_keys_at_their_ends() {
    for (range, keys) in RANGES {
        let mut map = filled().expect("there is memory");
        assert!(
            map.range(range)
                .map(|(key, _)| key)
                .eq(keys.iter().copied()),
            "{range:?}"
        );
        assert!(
            map.range(range)
                .rev()
                .map(|(key, _)| key)
                .eq(keys.iter().rev().copied()),
            "{range:?}"
        );
        assert_eq!(map.clear(range), Ok(keys.len() as u64), "{range:?}");
        assert_eq!(map.len(), 3 - keys.len(), "{range:?}");
    }
}

#[test]
fn a_range_that_has_ended_stays_so() {
    let map = filled().expect("there is memory");
    for range in [
        (Unbounded, Unbounded),
        (Unbounded, Included(1)),
        (Included(2), Included(1)),
    ] {
        let mut pairs = map.range(range);
        pairs.by_ref().for_each(drop);
        assert_eq!((pairs.next(), pairs.next_back()), (None, None));
        let mut pairs = map.range(range);
        pairs.by_ref().rev().for_each(drop);
        assert_eq!((pairs.next(), pairs.next_back()), (None, None));
    }
}

#[test]
fn the_library_is_of_this_version() {
    let number = |part: &str| part.parse::<u32>().expect("a number");
    let numbers = [
        env!("CARGO_PKG_VERSION_MAJOR"),
        env!("CARGO_PKG_VERSION_MINOR"),
        env!("CARGO_PKG_VERSION_PATCH"),
    ]
    .map(number);
    assert_eq!(
        nifforan::version(),
        10_000 * numbers[0] + 100 * numbers[1] + numbers[2]
    );
}

#[test]
fn a_map_is_filled_by_another_thread() {
    let map = filled().expect("there is memory");
    let filler = std::thread::spawn(move || {
        let mut map = map;
        map.insert(5, 25).map(|_| map)
    });
    let map = filler.join().expect("it ends").expect("there is memory");
    assert_eq!((map.get(5), map.len()), (Some(25), 4));
}

#[test]
fn a_fault_has_the_librarys_text() {
    let settings = Settings {
        chain: 0,
        ..Settings::default()
    };
    let fault = Map::new(&settings).expect_err("the chain is 0");
    assert_eq!(fault.to_string(), "the chain is not from 1 to 32");
}
