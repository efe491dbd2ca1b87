//! The pairs of a map beside those of a `BTreeMap`.

use nifforan::Map;
use std::collections::BTreeMap;

pub type Pair = (u64, u64);

pub fn owned((key, value): (&u64, &u64)) -> Pair {
    (*key, *value)
}

/// The map has the plain one's pairs, from the front and from the back.
pub fn same_pairs(map: &Map, plain: &BTreeMap<u64, u64>) {
    assert_eq!(map.len(), plain.len());
    assert!(map.iter().eq(plain.iter().map(owned)));
    assert!(map.iter().rev().eq(plain.iter().rev().map(owned)));
}
