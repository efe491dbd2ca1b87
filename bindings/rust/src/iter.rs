//! The iterators. Each is a `FusedIterator`.

use crate::ffi::High;
use crate::walk::Walk;
use crate::Reads;
use std::fmt;
use std::iter::FusedIterator;

/// The pairs of a map in a range of keys, in the order of their keys, from either end. [`Reads::range`] makes it.
///
/// ```
/// use nifforan::Map;
/// let map: Map = (0..100).map(|key| (key, key * key)).collect();
/// let mut pairs = map.range(90..=95);
/// assert_eq!(pairs.next(), Some((90, 8100)));
/// assert_eq!(pairs.next_back(), Some((95, 9025)));
/// assert_eq!(pairs.map(|(key, _)| key).collect::<Vec<_>>(), [91, 92, 93, 94]);
/// ```
#[derive(Clone)]
pub struct Range<'m> {
    map: &'m Reads,
    walk: Walk,
}

impl<'m> Range<'m> {
    #[inline]
    pub(crate) fn of(map: &'m Reads, ends: Option<(u64, High)>) -> Range<'m> {
        Range {
            map,
            walk: Walk::of(ends),
        }
    }
}

impl Iterator for Range<'_> {
    type Item = (u64, u64);

    #[inline]
    fn next(&mut self) -> Option<(u64, u64)> {
        self.walk.next(self.map)
    }

    fn size_hint(&self) -> (usize, Option<usize>) {
        self.walk.size_hint(self.map)
    }

    fn last(mut self) -> Option<(u64, u64)> {
        self.next_back()
    }

    fn min(mut self) -> Option<(u64, u64)> {
        self.next()
    }

    fn max(mut self) -> Option<(u64, u64)> {
        self.next_back()
    }
}

impl DoubleEndedIterator for Range<'_> {
    fn next_back(&mut self) -> Option<(u64, u64)> {
        self.walk.next_back(self.map)
    }
}

impl FusedIterator for Range<'_> {}

/// All pairs of a map, in the order of their keys, from either end. [`Reads::iter`] makes it.
///
/// ```
/// use nifforan::Map;
/// let map = Map::from([(3, 9), (4, 16)]);
/// assert_eq!(map.iter().len(), 2);
/// assert_eq!(map.iter().rev().collect::<Vec<_>>(), [(4, 16), (3, 9)]);
/// for (key, value) in &map {
///     assert_eq!(value, key * key);
/// }
/// ```
#[derive(Clone)]
pub struct Iter<'m> {
    map: &'m Reads,
    rest: Rest,
}

/// What is left of all pairs of a map.
#[derive(Clone)]
struct Rest {
    walk: Walk,
    count: usize,
}

impl Rest {
    fn of(map: &Reads) -> Rest {
        Rest {
            walk: Walk::of(Some((0, High::TOP))),
            count: map.len(),
        }
    }

    #[inline]
    fn next(&mut self, map: &Reads) -> Option<(u64, u64)> {
        let pair = self.walk.next(map)?;
        self.count -= 1;
        Some(pair)
    }

    fn next_back(&mut self, map: &Reads) -> Option<(u64, u64)> {
        let pair = self.walk.next_back(map)?;
        self.count -= 1;
        Some(pair)
    }
}

impl<'m> Iter<'m> {
    pub(crate) fn of(map: &'m Reads) -> Iter<'m> {
        Iter {
            map,
            rest: Rest::of(map),
        }
    }

    #[inline]
    fn advance(&mut self) -> Option<(u64, u64)> {
        self.rest.next(self.map)
    }

    fn advance_back(&mut self) -> Option<(u64, u64)> {
        self.rest.next_back(self.map)
    }
}

/// All pairs of a map that nobody else has any more, in the order of their keys, from either end. `into_iter` makes it.
///
/// ```
/// use nifforan::Map;
/// let pairs = Map::from([(3, 9), (4, 16)]).into_iter();
/// let other = std::thread::spawn(move || pairs.map(|(_, value)| value).sum::<u64>());
/// assert_eq!(other.join().unwrap(), 25);
/// ```
pub struct IntoIter {
    map: Reads,
    rest: Rest,
}

impl IntoIter {
    pub(crate) fn of(map: Reads) -> IntoIter {
        let rest = Rest::of(&map);
        IntoIter { map, rest }
    }

    #[inline]
    fn advance(&mut self) -> Option<(u64, u64)> {
        self.rest.next(&self.map)
    }

    fn advance_back(&mut self) -> Option<(u64, u64)> {
        self.rest.next_back(&self.map)
    }
}

fn whole(pair: (u64, u64)) -> (u64, u64) {
    pair
}

fn key((key, _): (u64, u64)) -> u64 {
    key
}

fn value((_, value): (u64, u64)) -> u64 {
    value
}

/// The keys of a map, which rise, from either end. [`Reads::keys`] makes it.
///
/// ```
/// let map = nifforan::Map::from([(4, 16), (3, 9)]);
/// assert_eq!(map.keys().collect::<Vec<_>>(), [3, 4]);
/// assert_eq!(map.keys().next_back(), Some(4));
/// ```
#[derive(Clone)]
pub struct Keys<'m>(pub(crate) Iter<'m>);

/// The values of a map, in the order of their keys, from either end. [`Reads::values`] makes it.
///
/// ```
/// let map = nifforan::Map::from([(4, 16), (3, 9)]);
/// assert_eq!(map.values().collect::<Vec<_>>(), [9, 16]);
/// assert_eq!(map.values().len(), 2);
/// ```
#[derive(Clone)]
pub struct Values<'m>(pub(crate) Iter<'m>);

/// The keys of a map that nobody else has any more, which rise, from either end. [`Map::into_keys`](crate::Map::into_keys) makes it.
///
/// ```
/// let map = nifforan::Map::from([(4, 16), (3, 9)]);
/// assert_eq!(map.into_keys().collect::<Vec<_>>(), [3, 4]);
/// ```
pub struct IntoKeys(pub(crate) IntoIter);

/// The values of a map that nobody else has any more, in the order of their keys, from either end.
/// [`Map::into_values`](crate::Map::into_values) makes it.
///
/// ```
/// let map = nifforan::Map::from([(4, 16), (3, 9)]);
/// assert_eq!(map.into_values().rev().collect::<Vec<_>>(), [16, 9]);
/// ```
pub struct IntoValues(pub(crate) IntoIter);

/// An iterator over a part of each pair of an `Iter` or an `IntoIter`, at a path of fields, which knows its length.
macro_rules! iterate {
    ($name:ty, $item:ty, $part:expr, |$it:ident| $pairs:expr) => {
        impl Iterator for $name {
            type Item = $item;

            #[inline]
            fn next(&mut self) -> Option<$item> {
                let $it = self;
                $pairs.advance().map($part)
            }

            fn size_hint(&self) -> (usize, Option<usize>) {
                let $it = self;
                let left = $pairs.rest.count;
                (left, Some(left))
            }

            fn count(self) -> usize {
                self.len()
            }

            fn last(mut self) -> Option<$item> {
                self.next_back()
            }
        }

        impl DoubleEndedIterator for $name {
            fn next_back(&mut self) -> Option<$item> {
                let $it = self;
                $pairs.advance_back().map($part)
            }
        }

        impl ExactSizeIterator for $name {}

        impl FusedIterator for $name {}
    };
}

iterate!(Iter<'_>, (u64, u64), whole, |it| it);
iterate!(IntoIter, (u64, u64), whole, |it| it);
iterate!(Keys<'_>, u64, key, |it| it.0);
iterate!(Values<'_>, u64, value, |it| it.0);
iterate!(IntoKeys, u64, key, |it| it.0);
iterate!(IntoValues, u64, value, |it| it.0);

/// Shows what is left of an iterator that can be walked twice.
macro_rules! show {
    ($($name:ty),*) => {$(
        impl fmt::Debug for $name {
            fn fmt(&self, f: &mut fmt::Formatter<'_>) -> fmt::Result {
                f.debug_list().entries(self.clone()).finish()
            }
        }
    )*};
}

show!(Range<'_>, Iter<'_>, Keys<'_>, Values<'_>);

/// Shows what is left of an iterator that has its map.
macro_rules! show_owned {
    ($($name:ty, $part:expr, |$it:ident| $pairs:expr;)*) => {$(
        impl fmt::Debug for $name {
            fn fmt(&self, f: &mut fmt::Formatter<'_>) -> fmt::Result {
                let $it = self;
                let IntoIter { map, rest } = $pairs;
                let left = Iter { map, rest: rest.clone() };
                f.debug_list().entries(left.map($part)).finish()
            }
        }
    )*};
}

show_owned! {
    IntoIter, whole, |it| it;
    IntoKeys, key, |it| &it.0;
    IntoValues, value, |it| &it.0;
}
