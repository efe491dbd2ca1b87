use crate::ffi::{self, Found, High};
use crate::iter::{Iter, Keys, Range, Values};
use crate::{Fault, Settings};
use std::cell::UnsafeCell;
use std::cmp::Ordering;
use std::fmt;
use std::hash::{Hash, Hasher};
use std::mem::MaybeUninit;
use std::ops::{Bound, RangeBounds};
use std::panic::RefUnwindSafe;

/// The calls that look at a map, of a [`Map`](crate::Map) and a [`Frozen`](crate::Frozen) alike. They need no memory.
///
/// ```
/// use nifforan::{Map, Reads};
/// fn span(map: &Reads) -> Option<u64> {
///     Some(map.last_key_value()?.0 - map.first_key_value()?.0)
/// }
/// let map = Map::from([(3, 9), (8, 64)]);
/// assert_eq!(span(&map), Some(5));
/// ```
pub struct Reads {
    /// Open from when it is made to `drop`, and frozen if a `Frozen` has it. Its word is written by the library's calls
    /// alone, also by those that only look at the map. As it isn't `Sync`, there is one call at a time on it.
    handle: UnsafeCell<ShareByForestOrFreeze>,
    settings: Settings,
}

/// A handle, by the name that the compiler shows to whoever shares a map between threads.
#[repr(transparent)]
struct ShareByForestOrFreeze(ffi::Handle);

// SAFETY: the library proves its handle to be Send, also one whose frozen map other handles have.
unsafe impl Send for Reads {}

// A call ends before anything panics.
impl RefUnwindSafe for Reads {}

impl Reads {
    /// Opens a handle by the call, which gets a closed one. If the status is `OK`, the handle must be open.
    pub(crate) fn opened_by(
        settings: Settings,
        open: impl FnOnce(*mut ffi::Handle) -> u32,
    ) -> Result<Reads, Fault> {
        let mut handle = ffi::Handle {
            at: std::ptr::null_mut(),
        };
        match Fault::of(open(&mut handle)) {
            None => Ok(Reads {
                handle: UnsafeCell::new(ShareByForestOrFreeze(handle)),
                settings,
            }),
            Some(fault) => Err(fault),
        }
    }

    /// The handle, for a call of the library.
    pub(crate) fn handle(&self) -> *mut ffi::Handle {
        self.handle.get().cast()
    }

    /// Returns the settings that the map was made with.
    pub fn settings(&self) -> &Settings {
        &self.settings
    }

    /// Returns how many pairs there are, in constant time.
    pub fn len(&self) -> usize {
        // SAFETY: see `handle`.
        unsafe { ffi::nifforan_pairs(self.handle()) }.pairs as usize
    }

    /// Returns whether there is no pair.
    pub fn is_empty(&self) -> bool {
        self.len() == 0
    }

    /// Returns how many more pages there is room for, in constant time.
    pub fn free_pages(&self) -> usize {
        // SAFETY: see `handle`.
        unsafe { ffi::nifforan_pairs(self.handle()) }.free_pages as usize
    }

    /// Returns whether there is no room for another page. If so, pairs still go in, and pages grow longer.
    pub fn is_full(&self) -> bool {
        self.free_pages() == 0
    }

    /// Returns the value at the key.
    pub fn get(&self, key: u64) -> Option<u64> {
        // SAFETY: see `handle`.
        let reply = unsafe { ffi::nifforan_get(self.handle(), key) };
        reply.found.then_some(reply.value)
    }

    /// Returns whether the key has a value.
    pub fn contains_key(&self, key: u64) -> bool {
        self.get(key).is_some()
    }

    /// Returns the pair with the least key.
    pub fn first_key_value(&self) -> Option<(u64, u64)> {
        // SAFETY: see `handle`.
        pair(unsafe { ffi::nifforan_first(self.handle()) })
    }

    /// Returns the pair with the greatest key.
    pub fn last_key_value(&self) -> Option<(u64, u64)> {
        // SAFETY: see `handle`.
        pair(unsafe { ffi::nifforan_last(self.handle()) })
    }

    /// Returns the pair with the least key at or above this one.
    pub fn next_at(&self, key: u64) -> Option<(u64, u64)> {
        // SAFETY: see `handle`.
        pair(unsafe { ffi::nifforan_next_at(self.handle(), key) })
    }

    /// Returns the pair with the greatest key at or below this one.
    ///
    /// ```
    /// let map = nifforan::Map::from([(3, 9)]);
    /// assert_eq!(map.previous_at(7), Some((3, 9)));
    /// assert_eq!(map.previous_at(2), None);
    /// ```
    pub fn previous_at(&self, key: u64) -> Option<(u64, u64)> {
        // SAFETY: see `handle`.
        pair(unsafe { ffi::nifforan_previous_at(self.handle(), key) })
    }

    /// Returns the pairs of a range of keys, in the order of their keys, or backwards by `rev`. A range that ends
    /// before it begins has none.
    ///
    /// ```
    /// let map: nifforan::Map = (0..9).map(|key| (key, key * key)).collect();
    /// assert_eq!(map.range(2..4).collect::<Vec<_>>(), [(2, 4), (3, 9)]);
    /// assert_eq!(map.range(7..).rev().collect::<Vec<_>>(), [(8, 64), (7, 49)]);
    /// ```
    pub fn range(&self, keys: impl RangeBounds<u64>) -> Range<'_> {
        Range::of(self, ends(&keys))
    }

    /// Returns all pairs, in the order of their keys.
    pub fn iter(&self) -> Iter<'_> {
        Iter::of(self)
    }

    /// Returns all keys, which rise.
    pub fn keys(&self) -> Keys<'_> {
        Keys(self.iter())
    }

    /// Returns all values, in the order of their keys.
    pub fn values(&self) -> Values<'_> {
        Values(self.iter())
    }

    /// Writes the first `count` of the places, by its answer.
    pub(crate) fn read(
        &self,
        low: u64,
        high: High,
        places: &mut [MaybeUninit<ffi::Pair>],
    ) -> ffi::ReadAnswer {
        let (pairs, room) = (places.as_mut_ptr().cast(), places.len());
        // SAFETY: see `handle`; the places are there, and this call's own.
        unsafe { ffi::nifforan_read(self.handle(), low, high, pairs, room) }
    }

    /// The same, by falling keys.
    pub(crate) fn read_back(
        &self,
        low: u64,
        high: High,
        places: &mut [MaybeUninit<ffi::Pair>],
    ) -> ffi::ReadAnswer {
        let (pairs, room) = (places.as_mut_ptr().cast(), places.len());
        // SAFETY: see `handle`; the places are there, and this call's own.
        unsafe { ffi::nifforan_read_back(self.handle(), low, high, pairs, room) }
    }
}

impl Drop for Reads {
    fn drop(&mut self) {
        // SAFETY: see `handle`, which nobody has any more.
        unsafe { ffi::nifforan_close(self.handle()) }
    }
}

impl fmt::Debug for Reads {
    fn fmt(&self, f: &mut fmt::Formatter<'_>) -> fmt::Result {
        f.debug_map().entries(self).finish()
    }
}

/// Whether they have the same pairs.
impl PartialEq for Reads {
    fn eq(&self, other: &Reads) -> bool {
        self.len() == other.len() && self.iter().eq(other)
    }
}

impl Eq for Reads {}

impl PartialOrd for Reads {
    fn partial_cmp(&self, other: &Reads) -> Option<Ordering> {
        Some(self.cmp(other))
    }
}

/// By the first pairs that differ.
impl Ord for Reads {
    fn cmp(&self, other: &Reads) -> Ordering {
        self.iter().cmp(other)
    }
}

impl Hash for Reads {
    fn hash<H: Hasher>(&self, state: &mut H) {
        state.write_usize(self.len());
        self.iter().for_each(|pair| pair.hash(state));
    }
}

impl<'m> IntoIterator for &'m Reads {
    type Item = (u64, u64);
    type IntoIter = Iter<'m>;

    fn into_iter(self) -> Iter<'m> {
        self.iter()
    }
}

/// Gives a type whose member `reads` has its map what `Reads` has.
macro_rules! reads {
    ($name:ident) => {
        impl std::ops::Deref for $name {
            type Target = Reads;

            fn deref(&self) -> &Reads {
                &self.reads
            }
        }

        impl std::fmt::Debug for $name {
            fn fmt(&self, f: &mut std::fmt::Formatter<'_>) -> std::fmt::Result {
                self.reads.fmt(f)
            }
        }

        impl PartialEq for $name {
            fn eq(&self, other: &$name) -> bool {
                self.reads == other.reads
            }
        }

        impl Eq for $name {}

        impl PartialOrd for $name {
            fn partial_cmp(&self, other: &$name) -> Option<std::cmp::Ordering> {
                Some(self.cmp(other))
            }
        }

        impl Ord for $name {
            fn cmp(&self, other: &$name) -> std::cmp::Ordering {
                self.reads.cmp(&other.reads)
            }
        }

        impl std::hash::Hash for $name {
            fn hash<H: std::hash::Hasher>(&self, state: &mut H) {
                self.reads.hash(state)
            }
        }

        impl<'m> IntoIterator for &'m $name {
            type Item = (u64, u64);
            type IntoIter = Iter<'m>;

            fn into_iter(self) -> Iter<'m> {
                self.iter()
            }
        }
    };
}

pub(crate) use reads;

fn pair(found: Found) -> Option<(u64, u64)> {
    found.found.then_some((found.key, found.value))
}

impl ffi::Pair {
    pub fn of((key, value): (u64, u64)) -> ffi::Pair {
        ffi::Pair { key, value }
    }
}

impl ffi::Optional {
    pub fn of(value: Option<u64>) -> ffi::Optional {
        ffi::Optional {
            value: value.unwrap_or(0),
            is_some: value.is_some(),
        }
    }
}

impl High {
    /// Past all keys.
    pub const TOP: High = High {
        key: 0,
        is_top: true,
    };

    pub fn below(key: u64) -> High {
        High { key, is_top: false }
    }
}

/// The least key of a range, and what it ends below; none if it has no keys.
pub(crate) fn ends(keys: &impl RangeBounds<u64>) -> Option<(u64, High)> {
    let low = match keys.start_bound() {
        Bound::Included(low) => *low,
        Bound::Excluded(below) => below.checked_add(1)?,
        Bound::Unbounded => 0,
    };
    let high = match keys.end_bound() {
        Bound::Included(last) => last.checked_add(1).map_or(High::TOP, High::below),
        Bound::Excluded(end) => High::below(*end),
        Bound::Unbounded => High::TOP,
    };
    (high.is_top || low < high.key).then_some((low, high))
}
