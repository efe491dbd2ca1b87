//! The place of a key in a map. A map lends no `&mut u64` into its pages, so each call takes and returns values, and
//! those that change the map may fail.

use crate::{Fault, Map};
use std::fmt;

/// The place of a key, which has a value or none. [`Map::entry`] makes it.
///
/// What returns a `&mut V` in `BTreeMap` returns the key's new value here.
///
/// ```
/// use nifforan::Map;
/// let mut counts = Map::default();
/// for key in [3, 1, 3, 3] {
///     counts.entry(key).and_modify(|count| *count += 1)?.or_insert(1)?;
/// }
/// assert_eq!(counts.iter().collect::<Vec<_>>(), [(1, 1), (3, 3)]);
/// assert_eq!(counts.entry(5).or_insert_with(|| 8)?, 8);
/// # Ok::<(), nifforan::Fault>(())
/// ```
#[derive(Debug)]
pub enum Entry<'m> {
    /// The key has a value.
    Occupied(OccupiedEntry<'m>),
    /// The key has none.
    Vacant(VacantEntry<'m>),
}

impl<'m> Entry<'m> {
    pub(crate) fn of(map: &'m mut Map, key: u64, value: Option<u64>) -> Entry<'m> {
        match value {
            Some(value) => Entry::Occupied(OccupiedEntry { map, key, value }),
            None => Entry::Vacant(VacantEntry { map, key }),
        }
    }

    /// Returns the key.
    pub fn key(&self) -> u64 {
        match self {
            Entry::Occupied(there) => there.key,
            Entry::Vacant(place) => place.key,
        }
    }

    /// Gives the key the value unless it has one, and returns the value that it then has. [`Map::put`] does this in one
    /// look-up.
    pub fn or_insert(self, value: u64) -> Result<u64, Fault> {
        self.or_insert_with(|| value)
    }

    /// Unless the key has a value, gives it the one that the function makes. Returns the value that it then has.
    pub fn or_insert_with(self, value: impl FnOnce() -> u64) -> Result<u64, Fault> {
        self.or_insert_with_key(|_| value())
    }

    /// Unless the key has a value, gives it the one that the function makes of the key. Returns the value that it then
    /// has.
    pub fn or_insert_with_key(self, value: impl FnOnce(u64) -> u64) -> Result<u64, Fault> {
        match self {
            Entry::Occupied(there) => Ok(there.value),
            Entry::Vacant(place) => {
                let value = value(place.key);
                place.insert(value)
            }
        }
    }

    /// Gives the key 0 unless it has a value, and returns the value that it then has.
    pub fn or_default(self) -> Result<u64, Fault> {
        self.or_insert(0)
    }

    /// If there is a value, has a copy of it changed, and sets the key to that.
    pub fn and_modify(mut self, change: impl FnOnce(&mut u64)) -> Result<Self, Fault> {
        if let Entry::Occupied(there) = &mut self {
            let mut value = there.value;
            change(&mut value);
            there.insert(value)?;
        }
        Ok(self)
    }

    /// Gives the key the value, and returns its place.
    pub fn insert_entry(self, value: u64) -> Result<OccupiedEntry<'m>, Fault> {
        match self {
            Entry::Occupied(mut there) => {
                there.insert(value)?;
                Ok(there)
            }
            Entry::Vacant(place) => place.insert_entry(value),
        }
    }
}

/// The place of a key that has a value.
///
/// ```
/// use nifforan::{Entry, Map};
/// let mut map = Map::from([(3, 9)]);
/// if let Entry::Occupied(mut there) = map.entry(3) {
///     assert_eq!(there.insert(10)?, 9);
///     assert_eq!(there.remove_entry()?, (3, 10));
/// }
/// assert!(map.is_empty());
/// # Ok::<(), nifforan::Fault>(())
/// ```
pub struct OccupiedEntry<'m> {
    map: &'m mut Map,
    key: u64,
    value: u64,
}

impl<'m> OccupiedEntry<'m> {
    pub(crate) fn of(map: &'m mut Map, (key, value): (u64, u64)) -> OccupiedEntry<'m> {
        OccupiedEntry { map, key, value }
    }

    /// Returns the key.
    pub fn key(&self) -> u64 {
        self.key
    }

    /// Returns the value.
    pub fn get(&self) -> u64 {
        self.value
    }

    /// Gives the key the value, and returns the old one.
    pub fn insert(&mut self, value: u64) -> Result<u64, Fault> {
        self.map.set(self.key, value)?;
        Ok(std::mem::replace(&mut self.value, value))
    }

    /// Takes the key out, and returns its value.
    pub fn remove(self) -> Result<u64, Fault> {
        self.remove_entry().map(|(_, value)| value)
    }

    /// Takes the key out, and returns it with its value.
    pub fn remove_entry(self) -> Result<(u64, u64), Fault> {
        self.map.remove(self.key)?;
        Ok((self.key, self.value))
    }
}

/// The place of a key that has no value.
///
/// ```
/// use nifforan::{Entry, Map};
/// let mut map = Map::default();
/// if let Entry::Vacant(place) = map.entry(3) {
///     assert_eq!(place.insert(9)?, 9);
/// }
/// assert_eq!(map.get(3), Some(9));
/// # Ok::<(), nifforan::Fault>(())
/// ```
pub struct VacantEntry<'m> {
    map: &'m mut Map,
    key: u64,
}

impl<'m> VacantEntry<'m> {
    /// Returns the key.
    pub fn key(&self) -> u64 {
        self.key
    }

    /// Gives the key the value, and returns that.
    pub fn insert(self, value: u64) -> Result<u64, Fault> {
        self.insert_entry(value).map(|there| there.value)
    }

    /// Gives the key the value, and returns its place.
    pub fn insert_entry(self, value: u64) -> Result<OccupiedEntry<'m>, Fault> {
        let VacantEntry { map, key } = self;
        map.set(key, value)?;
        Ok(OccupiedEntry { map, key, value })
    }
}

impl fmt::Debug for OccupiedEntry<'_> {
    fn fmt(&self, f: &mut fmt::Formatter<'_>) -> fmt::Result {
        f.debug_struct("OccupiedEntry")
            .field("key", &self.key)
            .field("value", &self.value)
            .finish()
    }
}

impl fmt::Debug for VacantEntry<'_> {
    fn fmt(&self, f: &mut fmt::Formatter<'_>) -> fmt::Result {
        f.debug_tuple("VacantEntry").field(&self.key).finish()
    }
}
