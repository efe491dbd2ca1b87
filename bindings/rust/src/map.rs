use crate::entry::Entry;
use crate::ffi::{self, High};
use crate::iter::{IntoIter, IntoKeys, IntoValues, Iter};
use crate::reads::{ends, reads};
use crate::walk::{Window, ROOM};
use crate::{Fault, Frozen, OccupiedEntry, Reads, Settings, Unfinished, Unfrozen};
use std::ops::RangeBounds;

/// How many pairs one call sets, of those that an iterator yields.
const AT_ONCE: usize = 64;

/// What a [`Map::compare_and_set`] found.
#[derive(Clone, Copy, Debug, PartialEq, Eq, Hash)]
pub enum CompareAndSet {
    /// The key had the expected value, and now has the new one. Either may be none.
    Set,
    /// The key had this value instead, or none, and keeps it.
    Differs(Option<u64>),
}

/// What a [`Map::upsert`] did.
#[derive(Clone, Copy, Debug, PartialEq, Eq, Hash)]
pub struct Upsert {
    /// The value that the key had.
    pub old: Option<u64>,
    /// The value that it has now.
    pub new: u64,
}

/// An ordered map from `u64` keys to `u64` values. The calls that only look at it are those of [`Reads`].
///
/// It is `Send` and not `Sync`: it can move to another thread, but threads can't share it. Threads that only read share a
/// [`Frozen`], by [`Map::freeze`]; threads that also write share a [`Forest`](crate::Forest).
///
/// If a call that changes the map returns an error, the map has the pairs that it had.
///
/// ```
/// use nifforan::{Map, Settings};
/// let mut map = Map::new(&Settings::default())?;
/// assert_eq!(map.put(3, 9)?, None);
/// assert_eq!(map.put(3, 10)?, Some(9)); // and 3 keeps the 9
/// assert_eq!(map.set(3, 10)?, Some(9)); // 3 has the 10
/// assert_eq!(map.remove(3)?, Some(10));
/// assert!(map.is_empty());
/// # Ok::<(), nifforan::Fault>(())
/// ```
///
/// ```compile_fail
/// fn shared<T: Sync>() {}
/// shared::<nifforan::Map>();
/// ```
pub struct Map {
    reads: Reads,
    /// See `care`.
    care: u32,
}

reads!(Map);

impl Map {
    /// Makes an empty map. Fails with the first setting that is out of its range, or with [`Fault::NoMemory`].
    pub fn new(settings: &Settings) -> Result<Map, Fault> {
        let in_c = settings.in_c();
        // SAFETY: the handle is closed, and both are this call's own.
        let create = |handle| unsafe { ffi::nifforan_create(handle, &in_c) };
        Reads::opened_by(*settings, create).map(Map::of)
    }

    /// Makes an empty map, and takes memory ahead for this many pairs: see [`Map::reserve`].
    ///
    /// ```
    /// use nifforan::{Map, Settings};
    /// let mut squares = Map::with_capacity(&Settings::default(), 1000)?;
    /// squares.try_extend((0..1000).map(|root| (root, root * root)))?;
    /// assert_eq!(squares.len(), 1000);
    /// # Ok::<(), nifforan::Fault>(())
    /// ```
    pub fn with_capacity(settings: &Settings, pairs: usize) -> Result<Map, Fault> {
        let mut map = Map::new(settings)?;
        map.reserve(pairs)?;
        Ok(map)
    }

    /// The map of an open handle that isn't frozen.
    pub(crate) fn of(reads: Reads) -> Map {
        Map {
            reads,
            care: ffi::OK,
        }
    }

    /// Makes a map with these pairs, whose keys must rise: at the first key that isn't above the one before, it fails with
    /// [`Fault::Unsorted`] and the number of that pair. It first copies the pairs into one array, and then fills the pages
    /// from left to right, in a fraction of the time that as many puts take.
    ///
    /// ```
    /// use nifforan::{Fault, Map, Settings};
    /// let squares = Map::from_sorted(&Settings::default(), (0..1000).map(|root| (root, root * root)))?;
    /// assert_eq!(squares.get(31), Some(961));
    /// let twice = Map::from_sorted(&Settings::default(), [(3, 9), (3, 9)]);
    /// assert_eq!(twice.err(), Some(Fault::Unsorted(1)));
    /// # Ok::<(), nifforan::Fault>(())
    /// ```
    pub fn from_sorted(
        settings: &Settings,
        pairs: impl IntoIterator<Item = (u64, u64)>,
    ) -> Result<Map, Fault> {
        let pairs = pairs.into_iter();
        let mut array = Vec::new();
        array
            .try_reserve(pairs.size_hint().0)
            .map_err(|_| Fault::NoMemory)?;
        for pair in pairs {
            array.try_reserve(1).map_err(|_| Fault::NoMemory)?;
            array.push(ffi::Pair::of(pair));
        }
        let in_c = settings.in_c();
        let (first, count) = (array.as_ptr(), array.len());
        let mut number = 0;
        let made = Reads::opened_by(*settings, |handle| {
            // SAFETY: the handle is closed and this call's own; the pairs are in the array.
            let filled = unsafe { ffi::nifforan_from_sorted(handle, &in_c, first, count) };
            number = filled.count as usize;
            filled.status
        });
        made.map(Map::of).map_err(|fault| fault.after(number))
    }

    /// Makes a map with the same settings and the same pairs.
    pub fn try_clone(&self) -> Result<Map, Fault> {
        let mut map = Map::new(self.settings())?;
        map.try_extend(self)?;
        Ok(map)
    }

    /// Takes memory ahead for the pages that this many more pairs may need, in any order: about six bytes a pair. Fails
    /// with [`Fault::TableFull`] if the pages that the settings allow can be too few, or with [`Fault::NoMemory`], and
    /// leaves the map as it was.
    pub fn reserve(&mut self, additional: usize) -> Result<(), Fault> {
        // SAFETY: see `Reads::handle`.
        let status = unsafe { ffi::nifforan_reserve(self.reads.handle(), additional as u64) };
        Fault::of(status).map_or(Ok(()), Err)
    }

    /// Rebuilds the map, to give back the memory for pages that the pairs don't need. That takes about 0.3 µs a pair,
    /// and memory for both maps meanwhile. If it fails, the map is as it was.
    ///
    /// ```
    /// let mut map: nifforan::Map = (0..100_000).map(|key| (key, 1)).collect();
    /// map.clear(10..)?;
    /// map.shrink_to_fit()?;
    /// assert_eq!(map.len(), 10);
    /// # Ok::<(), nifforan::Fault>(())
    /// ```
    pub fn shrink_to_fit(&mut self) -> Result<(), Fault> {
        // SAFETY: see `Reads::handle`.
        let status = unsafe { ffi::nifforan_shrink(self.reads.handle()) };
        Fault::of(status).map_or(Ok(()), Err)
    }

    /// Gives the key the value unless it has one, which it then keeps. Returns the old value.
    pub fn put(&mut self, key: u64, value: u64) -> Result<Option<u64>, Fault> {
        // SAFETY: see `Reads::handle`.
        let reply = unsafe { ffi::nifforan_put(self.reads.handle(), key, value) };
        self.before(reply)
    }

    /// Gives the key the value, whether it has one or not, and returns the old one.
    pub fn set(&mut self, key: u64, value: u64) -> Result<Option<u64>, Fault> {
        // SAFETY: see `Reads::handle`.
        let reply = unsafe { ffi::nifforan_set(self.reads.handle(), key, value) };
        self.before(reply)
    }

    /// [`Map::set`] by the name that it has in `BTreeMap`.
    pub fn insert(&mut self, key: u64, value: u64) -> Result<Option<u64>, Fault> {
        self.set(key, value)
    }

    /// Takes the key out, and returns its value.
    pub fn remove(&mut self, key: u64) -> Result<Option<u64>, Fault> {
        // SAFETY: see `Reads::handle`.
        let reply = unsafe { ffi::nifforan_delete(self.reads.handle(), key) };
        self.before(reply)
    }

    /// If the key has the expected value, or no value if `None` is expected, gives it the new value, or takes it out if
    /// that is `None`.
    ///
    /// ```
    /// use nifforan::{CompareAndSet, Map};
    /// let mut map = Map::from([(3, 9)]);
    /// assert_eq!(map.compare_and_set(3, Some(9), Some(10))?, CompareAndSet::Set);
    /// assert_eq!(map.compare_and_set(3, Some(9), None)?, CompareAndSet::Differs(Some(10)));
    /// assert_eq!(map.compare_and_set(4, None, Some(16))?, CompareAndSet::Set);
    /// # Ok::<(), nifforan::Fault>(())
    /// ```
    pub fn compare_and_set(
        &mut self,
        key: u64,
        expected: Option<u64>,
        new: Option<u64>,
    ) -> Result<CompareAndSet, Fault> {
        let (wanted, value) = (ffi::Optional::of(expected), ffi::Optional::of(new));
        let handle = self.reads.handle();
        // SAFETY: see `Reads::handle`; both are this call's own.
        let reply = unsafe { ffi::nifforan_compare_and_set(handle, key, &wanted, &value) };
        let had = self.before(reply)?;
        Ok(if had == expected {
            CompareAndSet::Set
        } else {
            CompareAndSet::Differs(had)
        })
    }

    /// Gives the key the value that the function makes of its value, or of none, and returns both. Looks the key up
    /// twice.
    ///
    /// ```
    /// use nifforan::{Map, Upsert};
    /// let mut counts = Map::default();
    /// let one_more = |count: Option<u64>| count.unwrap_or(0) + 1;
    /// assert_eq!(counts.upsert(3, one_more)?, Upsert { old: None, new: 1 });
    /// assert_eq!(counts.upsert(3, one_more)?, Upsert { old: Some(1), new: 2 });
    /// # Ok::<(), nifforan::Fault>(())
    /// ```
    pub fn upsert(
        &mut self,
        key: u64,
        new: impl FnOnce(Option<u64>) -> u64,
    ) -> Result<Upsert, Fault> {
        let new = new(self.get(key));
        let old = self.set(key, new)?;
        Ok(Upsert { old, new })
    }

    /// Takes out the pair with the least key, and returns it.
    ///
    /// ```
    /// let mut map = nifforan::Map::from([(3, 9), (4, 16)]);
    /// assert_eq!(map.pop_first()?, Some((3, 9)));
    /// assert_eq!(map.pop_last()?, Some((4, 16)));
    /// assert_eq!(map.pop_last()?, None);
    /// # Ok::<(), nifforan::Fault>(())
    /// ```
    pub fn pop_first(&mut self) -> Result<Option<(u64, u64)>, Fault> {
        // SAFETY: see `Reads::handle`.
        let popped = unsafe { ffi::nifforan_pop_first(self.reads.handle()) };
        self.popped(popped)
    }

    /// Takes out the pair with the greatest key, and returns it.
    pub fn pop_last(&mut self) -> Result<Option<(u64, u64)>, Fault> {
        // SAFETY: see `Reads::handle`.
        let popped = unsafe { ffi::nifforan_pop_last(self.reads.handle()) };
        self.popped(popped)
    }

    /// Returns the place of the key, to see what is there and to change it. This looks the key up once more than a
    /// `put`, a `set` or a `remove`.
    pub fn entry(&mut self, key: u64) -> Entry<'_> {
        let value = self.get(key);
        Entry::of(self, key, value)
    }

    /// Returns the place of the least key.
    pub fn first_entry(&mut self) -> Option<OccupiedEntry<'_>> {
        let pair = self.first_key_value()?;
        Some(OccupiedEntry::of(self, pair))
    }

    /// Returns the place of the greatest key.
    pub fn last_entry(&mut self) -> Option<OccupiedEntry<'_>> {
        let pair = self.last_key_value()?;
        Some(OccupiedEntry::of(self, pair))
    }

    /// Takes out the keys of a range, and returns how many there were. A range that ends before it begins has none.
    ///
    /// ```
    /// let mut map: nifforan::Map = (0..100).map(|key| (key, 2 * key)).collect();
    /// assert_eq!(map.clear(10..=19), Ok(10));
    /// assert_eq!(map.clear(..), Ok(90));
    /// ```
    pub fn clear(&mut self, keys: impl RangeBounds<u64>) -> Result<u64, Unfinished> {
        self.care = ffi::OK;
        let Some((low, high)) = ends(&keys) else {
            return Ok(0);
        };
        // SAFETY: see `Reads::handle`.
        let cleared = unsafe { ffi::nifforan_clear(self.reads.handle(), low, high) };
        match Fault::of(cleared.status) {
            None => Ok(cleared.removed),
            Some(fault) => Err(Unfinished {
                removed: cleared.removed,
                fault,
            }),
        }
    }

    /// Keeps the pairs for which the function returns true, takes out the others, and returns how many. It calls the
    /// function once for each pair, by rising keys, as far as the call comes.
    ///
    /// ```
    /// let mut map: nifforan::Map = (0..100).map(|key| (key, 2 * key)).collect();
    /// assert_eq!(map.retain(|key, value| key % 3 == 0 && value < 100), Ok(83));
    /// assert_eq!(map.keys().last(), Some(48));
    /// ```
    pub fn retain(&mut self, mut keep: impl FnMut(u64, u64) -> bool) -> Result<u64, Unfinished> {
        self.care = ffi::OK;
        let mut window = Window::empty();
        let mut removed = 0;
        let mut low = Some(0);
        while let Some(from) = low {
            let read = window.read(&self.reads, from, High::TOP);
            for pair in window.left() {
                if keep(pair.key, pair.value) {
                    continue;
                }
                self.also(|map| map.remove(pair.key))
                    .map_err(|fault| Unfinished { removed, fault })?;
                removed += 1;
            }
            low = read.has_next.then_some(read.next);
        }
        Ok(removed)
    }

    /// Sets each pair of a range to the value that the function makes of it. It calls the function once for each pair,
    /// by rising keys, and sets no pair that keeps its value. If the call ends early, the first pairs have their new
    /// values and the others are as they were, and what the function made of up to 64 of these is lost.
    ///
    /// ```
    /// let mut map: nifforan::Map = (0..100).map(|key| (key, key)).collect();
    /// map.update(10..=20, |key, value| if key % 2 == 0 { value + 1000 } else { value })?;
    /// assert_eq!(map.range(9..13).collect::<Vec<_>>(), [(9, 9), (10, 1010), (11, 11), (12, 1012)]);
    /// assert_eq!(map.range(20..22).collect::<Vec<_>>(), [(20, 1020), (21, 21)]);
    /// # Ok::<(), nifforan::Fault>(())
    /// ```
    pub fn update(
        &mut self,
        keys: impl RangeBounds<u64>,
        mut new: impl FnMut(u64, u64) -> u64,
    ) -> Result<(), Fault> {
        self.care = ffi::OK;
        let Some((low, high)) = ends(&keys) else {
            return Ok(());
        };
        let mut window = Window::empty();
        let mut next = Some(low);
        while let Some(from) = next {
            let read = window.read(&self.reads, from, high);
            let mut altered = [const { ffi::Pair { key: 0, value: 0 } }; ROOM];
            let mut count = 0;
            for pair in window.left() {
                let value = new(pair.key, pair.value);
                if value != pair.value {
                    altered[count] = ffi::Pair::of((pair.key, value));
                    count += 1;
                }
            }
            self.also(|map| map.set_each(&altered[..count]))?;
            next = read.has_next.then_some(read.next);
        }
        Ok(())
    }

    /// Sets each pair. If the call ends early, the pairs before that are in the map.
    ///
    /// ```
    /// let mut map = nifforan::Map::from([(3, 0)]);
    /// map.try_extend([(3, 9), (4, 16)])?;
    /// assert_eq!(map.iter().collect::<Vec<_>>(), [(3, 9), (4, 16)]);
    /// # Ok::<(), nifforan::Fault>(())
    /// ```
    pub fn try_extend(&mut self, pairs: impl IntoIterator<Item = (u64, u64)>) -> Result<(), Fault> {
        self.care = ffi::OK;
        let mut pairs = pairs.into_iter();
        let hint = pairs.size_hint().0;
        // keys of a map that has some may be among them, and without this memory pages come by and by
        let _ahead = self.reserve(if self.is_empty() { hint } else { hint / 2 });
        let mut some = [const { ffi::Pair { key: 0, value: 0 } }; AT_ONCE];
        loop {
            let mut count = 0;
            for (place, pair) in some.iter_mut().zip(pairs.by_ref()) {
                *place = ffi::Pair::of(pair);
                count += 1;
            }
            self.also(|map| map.set_each(&some[..count]))?;
            if count < AT_ONCE {
                return Ok(());
            }
        }
    }

    /// Returns what cut page maintenance short in the last call that changed the map, if anything did. If that call
    /// made many changes, it is from the last one that was cut short. The call's answer stands; a later call does the
    /// split or the merge that is left. [`Map::clear`] says it in its answer.
    ///
    /// ```
    /// use nifforan::{Fault, Map, Settings};
    /// let mut map = Map::new(&Settings { pages: 8, ..Settings::default() })?;
    /// map.try_extend((0..1000).map(|key| (key, 1)))?;
    /// assert_eq!(map.len(), 1000);
    /// assert_eq!(map.care(), Some(Fault::TableFull)); // its eight pages grow longer
    /// # Ok::<(), nifforan::Fault>(())
    /// ```
    pub fn care(&self) -> Option<Fault> {
        Fault::of(self.care)
    }

    /// Freezes the map, so that nobody changes it and many threads may read it. If there is no memory for that, it
    /// fails and gives the map back.
    pub fn freeze(self) -> Result<Frozen, Unfrozen> {
        // SAFETY: see `Reads::handle`.
        match Fault::of(unsafe { ffi::nifforan_freeze(self.reads.handle()) }) {
            None => Ok(Frozen::of(self.reads)),
            Some(fault) => Err(Unfrozen { map: self, fault }),
        }
    }

    /// Returns the keys, which rise.
    pub fn into_keys(self) -> IntoKeys {
        IntoKeys(self.into_iter())
    }

    /// Returns the values, in the order of their keys.
    pub fn into_values(self) -> IntoValues {
        IntoValues(self.into_iter())
    }

    /// The value before a call, or why it was not made.
    fn before(&mut self, reply: ffi::Reply) -> Result<Option<u64>, Fault> {
        self.care = reply.care.into();
        match Fault::of(reply.status) {
            None => Ok(reply.found.then_some(reply.value)),
            Some(fault) => Err(fault),
        }
    }

    /// The pair that a call took out, or why it was not made.
    fn popped(&mut self, popped: ffi::Popped) -> Result<Option<(u64, u64)>, Fault> {
        self.care = popped.care.into();
        match Fault::of(popped.status) {
            None => Ok(popped.found.then_some((popped.key, popped.value))),
            Some(fault) => Err(fault),
        }
    }

    /// Sets the pairs by one call of the library.
    fn set_each(&mut self, pairs: &[ffi::Pair]) -> Result<(), Fault> {
        // SAFETY: see `Reads::handle`; the pairs are in the array.
        let filled =
            unsafe { ffi::nifforan_extend(self.reads.handle(), pairs.as_ptr(), pairs.len()) };
        self.care = filled.care.into();
        Fault::of(filled.status).map_or(Ok(()), Err)
    }

    /// Makes one call of many. If its maintenance isn't cut short, what an earlier one noted stays.
    fn also<T>(&mut self, call: impl FnOnce(&mut Map) -> T) -> T {
        let earlier = self.care;
        let answer = call(self);
        if self.care == ffi::OK {
            self.care = earlier;
        }
        answer
    }
}

/// The usual settings. Panics if there is no memory.
impl Default for Map {
    #[track_caller]
    fn default() -> Map {
        Map::new(&Settings::default()).unwrap_or_else(|fault| fault.panic())
    }
}

/// [`Map::try_clone`], which panics at a fault.
impl Clone for Map {
    #[track_caller]
    fn clone(&self) -> Map {
        self.try_clone().unwrap_or_else(|fault| fault.panic())
    }
}

/// [`Map::try_extend`], which panics at a fault.
impl Extend<(u64, u64)> for Map {
    #[track_caller]
    fn extend<I: IntoIterator<Item = (u64, u64)>>(&mut self, pairs: I) {
        self.try_extend(pairs).unwrap_or_else(|fault| fault.panic())
    }
}

/// [`Map::try_extend`], which panics at a fault.
impl<'p> Extend<(&'p u64, &'p u64)> for Map {
    #[track_caller]
    fn extend<I: IntoIterator<Item = (&'p u64, &'p u64)>>(&mut self, pairs: I) {
        self.extend(pairs.into_iter().map(|(key, value)| (*key, *value)))
    }
}

/// The usual settings. Of two pairs with one key the later one stays. It panics at a fault.
impl FromIterator<(u64, u64)> for Map {
    #[track_caller]
    fn from_iter<I: IntoIterator<Item = (u64, u64)>>(pairs: I) -> Map {
        let mut map = Map::default();
        map.extend(pairs);
        map
    }
}

/// Collects the pairs; panics at a fault.
impl<const N: usize> From<[(u64, u64); N]> for Map {
    #[track_caller]
    fn from(pairs: [(u64, u64); N]) -> Map {
        pairs.into_iter().collect()
    }
}

impl IntoIterator for Map {
    type Item = (u64, u64);
    type IntoIter = IntoIter;

    fn into_iter(self) -> IntoIter {
        IntoIter::of(self.reads)
    }
}
