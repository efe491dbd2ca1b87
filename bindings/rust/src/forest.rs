//! One map over many, each behind a lock of its own.

use crate::ffi::High;
use crate::reads::ends;
use crate::walk::Window;
use crate::{CompareAndSet, Fault, Map, Settings, Unfinished};
use std::error::Error;
use std::fmt;
use std::iter::{Flatten, FusedIterator};
use std::ops::RangeBounds;
use std::sync::{Mutex, MutexGuard, PoisonError};
use std::vec;

/// The most trees of a forest.
const MOST_TREES: usize = 1024;

/// Where the ranges of a forest's trees begin: the first at 0, each other above the one before.
///
/// ```
/// use nifforan::{BadBounds, Bounds};
/// let bounds = Bounds::of(vec![0, 10, 20])?;
/// assert_eq!([0, 9, 10, u64::MAX].map(|key| bounds.tree_of(key)), [0, 0, 1, 2]);
/// assert_eq!(Bounds::of(vec![0, 10, 10]), Err(BadBounds::Unsorted(2)));
/// # Ok::<(), BadBounds>(())
/// ```
#[derive(Clone, Debug, PartialEq, Eq, Hash)]
pub struct Bounds(Box<[u64]>);

/// Why keys aren't bounds.
#[derive(Clone, Copy, Debug, PartialEq, Eq, Hash)]
pub enum BadBounds {
    /// There are this many of them, not 1 to 1,024.
    Count(usize),
    /// The first one is this, not 0.
    First(u64),
    /// The one with this number, counted from 0, isn't above the one before.
    Unsorted(usize),
}

impl fmt::Display for BadBounds {
    fn fmt(&self, f: &mut fmt::Formatter<'_>) -> fmt::Result {
        match self {
            BadBounds::Count(count) => write!(f, "{count} bounds are not from 1 to {MOST_TREES}"),
            BadBounds::First(first) => write!(f, "the first bound is {first}, and not 0"),
            BadBounds::Unsorted(number) => write!(f, "bound {number} isn't above the one before"),
        }
    }
}

impl Error for BadBounds {}

impl Bounds {
    /// Takes the first key of each tree's range.
    pub fn of(firsts: Vec<u64>) -> Result<Bounds, BadBounds> {
        if !(1..=MOST_TREES).contains(&firsts.len()) {
            return Err(BadBounds::Count(firsts.len()));
        }
        if firsts[0] != 0 {
            return Err(BadBounds::First(firsts[0]));
        }
        match firsts.windows(2).position(|two| two[0] >= two[1]) {
            Some(number) => Err(BadBounds::Unsorted(number + 1)),
            None => Ok(Bounds(firsts.into())),
        }
    }

    /// Cuts the keys below the end into this many ranges of the same length, or into one for each key if there are
    /// fewer. Keys from the end on belong to the last one.
    ///
    /// ```
    /// # use nifforan::Bounds;
    /// assert_eq!(Bounds::even(4, 100), Bounds::of(vec![0, 25, 50, 75]));
    /// assert_eq!(Bounds::even(4, 2), Bounds::of(vec![0, 1]));
    /// ```
    pub fn even(trees: usize, end: u64) -> Result<Bounds, BadBounds> {
        let first = |tree| (u128::from(end) * tree as u128 / trees as u128) as u64;
        Bounds::of_firsts(trees, first)
    }

    /// Cuts all keys into this many ranges, each with as many of the sample's keys; into fewer if keys are equal or too
    /// few.
    ///
    /// ```
    /// # use nifforan::Bounds;
    /// let keys = [7, 1, 900, 5, 3, 800];
    /// assert_eq!(Bounds::of_sample(keys, 3), Bounds::of(vec![0, 5, 800]));
    /// assert_eq!(Bounds::of_sample([], 3), Bounds::of(vec![0]));
    /// ```
    pub fn of_sample(
        keys: impl IntoIterator<Item = u64>,
        trees: usize,
    ) -> Result<Bounds, BadBounds> {
        let mut keys: Vec<u64> = keys.into_iter().collect();
        keys.sort_unstable();
        let first = |tree| *keys.get(keys.len() * tree / trees).unwrap_or(&0);
        Bounds::of_firsts(trees, first)
    }

    /// The bounds of these firsts, which don't fall, each taken once.
    fn of_firsts(trees: usize, first: impl Fn(usize) -> u64) -> Result<Bounds, BadBounds> {
        if !(1..=MOST_TREES).contains(&trees) {
            return Err(BadBounds::Count(trees));
        }
        let mut firsts: Vec<u64> = [0].into_iter().chain((1..trees).map(first)).collect();
        firsts.dedup();
        Bounds::of(firsts)
    }

    /// Returns the number of the tree whose range has the key.
    #[inline]
    pub fn tree_of(&self, key: u64) -> usize {
        self.0.partition_point(|first| *first <= key) - 1
    }

    /// Returns the first key of each tree's range.
    pub fn firsts(&self) -> &[u64] {
        &self.0
    }
}

/// A map that shares its cache lines with nothing, even if they are fetched two by two.
#[repr(align(128))]
struct Tree(Mutex<Map>);

impl Tree {
    /// A panic under the lock comes from a caller's function, between two calls of the map, which is whole then.
    #[inline]
    fn lock(&self) -> MutexGuard<'_, Map> {
        self.0.lock().unwrap_or_else(PoisonError::into_inner)
    }
}

/// An ordered map that many threads read and change at once: several trees, each a [`Map`] for a range of keys behind a
/// lock of its own, so that threads with keys of different ranges seldom wait for each other. It is `Sync`.
///
/// A call on one key is one call on the map that has it, under its lock. What each map does is proved; the locks and
/// the code here around them are not. Calls on many keys go from tree to tree, and see each at a moment of its own.
///
/// ```
/// use nifforan::{Bounds, Forest, Settings};
/// let counts = Forest::new(&Settings::default(), Bounds::even(16, 1000)?)?;
/// std::thread::scope(|scope| {
///     for _ in 0..4 {
///         scope.spawn(|| {
///             for key in 0..1000 {
///                 let one_more = |count: Option<u64>| Some(count.unwrap_or(0) + 1);
///                 counts.alter(key, one_more).expect("there is memory");
///             }
///         });
///     }
/// });
/// assert_eq!(counts.len(), 1000);
/// assert!(counts.iter().all(|(_, count)| count == 4));
/// # Ok::<(), Box<dyn std::error::Error>>(())
/// ```
pub struct Forest {
    bounds: Bounds,
    /// One for each bound.
    trees: Box<[Tree]>,
}

impl Forest {
    /// Makes an empty forest, each of whose trees has these settings. Fails with the first setting that is out of its
    /// range, or with [`Fault::NoMemory`].
    pub fn new(settings: &Settings, bounds: Bounds) -> Result<Forest, Fault> {
        let maps = bounds.0.iter().map(|_| Map::new(settings));
        let trees = planted(maps)?;
        Ok(Forest { bounds, trees })
    }

    /// Makes a forest with these pairs, whose keys must rise: see [`Map::from_sorted`].
    ///
    /// ```
    /// # use nifforan::{Bounds, Forest, Settings};
    /// let squares = (0..1000).map(|root| (root, root * root));
    /// let forest = Forest::from_sorted(&Settings::default(), Bounds::even(8, 1000)?, squares)?;
    /// assert_eq!(forest.range(998..).collect::<Vec<_>>(), [(998, 996_004), (999, 998_001)]);
    /// # Ok::<(), Box<dyn std::error::Error>>(())
    /// ```
    pub fn from_sorted(
        settings: &Settings,
        bounds: Bounds,
        pairs: impl IntoIterator<Item = (u64, u64)>,
    ) -> Result<Forest, Fault> {
        let (mut pairs, mut before) = (pairs.into_iter().peekable(), 0);
        let ends = bounds.0.iter().skip(1).copied().map(Some).chain([None]);
        let maps = ends.map(|end| {
            let is_inside = |pair: &(u64, u64)| end.is_none_or(|end| pair.0 < end);
            // (the pair that ended the part before is the first of this one, so no key lies below its range)
            let part = std::iter::from_fn(|| pairs.next_if(is_inside));
            let map = Map::from_sorted(settings, part).map_err(|fault| fault.after(before))?;
            before += map.len();
            Ok(map)
        });
        let trees = planted(maps)?;
        Ok(Forest { bounds, trees })
    }

    /// Makes a forest with the same pairs and settings, and with this many trees, at least 1 and at most 1,024, or fewer if
    /// there are fewer pairs. Each tree has as many pairs, where this forest may have grown in a few of its ranges alone.
    /// No thread changes it meanwhile. If the call fails, it is as it was.
    ///
    /// ```
    /// # use nifforan::{Bounds, Forest, Settings};
    /// let forest = Forest::new(&Settings::default(), Bounds::even(4, 1_000_000)?)?;
    /// for key in 0..1000 {
    ///     forest.set(key, key)?;
    /// }
    /// let mut crooked = forest;
    /// let forest = crooked.balanced(4)?;
    /// assert_eq!(forest.bounds().firsts(), [0, 250, 500, 750]);
    /// assert!(forest.iter().eq(&crooked));
    /// # Ok::<(), Box<dyn std::error::Error>>(())
    /// ```
    pub fn balanced(&mut self, trees: usize) -> Result<Forest, Fault> {
        let settings = *self.trees[0].lock().settings();
        let keys = self.iter().map(|(key, _)| key);
        let bounds = Bounds::of_sample(keys, trees.clamp(1, MOST_TREES));
        Forest::from_sorted(&settings, bounds.expect("the trees are few"), self.iter())
    }

    /// Returns the bounds of its trees' ranges.
    pub fn bounds(&self) -> &Bounds {
        &self.bounds
    }

    #[inline]
    fn map_of(&self, key: u64) -> MutexGuard<'_, Map> {
        self.trees[self.bounds.tree_of(key)].lock()
    }

    /// Returns the value at the key.
    #[inline]
    pub fn get(&self, key: u64) -> Option<u64> {
        self.map_of(key).get(key)
    }

    /// Returns whether the key has a value.
    pub fn contains_key(&self, key: u64) -> bool {
        self.get(key).is_some()
    }

    /// [`Map::put`].
    #[inline]
    pub fn put(&self, key: u64, value: u64) -> Result<Option<u64>, Fault> {
        self.map_of(key).put(key, value)
    }

    /// [`Map::set`].
    #[inline]
    pub fn set(&self, key: u64, value: u64) -> Result<Option<u64>, Fault> {
        self.map_of(key).set(key, value)
    }

    /// [`Forest::set`] by the name that it has in `BTreeMap`.
    #[inline]
    pub fn insert(&self, key: u64, value: u64) -> Result<Option<u64>, Fault> {
        self.set(key, value)
    }

    /// [`Map::remove`].
    #[inline]
    pub fn remove(&self, key: u64) -> Result<Option<u64>, Fault> {
        self.map_of(key).remove(key)
    }

    /// Gives the key the value that the function makes of its value, or of none. If the function returns `None`, the key is
    /// taken out. Returns the value that the key had. No other thread comes between: the function runs under the tree's
    /// lock, so a call that it makes on this forest may wait for ever. If it panics, the key keeps what it has.
    ///
    /// ```
    /// # use nifforan::{Bounds, Forest, Settings};
    /// let forest = Forest::new(&Settings::default(), Bounds::even(4, 100)?)?;
    /// assert_eq!(forest.alter(3, |_| Some(9))?, None);
    /// assert_eq!(forest.alter(3, |value| value.filter(|value| value % 2 == 0))?, Some(9));
    /// assert_eq!(forest.get(3), None);
    /// # Ok::<(), Box<dyn std::error::Error>>(())
    /// ```
    pub fn alter(
        &self,
        key: u64,
        change: impl FnOnce(Option<u64>) -> Option<u64>,
    ) -> Result<Option<u64>, Fault> {
        let mut map = self.map_of(key);
        match change(map.get(key)) {
            Some(value) => map.set(key, value),
            None => map.remove(key),
        }
    }

    /// [`Map::update`], tree by tree: the function runs under the lock of the tree that has the pair.
    ///
    /// ```
    /// # use nifforan::{Bounds, Forest, Settings};
    /// let pairs = (0..100).map(|key| (key, key));
    /// let forest = Forest::from_sorted(&Settings::default(), Bounds::even(4, 100)?, pairs)?;
    /// forest.update(20..30, |_, value| value + 1000)?;
    /// assert_eq!(forest.range(29..31).collect::<Vec<_>>(), [(29, 1029), (30, 30)]);
    /// # Ok::<(), Box<dyn std::error::Error>>(())
    /// ```
    pub fn update(
        &self,
        keys: impl RangeBounds<u64>,
        mut new: impl FnMut(u64, u64) -> u64,
    ) -> Result<(), Fault> {
        let keys = (keys.start_bound().cloned(), keys.end_bound().cloned());
        let mut trees = self.touched(ends(&keys)).iter();
        trees.try_for_each(|tree| tree.lock().update(keys, &mut new))
    }

    /// [`Map::compare_and_set`], with no other thread between.
    pub fn compare_and_set(
        &self,
        key: u64,
        expected: Option<u64>,
        new: Option<u64>,
    ) -> Result<CompareAndSet, Fault> {
        self.map_of(key).compare_and_set(key, expected, new)
    }

    /// Returns how many pairs the trees have, each counted at a moment of its own. While other threads change them, the
    /// forest need never have had that many.
    pub fn len(&self) -> usize {
        self.trees.iter().map(|tree| tree.lock().len()).sum()
    }

    /// Returns whether no tree had a pair, each asked at a moment of its own.
    pub fn is_empty(&self) -> bool {
        self.trees.iter().all(|tree| tree.lock().is_empty())
    }

    /// Returns the pair with the least key, of the first tree that has any when it is asked.
    pub fn first_key_value(&self) -> Option<(u64, u64)> {
        let mut trees = self.trees.iter();
        trees.find_map(|tree| tree.lock().first_key_value())
    }

    /// Returns the pair with the greatest key, of the last tree that has any when it is asked.
    pub fn last_key_value(&self) -> Option<(u64, u64)> {
        let mut trees = self.trees.iter().rev();
        trees.find_map(|tree| tree.lock().last_key_value())
    }

    /// Takes out the keys of a range, tree by tree, as far as the call comes, and returns how many there were.
    pub fn clear(&self, keys: impl RangeBounds<u64>) -> Result<u64, Unfinished> {
        let keys = (keys.start_bound().cloned(), keys.end_bound().cloned());
        let mut removed = 0;
        for tree in self.touched(ends(&keys)) {
            match tree.lock().clear(keys) {
                Ok(more) => removed += more,
                Err(ended) => {
                    removed += ended.removed;
                    return Err(Unfinished { removed, ..ended });
                }
            }
        }
        Ok(removed)
    }

    /// The trees whose ranges have keys from the low on and below the high.
    fn touched(&self, ends: Option<(u64, High)>) -> &[Tree] {
        let Some((low, high)) = ends else {
            return &[];
        };
        let last = if high.is_top { u64::MAX } else { high.key - 1 };
        &self.trees[self.bounds.tree_of(low)..=self.bounds.tree_of(last)]
    }

    /// Returns the pairs of a range of keys, in the order of their keys. It copies at most 64 pairs at once under a
    /// tree's lock, which are of one moment, and holds no lock while its caller works. It sees what other threads put
    /// or take out after the last pair that it copied.
    pub fn range(&self, keys: impl RangeBounds<u64>) -> ForestRange<'_> {
        ForestRange {
            forest: self,
            window: Window::empty(),
            unread: ends(&keys),
        }
    }

    /// Returns all pairs, as [`Forest::range`] does.
    pub fn iter(&self) -> ForestRange<'_> {
        self.range(..)
    }

    /// Returns the trees' maps, in the order of their ranges, for example to freeze them.
    pub fn into_maps(self) -> Vec<Map> {
        let maps = self.trees.into_vec().into_iter().map(|tree| tree.0);
        maps.map(|map| map.into_inner().unwrap_or_else(PoisonError::into_inner))
            .collect()
    }
}

fn planted(maps: impl Iterator<Item = Result<Map, Fault>>) -> Result<Box<[Tree]>, Fault> {
    maps.map(|map| Ok(Tree(Mutex::new(map?)))).collect()
}

impl fmt::Debug for Forest {
    fn fmt(&self, f: &mut fmt::Formatter<'_>) -> fmt::Result {
        f.debug_map().entries(self).finish()
    }
}

impl<'f> IntoIterator for &'f Forest {
    type Item = (u64, u64);
    type IntoIter = ForestRange<'f>;

    fn into_iter(self) -> ForestRange<'f> {
        self.iter()
    }
}

/// All pairs, which nobody else can change any more.
impl IntoIterator for Forest {
    type Item = (u64, u64);
    type IntoIter = IntoPairs;

    fn into_iter(self) -> IntoPairs {
        IntoPairs(self.into_maps().into_iter().flatten())
    }
}

/// The pairs of a forest in a range of keys, in the order of their keys. [`Forest::range`] makes it.
#[derive(Clone)]
pub struct ForestRange<'f> {
    forest: &'f Forest,
    window: Window,
    unread: Option<(u64, High)>,
}

impl ForestRange<'_> {
    #[inline(never)]
    fn read_next(&mut self) -> Option<(u64, u64)> {
        while let Some((low, high)) = self.unread {
            let tree = self.forest.bounds.tree_of(low);
            let read = self.window.read(&self.forest.trees[tree].lock(), low, high);
            let next = if read.has_next {
                Some(read.next)
            } else {
                self.forest.bounds.0.get(tree + 1).copied()
            };
            let next = next.filter(|next| high.is_top || *next < high.key);
            self.unread = next.map(|next| (next, high));
            if let Some(pair) = self.window.take_first() {
                return Some(pair);
            }
        }
        None
    }
}

impl Iterator for ForestRange<'_> {
    type Item = (u64, u64);

    #[inline]
    fn next(&mut self) -> Option<(u64, u64)> {
        self.window.take_first().or_else(|| self.read_next())
    }

    fn size_hint(&self) -> (usize, Option<usize>) {
        let read = self.window.left().len();
        (read, self.unread.is_none().then_some(read))
    }
}

impl FusedIterator for ForestRange<'_> {}

impl fmt::Debug for ForestRange<'_> {
    fn fmt(&self, f: &mut fmt::Formatter<'_>) -> fmt::Result {
        f.debug_list().entries(self.clone()).finish()
    }
}

/// All pairs of a forest that nobody else has any more, in the order of their keys. `into_iter` makes it.
#[derive(Debug)]
pub struct IntoPairs(Flatten<vec::IntoIter<Map>>);

impl Iterator for IntoPairs {
    type Item = (u64, u64);

    #[inline]
    fn next(&mut self) -> Option<(u64, u64)> {
        self.0.next()
    }

    fn size_hint(&self) -> (usize, Option<usize>) {
        self.0.size_hint()
    }
}

impl FusedIterator for IntoPairs {}
