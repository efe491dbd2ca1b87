use crate::{ffi, Map};
use std::error::Error;
use std::fmt;

/// What ended a call, or cut it short. If it comes in place of an answer, the pairs are unchanged.
///
/// ```
/// use nifforan::{Fault, Map, Settings};
/// let settings = Settings { chain: 0, ..Settings::default() };
/// let fault = Map::new(&settings).unwrap_err();
/// assert_eq!(fault, Fault::BadChain);
/// assert_eq!(fault.to_string(), "the chain is not from 1 to 32");
/// ```
#[derive(Clone, Copy, Debug, PartialEq, Eq, Hash)]
#[non_exhaustive]
pub enum Fault {
    /// [`Settings::fanout`](crate::Settings::fanout) is out of its range.
    BadFanout,
    /// [`Settings::chain`](crate::Settings::chain) is out of its range.
    BadChain,
    /// [`Settings::pages`](crate::Settings::pages) is out of its range.
    BadPages,
    /// [`Settings::tries`](crate::Settings::tries) is out of its range.
    BadTries,
    /// The allocator gave no memory, perhaps for pages that the settings still allow.
    NoMemory,
    /// No page is free: the map has as many as its settings allow. Most calls still do their work, pages grow longer
    /// than their fanout, and [`Map::care`] says so.
    TableFull,
    /// The tree has its greatest height.
    TooTall,
    /// The version of a page, or the number of changes, is used up (2^64).
    Worn,
    /// The call made all the attempts that its settings allow.
    Contended,
    /// The linked library has settings of another size, so it is of another version.
    BadSize,
    /// The key of the pair with this number, counted from 0, isn't above the one before: see [`Map::from_sorted`].
    Unsorted(usize),
    /// A status that this crate has no name for, as the linked library is of a later version.
    Other(u32),
}

impl Fault {
    /// What a status means; `None` is `NIFFORAN_OK`.
    pub(crate) fn of(status: u32) -> Option<Fault> {
        Some(match status {
            ffi::OK => return None,
            ffi::BAD_FANOUT => Fault::BadFanout,
            ffi::BAD_CHAIN => Fault::BadChain,
            ffi::BAD_PAGES => Fault::BadPages,
            ffi::BAD_TRIES => Fault::BadTries,
            ffi::NO_MEMORY => Fault::NoMemory,
            ffi::TABLE_FULL => Fault::TableFull,
            ffi::TOO_TALL => Fault::TooTall,
            ffi::WORN => Fault::Worn,
            ffi::CONTENDED => Fault::Contended,
            ffi::BAD_SIZE => Fault::BadSize,
            ffi::UNSORTED => Fault::Unsorted(0),
            // those of closed, open and frozen handles don't come: see `Reads::handle`
            other => Fault::Other(other),
        })
    }

    /// The same, if this many pairs came before those that it counts.
    pub(crate) fn after(self, pairs: usize) -> Fault {
        match self {
            Fault::Unsorted(number) => Fault::Unsorted(pairs + number),
            other => other,
        }
    }

    fn status(self) -> u32 {
        match self {
            Fault::BadFanout => ffi::BAD_FANOUT,
            Fault::BadChain => ffi::BAD_CHAIN,
            Fault::BadPages => ffi::BAD_PAGES,
            Fault::BadTries => ffi::BAD_TRIES,
            Fault::NoMemory => ffi::NO_MEMORY,
            Fault::TableFull => ffi::TABLE_FULL,
            Fault::TooTall => ffi::TOO_TALL,
            Fault::Worn => ffi::WORN,
            Fault::Contended => ffi::CONTENDED,
            Fault::BadSize => ffi::BAD_SIZE,
            Fault::Unsorted(_) => ffi::UNSORTED,
            Fault::Other(status) => status,
        }
    }

    /// Ends a call that can't return a fault, such as those of `Extend` and `Clone`.
    #[track_caller]
    pub(crate) fn panic(self) -> ! {
        panic!("nifforan: {self}")
    }
}

/// The library's text of the status, and the number of an unsorted pair.
impl fmt::Display for Fault {
    fn fmt(&self, f: &mut fmt::Formatter<'_>) -> fmt::Result {
        // SAFETY: the call takes a number alone.
        let text = unsafe { ffi::nifforan_status_text(self.status()) }.text;
        let end = text
            .iter()
            .position(|byte| *byte == 0)
            .unwrap_or(text.len());
        f.write_str(&String::from_utf8_lossy(&text[..end]))?;
        match self {
            Fault::Unsorted(number) => write!(f, ": pair {number}, counted from 0"),
            _ => Ok(()),
        }
    }
}

impl Error for Fault {}

/// How far a call that takes out many keys came before it ended early. No other key was touched. The same call takes
/// out those that are left: repeat it while it removes any.
///
/// ```
/// use nifforan::{Fault, Map, Unfinished};
/// fn emptied(map: &mut Map) -> Result<u64, Fault> {
///     let mut removed = 0;
///     loop {
///         match map.clear(..) {
///             Ok(last) => return Ok(removed + last),
///             Err(Unfinished { removed: 0, fault, .. }) => return Err(fault),
///             Err(ended) => removed += ended.removed,
///         }
///     }
/// }
/// assert_eq!(emptied(&mut Map::from([(1, 1), (2, 4)])), Ok(2));
/// ```
#[derive(Clone, Copy, Debug, PartialEq, Eq, Hash)]
#[non_exhaustive]
pub struct Unfinished {
    /// How many keys were taken out.
    pub removed: u64,
    /// What ended the call.
    pub fault: Fault,
}

impl fmt::Display for Unfinished {
    fn fmt(&self, f: &mut fmt::Formatter<'_>) -> fmt::Result {
        write!(
            f,
            "{} after {} keys were taken out",
            self.fault, self.removed
        )
    }
}

impl Error for Unfinished {}

impl From<Unfinished> for Fault {
    fn from(ended: Unfinished) -> Fault {
        ended.fault
    }
}

/// A map that couldn't be frozen, as there was no memory for that.
///
/// ```
/// use nifforan::{Fault, Frozen, Map};
/// fn frozen(map: Map) -> Result<Frozen, Fault> {
///     Ok(map.freeze()?) // the map is given up where it can't be frozen
/// }
/// fn frozen_or_kept(map: Map) -> Result<Frozen, Map> {
///     map.freeze().map_err(|unfrozen| unfrozen.map)
/// }
/// assert_eq!(frozen(Map::from([(1, 1)])).map(|map| map.len()), Ok(1));
/// assert_eq!(frozen_or_kept(Map::from([(1, 1)])).map(|map| map.len()), Ok(1));
/// ```
#[derive(Debug)]
#[non_exhaustive]
pub struct Unfrozen {
    /// The map, as it was.
    pub map: Map,
    /// What was short.
    pub fault: Fault,
}

impl fmt::Display for Unfrozen {
    fn fmt(&self, f: &mut fmt::Formatter<'_>) -> fmt::Result {
        write!(f, "the map is not frozen: {}", self.fault)
    }
}

impl Error for Unfrozen {}

impl From<Unfrozen> for Fault {
    fn from(unfrozen: Unfrozen) -> Fault {
        unfrozen.fault
    }
}
