use crate::ffi;

/// The settings of a map.
///
/// ```
/// use nifforan::{Fault, Map, Settings};
/// let settings = Settings { fanout: 3, ..Settings::default() };
/// assert_eq!(Map::new(&settings).err(), Some(Fault::BadFanout));
/// ```
#[derive(Clone, Copy, Debug, PartialEq, Eq, Hash)]
pub struct Settings {
    /// How many pairs a page may have before it is split, 4 to 64.
    pub fanout: u32,
    /// How many changes a page may carry before it is rewritten, 1 to 32.
    pub chain: u32,
    /// The most pages that the map may have, 8 to 16,777,216. The map takes them as it grows, so the usual 16,777,216
    /// cost nothing; they have room for 520 million pairs, inserted in any order. Fewer limit the memory, as
    /// [`for_pairs`](Settings::for_pairs) does; past them each insertion takes longer, and
    /// [`Map::care`](crate::Map::care) says so.
    pub pages: u32,
    /// How many attempts one call may make, 1 to 1,000.
    pub tries: u32,
    /// The version that each page begins with, usually 0. Each change of a page raises it, and past the last one the
    /// page is [`Fault::Worn`](crate::Fault::Worn).
    pub first_version: u64,
}

/// The most pages that a map may have.
const MOST_PAGES: u32 = 1 << 24;

/// The most pages that a bound for pairs has.
const MOST_BOUND: u32 = 65_536;

/// The fewest pairs that a split leaves in either page, if pages may have 64.
const HALF: u64 = 32;

/// The most levels that 65,536 such pages make.
const MOST_LEVELS: u64 = 5;

impl Settings {
    /// Returns the usual settings, but with no more pages than this many insertions may need, in whatever order, to bound the
    /// map's memory; `None` from 2,031,492 pairs on. It is the rule of Rattle's `Config::for_pairs`.
    ///
    /// ```
    /// use nifforan::Settings;
    /// assert_eq!(Settings::for_pairs(1_000_000).map(|settings| settings.pages), Some(32_263));
    /// assert_eq!(Settings::for_pairs(2_031_492), None);
    /// ```
    #[must_use]
    pub fn for_pairs(pairs: u64) -> Option<Settings> {
        let pages = u32::try_from(pairs / (HALF - 1) + MOST_LEVELS).ok()?;
        (pages <= MOST_BOUND).then(|| Settings {
            pages: pages.max(8),
            ..Settings::default()
        })
    }

    pub(crate) fn in_c(&self) -> ffi::Settings {
        ffi::Settings {
            size: size_of::<ffi::Settings>(),
            fanout: self.fanout,
            chain: self.chain,
            pages: self.pages,
            tries: self.tries,
            first_version: self.first_version,
        }
    }
}

impl Default for Settings {
    /// Returns pages of 64 pairs, rewritten after each change, as many of them as there may be, 1,000 tries, and
    /// versions from 0 on.
    fn default() -> Settings {
        Settings {
            fanout: 64,
            chain: 1,
            pages: MOST_PAGES,
            tries: 1000,
            first_version: 0,
        }
    }
}
