#![doc = include_str!("../README.md")]
#![warn(missing_docs, clippy::undocumented_unsafe_blocks)]

mod entry;
mod fault;
mod ffi;
mod forest;
mod frozen;
mod iter;
mod map;
mod reads;
mod settings;
mod walk;

pub use entry::{Entry, OccupiedEntry, VacantEntry};
pub use fault::{Fault, Unfinished, Unfrozen};
pub use forest::{BadBounds, Bounds, Forest, ForestRange, IntoPairs};
pub use frozen::Frozen;
pub use iter::{IntoIter, IntoKeys, IntoValues, Iter, Keys, Range, Values};
pub use map::{CompareAndSet, Map, Upsert};
pub use reads::Reads;
pub use settings::Settings;

/// Returns the version of the library that is linked: 10,000 times its first number, 100 times its second, and its
/// third.
pub fn version() -> u32 {
    // SAFETY: the call takes nothing.
    unsafe { ffi::nifforan_version() }
}
