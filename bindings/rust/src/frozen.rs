use crate::ffi;
use crate::iter::{IntoIter, Iter};
use crate::reads::reads;
use crate::{Fault, Map, Reads};

/// A map that nobody changes. [`Map::freeze`] makes it, and [`Frozen::share`], or `clone`, makes one more for another
/// thread: each thread reads through its own, without a lock. It is `Send` and not `Sync`.
///
/// ```
/// let mine = nifforan::Map::from([(12, 144)]).freeze()?;
/// let theirs = mine.share()?;
/// let reader = std::thread::spawn(move || theirs.get(12));
/// assert_eq!(mine.get(12), Some(144));
/// assert_eq!(reader.join().unwrap(), Some(144));
/// let mut map = mine.thaw().expect("the other one is gone with its thread");
/// map.set(13, 169)?;
/// # Ok::<(), nifforan::Fault>(())
/// ```
///
/// ```compile_fail
/// fn shared<T: Sync>() {}
/// shared::<nifforan::Frozen>();
/// ```
pub struct Frozen {
    reads: Reads,
}

reads!(Frozen);

impl Frozen {
    /// The frozen map of a handle.
    pub(crate) fn of(reads: Reads) -> Frozen {
        Frozen { reads }
    }

    /// Returns one more of the same map. Fails if there is no memory for it.
    pub fn share(&self) -> Result<Frozen, Fault> {
        // SAFETY: see `Reads::handle`; the other one is closed.
        let share = |other| unsafe { ffi::nifforan_share(self.reads.handle(), other) };
        Reads::opened_by(*self.settings(), share).map(Frozen::of)
    }

    /// Returns the map, to be changed again, if no other `Frozen` has it; otherwise returns this one.
    pub fn thaw(self) -> Result<Map, Frozen> {
        // SAFETY: see `Reads::handle`.
        match unsafe { ffi::nifforan_thaw(self.reads.handle()) } {
            ffi::OK => Ok(Map::of(self.reads)),
            _ => Err(self),
        }
    }
}

/// [`Frozen::share`], which panics if there is no memory for it.
impl Clone for Frozen {
    #[track_caller]
    fn clone(&self) -> Frozen {
        self.share().unwrap_or_else(|fault| fault.panic())
    }
}

impl IntoIterator for Frozen {
    type Item = (u64, u64);
    type IntoIter = IntoIter;

    fn into_iter(self) -> IntoIter {
        IntoIter::of(self.reads)
    }
}
