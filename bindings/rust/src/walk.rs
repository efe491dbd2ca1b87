//! A walk over the pairs of a range, from either end, by reads of many pairs at once.

use crate::ffi::{High, Pair, ReadAnswer};
use crate::Reads;
use std::mem::MaybeUninit;

/// How many pairs are read at once.
pub(crate) const ROOM: usize = 64;

/// Pairs that were read. Those that were not given out yet stand from `first` on and below `end`.
#[derive(Clone, Copy)]
pub(crate) struct Window {
    /// Those below `end` were written.
    places: [MaybeUninit<Pair>; ROOM],
    first: usize,
    end: usize,
}

impl Default for Window {
    fn default() -> Window {
        Window::empty()
    }
}

impl Window {
    #[inline]
    pub fn empty() -> Window {
        Window {
            places: [const { MaybeUninit::uninit() }; ROOM],
            first: 0,
            end: 0,
        }
    }

    /// Reads the first pairs of a range.
    pub fn read(&mut self, map: &Reads, low: u64, high: High) -> ReadAnswer {
        let read = map.read(low, high, &mut self.places);
        (self.first, self.end) = (0, read.count);
        read
    }

    /// Reads its last pairs, the last one first.
    fn read_back(&mut self, map: &Reads, low: u64, high: High) -> ReadAnswer {
        let read = map.read_back(low, high, &mut self.places);
        (self.first, self.end) = (0, read.count);
        read
    }

    #[inline]
    pub fn left(&self) -> &[Pair] {
        let left: *const [MaybeUninit<Pair>] = &self.places[self.first..self.end];
        // SAFETY: they were written, and stay so while they are lent.
        unsafe { &*(left as *const [Pair]) }
    }

    #[inline]
    pub fn take_first(&mut self) -> Option<(u64, u64)> {
        if self.first >= self.end {
            return None;
        }
        // SAFETY: the places below `end`, of which there are as many, were written.
        let pair = unsafe { self.places.get_unchecked(self.first).assume_init() };
        self.first += 1;
        Some((pair.key, pair.value))
    }

    #[inline]
    fn take_last(&mut self) -> Option<(u64, u64)> {
        let pair = *self.left().last()?;
        self.end -= 1;
        Some((pair.key, pair.value))
    }
}

/// What is left of a range of a map that doesn't change meanwhile.
#[derive(Clone)]
pub(crate) struct Walk {
    /// Pairs from the front, by rising keys.
    front: Window,
    /// Pairs from the back, by falling keys, once one has been asked for there.
    back: Option<Box<Window>>,
    /// What may not be read yet, between the two.
    unread: Option<(u64, High)>,
}

impl Walk {
    /// A range without keys.
    #[inline]
    pub fn of(ends: Option<(u64, High)>) -> Walk {
        Walk {
            front: Window::empty(),
            back: None,
            unread: ends,
        }
    }

    #[inline]
    pub fn next(&mut self, map: &Reads) -> Option<(u64, u64)> {
        self.front.take_first().or_else(|| self.read_next(map))
    }

    #[inline(never)]
    fn read_next(&mut self, map: &Reads) -> Option<(u64, u64)> {
        self.read_front(map);
        let back = self.back.as_deref_mut();
        let front = self.front.take_first();
        front.or_else(|| back?.take_last())
    }

    pub fn next_back(&mut self, map: &Reads) -> Option<(u64, u64)> {
        let read = self.back.as_deref_mut().and_then(Window::take_first);
        read.or_else(|| self.read_previous(map))
    }

    #[inline(never)]
    fn read_previous(&mut self, map: &Reads) -> Option<(u64, u64)> {
        self.read_back(map);
        let back = self.back.as_deref_mut().and_then(Window::take_first);
        back.or_else(|| self.front.take_last())
    }

    /// How many pairs are left at least, and at most.
    pub fn size_hint(&self, map: &Reads) -> (usize, Option<usize>) {
        let back = self.back.as_ref().map_or(0, |back| back.left().len());
        let read = self.front.left().len() + back;
        let most = if self.unread.is_some() {
            map.len()
        } else {
            read
        };
        (read, Some(most))
    }

    fn read_front(&mut self, map: &Reads) {
        let Some((low, high)) = self.unread else {
            return;
        };
        let read = self.front.read(map, low, high);
        self.unread = read.has_next.then_some((read.next, high));
    }

    fn read_back(&mut self, map: &Reads) {
        let Some((low, high)) = self.unread else {
            return;
        };
        let back = self.back.get_or_insert_with(Box::default);
        let read = back.read_back(map, low, high);
        self.unread = match back.left().last() {
            Some(pair) if read.has_next => Some((low, High::below(pair.key))),
            _ => None,
        };
    }
}
