//! `nifforan.h` in Rust's words, by `bindings/rust_of_header`.
#![allow(dead_code)] // all that the header has

use std::ffi::c_void;

pub const OK: u32 = 0;
pub const CLOSED_HANDLE: u32 = 1;
pub const OPEN_HANDLE: u32 = 2;
pub const BAD_FANOUT: u32 = 3;
pub const BAD_CHAIN: u32 = 4;
pub const BAD_PAGES: u32 = 5;
pub const BAD_TRIES: u32 = 6;
pub const NO_MEMORY: u32 = 7;
pub const TABLE_FULL: u32 = 8;
pub const TOO_TALL: u32 = 9;
pub const WORN: u32 = 10;
pub const CONTENDED: u32 = 11;
pub const BAD_SIZE: u32 = 12;
pub const FROZEN: u32 = 13;
pub const NOT_FROZEN: u32 = 14;
pub const SHARED: u32 = 15;
pub const UNSORTED: u32 = 16;

#[repr(C)]
#[derive(Clone, Copy, Debug)]
pub struct Text {
    pub text: [u8; 64],
}

#[repr(C)]
pub struct Handle {
    pub at: *mut c_void,
}

#[repr(C)]
#[derive(Clone, Copy, Debug)]
pub struct Settings {
    pub size: usize,
    pub fanout: u32,
    pub chain: u32,
    pub pages: u32,
    pub tries: u32,
    pub first_version: u64,
}

#[repr(C)]
#[derive(Clone, Copy, Debug)]
pub struct High {
    pub key: u64,
    pub is_top: bool,
}

#[repr(C)]
#[derive(Clone, Copy, Debug)]
pub struct Optional {
    pub value: u64,
    pub is_some: bool,
}

#[repr(C)]
#[derive(Clone, Copy, Debug)]
pub struct Reply {
    pub status: u32,
    pub care: u16,
    pub found: bool,
    pub value: u64,
}

#[repr(C)]
#[derive(Clone, Copy, Debug)]
pub struct Count {
    pub status: u32,
    pub pairs: u64,
    pub free_pages: u64,
}

#[repr(C)]
#[derive(Clone, Copy, Debug)]
pub struct Cleared {
    pub status: u32,
    pub removed: u64,
}

#[repr(C)]
#[derive(Clone, Copy, Debug)]
pub struct Found {
    pub status: u32,
    pub found: bool,
    pub key: u64,
    pub value: u64,
}

#[repr(C)]
#[derive(Clone, Copy, Debug)]
pub struct Popped {
    pub status: u32,
    pub care: u16,
    pub found: bool,
    pub key: u64,
    pub value: u64,
}

#[repr(C)]
#[derive(Clone, Copy, Debug)]
pub struct Filled {
    pub status: u32,
    pub care: u16,
    pub count: u64,
}

#[repr(C)]
#[derive(Clone, Copy, Debug)]
pub struct Pair {
    pub key: u64,
    pub value: u64,
}

#[repr(C)]
#[derive(Clone, Copy, Debug)]
pub struct ReadAnswer {
    pub count: usize,
    pub next: u64,
    pub has_next: bool,
    pub status: u32,
}

extern "C" {
    pub fn nifforan_version() -> u32;
    pub fn nifforan_status_text(status: u32) -> Text;
    pub fn nifforan_create(map: *mut Handle, settings: *const Settings) -> u32;
    pub fn nifforan_from_sorted(
        map: *mut Handle,
        settings: *const Settings,
        pairs: *const Pair,
        count: usize,
    ) -> Filled;
    pub fn nifforan_pairs(map: *mut Handle) -> Count;
    pub fn nifforan_get(map: *mut Handle, key: u64) -> Reply;
    pub fn nifforan_first(map: *mut Handle) -> Found;
    pub fn nifforan_last(map: *mut Handle) -> Found;
    pub fn nifforan_next_at(map: *mut Handle, key: u64) -> Found;
    pub fn nifforan_previous_at(map: *mut Handle, key: u64) -> Found;
    pub fn nifforan_read(
        map: *mut Handle,
        low: u64,
        high: High,
        pairs: *mut Pair,
        room: usize,
    ) -> ReadAnswer;
    pub fn nifforan_read_back(
        map: *mut Handle,
        low: u64,
        high: High,
        pairs: *mut Pair,
        room: usize,
    ) -> ReadAnswer;
    pub fn nifforan_put(map: *mut Handle, key: u64, value: u64) -> Reply;
    pub fn nifforan_set(map: *mut Handle, key: u64, value: u64) -> Reply;
    pub fn nifforan_delete(map: *mut Handle, key: u64) -> Reply;
    pub fn nifforan_compare_and_set(
        map: *mut Handle,
        key: u64,
        expected: *const Optional,
        value: *const Optional,
    ) -> Reply;
    pub fn nifforan_pop_first(map: *mut Handle) -> Popped;
    pub fn nifforan_pop_last(map: *mut Handle) -> Popped;
    pub fn nifforan_extend(map: *mut Handle, pairs: *const Pair, count: usize) -> Filled;
    pub fn nifforan_clear(map: *mut Handle, low: u64, high: High) -> Cleared;
    pub fn nifforan_reserve(map: *mut Handle, pairs: u64) -> u32;
    pub fn nifforan_shrink(map: *mut Handle) -> u32;
    pub fn nifforan_freeze(map: *mut Handle) -> u32;
    pub fn nifforan_share(map: *mut Handle, other: *mut Handle) -> u32;
    pub fn nifforan_thaw(map: *mut Handle) -> u32;
    pub fn nifforan_close(map: *mut Handle);
}
