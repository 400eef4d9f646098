//! The calls of the static library, as `bindings/c/moka_c.h` declares them.

use std::ffi::c_void;
use std::ptr;

/// A call is done.
pub(crate) const DONE: u32 = 0;

/// No value is live, or no notice is queued.
pub(crate) const ABSENT: u32 = 1;

/// The buffer is shorter than the bytes.
pub(crate) const SHORT_BUFFER: u32 = 6;

/// Why a value was removed.
#[derive(Clone, Copy, Debug, PartialEq, Eq)]
pub enum Cause {
    /// The entry had passed its time to live or its time to idle.
    Expired,
    /// A caller invalidated or removed the entry.
    Explicit,
    /// The value was overwritten.
    Replaced,
    /// The entry was evicted, or not admitted, to keep the cache within its capacity.
    Size,
}

impl Cause {
    /// Returns the cause that a number names.
    pub(crate) fn of(number: u32) -> Cause {
        match number {
            0 => Cause::Expired,
            1 => Cause::Explicit,
            2 => Cause::Replaced,
            _ => Cause::Size,
        }
    }
}

/// A handle. The library alone reads and writes its fields.
#[repr(C)]
pub(crate) struct Handle {
    is_open: bool,
    at: *mut c_void,
}

impl Handle {
    /// Creates a closed handle.
    pub(crate) const fn closed() -> Handle {
        Handle { is_open: false, at: ptr::null_mut() }
    }
}

/// A number that may be left out.
#[repr(C)]
pub(crate) struct Limit {
    pub(crate) is_set: bool,
    pub(crate) value: u64,
}

/// The settings of a cache.
#[repr(C)]
pub(crate) struct CacheSettings {
    pub(crate) max_capacity: Limit,
    pub(crate) time_to_live: Limit,
    pub(crate) time_to_idle: Limit,
    pub(crate) flush_limit: Limit,
    pub(crate) initial_capacity: usize,
    pub(crate) first_number: u64,
    pub(crate) policy: u32,
    pub(crate) weighs_bytes: bool,
}

/// A notice of a cache of numbers.
#[repr(C)]
pub(crate) struct NumberNotice {
    pub(crate) key: u64,
    pub(crate) value: u64,
    pub(crate) cause: u32,
}

/// A notice of a cache of byte strings: how long its key and its value are.
#[repr(C)]
pub(crate) struct BytesNotice {
    pub(crate) key_len: usize,
    pub(crate) value_len: usize,
    pub(crate) cause: u32,
}

// SAFETY of all calls: a `&mut` and a slice of Rust keep what the library asks of its pointers.
unsafe extern "C" {
    pub(crate) fn moka_c_numbers_open(cache: &mut Handle, settings: &CacheSettings) -> u32;
    pub(crate) fn moka_c_numbers_close(cache: &mut Handle) -> u32;
    pub(crate) fn moka_c_numbers_get(cache: &mut Handle, key: u64, now: u64, value: &mut u64) -> u32;
    pub(crate) fn moka_c_numbers_remove(cache: &mut Handle, key: u64, now: u64, value: &mut u64) -> u32;
    pub(crate) fn moka_c_numbers_insert(cache: &mut Handle, key: u64, value: u64, now: u64) -> u32;
    pub(crate) fn moka_c_numbers_contains_key(cache: &mut Handle, key: u64, now: u64) -> u32;
    pub(crate) fn moka_c_numbers_invalidate(cache: &mut Handle, key: u64, now: u64) -> u32;
    pub(crate) fn moka_c_numbers_invalidate_all(cache: &mut Handle) -> u32;
    pub(crate) fn moka_c_numbers_run_pending_tasks(cache: &mut Handle, now: u64) -> u32;
    pub(crate) fn moka_c_numbers_run_pending_tasks_up_to(
        cache: &mut Handle,
        limit: u64,
        now: u64,
        is_left: &mut bool,
    ) -> u32;
    pub(crate) fn moka_c_numbers_entry_count(cache: &mut Handle, count: &mut u64) -> u32;
    pub(crate) fn moka_c_numbers_weighted_size(cache: &mut Handle, weight: &mut u64) -> u32;
    pub(crate) fn moka_c_numbers_take_notice(cache: &mut Handle, notice: &mut NumberNotice) -> u32;

    pub(crate) fn moka_c_bytes_open(cache: &mut Handle, settings: &CacheSettings) -> u32;
    pub(crate) fn moka_c_bytes_close(cache: &mut Handle) -> u32;
    pub(crate) fn moka_c_bytes_get(
        cache: &mut Handle,
        key: *const u8,
        key_len: usize,
        now: u64,
        out: *mut u8,
        room: usize,
        len: &mut usize,
    ) -> u32;
    pub(crate) fn moka_c_bytes_remove(
        cache: &mut Handle,
        key: *const u8,
        key_len: usize,
        now: u64,
        out: *mut u8,
        room: usize,
        len: &mut usize,
    ) -> u32;
    pub(crate) fn moka_c_bytes_insert(
        cache: &mut Handle,
        key: *const u8,
        key_len: usize,
        value: *const u8,
        value_len: usize,
        now: u64,
    ) -> u32;
    pub(crate) fn moka_c_bytes_contains_key(cache: &mut Handle, key: *const u8, key_len: usize, now: u64) -> u32;
    pub(crate) fn moka_c_bytes_invalidate(cache: &mut Handle, key: *const u8, key_len: usize, now: u64) -> u32;
    pub(crate) fn moka_c_bytes_invalidate_all(cache: &mut Handle) -> u32;
    pub(crate) fn moka_c_bytes_run_pending_tasks(cache: &mut Handle, now: u64) -> u32;
    pub(crate) fn moka_c_bytes_run_pending_tasks_up_to(
        cache: &mut Handle,
        limit: u64,
        now: u64,
        is_left: &mut bool,
    ) -> u32;
    pub(crate) fn moka_c_bytes_entry_count(cache: &mut Handle, count: &mut u64) -> u32;
    pub(crate) fn moka_c_bytes_weighted_size(cache: &mut Handle, weight: &mut u64) -> u32;
    pub(crate) fn moka_c_bytes_take_notice(cache: &mut Handle, notice: &mut BytesNotice) -> u32;
    pub(crate) fn moka_c_bytes_copy_key(cache: &mut Handle, out: *mut u8, room: usize, len: &mut usize) -> u32;
    pub(crate) fn moka_c_bytes_copy_value(cache: &mut Handle, out: *mut u8, room: usize, len: &mut usize) -> u32;
}
