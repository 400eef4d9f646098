//! A cache whose keys and values are `u64`s.

use crate::calls::common_calls;
use crate::ffi::{self, Cause, Handle, ABSENT, DONE};
use crate::shared::OwnedCache;
use crate::{Error, Notice, Settings};

/// A cache whose keys and values are `u64`s. A failed call leaves it as it was.
pub struct Cache {
    handle: Handle,
}

impl Cache {
    /// Creates an empty cache.
    ///
    /// # Errors
    ///
    /// - `ZeroFlushLimit`: the flush limit is 0.
    /// - `OutOfMemory`: an allocation failed.
    pub fn new(settings: &Settings) -> Result<Cache, Error> {
        let mut cache = Cache { handle: Handle::closed() };
        match unsafe { ffi::moka_c_numbers_open(&mut cache.handle, &settings.for_library()) } {
            DONE => Ok(cache),
            number => Err(Error::of(number)),
        }
    }

    /// Returns the live value of `key`, if there is one. Counts as an access.
    ///
    /// # Errors
    ///
    /// - `OutOfMemory`: not with numbers, whose clones cannot fail.
    pub fn get(&mut self, key: u64, now: u64) -> Result<Option<u64>, Error> {
        let mut value = 0;
        match unsafe { ffi::moka_c_numbers_get(&mut self.handle, key, now, &mut value) } {
            DONE => Ok(Some(value)),
            ABSENT => Ok(None),
            number => Err(Error::of(number)),
        }
    }

    /// Removes the entry of `key`, live or expired, and queues its notice. Returns the value if it was live.
    ///
    /// # Errors
    ///
    /// - `OutOfMemory`: not with numbers, whose clones cannot fail.
    pub fn remove(&mut self, key: u64, now: u64) -> Result<Option<u64>, Error> {
        let mut value = 0;
        match unsafe { ffi::moka_c_numbers_remove(&mut self.handle, key, now, &mut value) } {
            DONE => Ok(Some(value)),
            ABSENT => Ok(None),
            number => Err(Error::of(number)),
        }
    }

    /// Inserts an entry, or overwrites it, which queues a notice of the old value.
    ///
    /// # Errors
    ///
    /// - `NumbersUsedUp`: no sequence number is left.
    /// - `OutOfMemory`: an allocation failed.
    pub fn insert(&mut self, key: u64, value: u64, now: u64) -> Result<(), Error> {
        match unsafe { ffi::moka_c_numbers_insert(&mut self.handle, key, value, now) } {
            DONE => Ok(()),
            number => Err(Error::of(number)),
        }
    }

    /// Checks whether `key` has a live value. No access.
    pub fn contains_key(&mut self, key: u64, now: u64) -> bool {
        unsafe { ffi::moka_c_numbers_contains_key(&mut self.handle, key, now) == DONE }
    }

    /// Removes the entry of `key`, live or expired, and queues its notice.
    pub fn invalidate(&mut self, key: u64, now: u64) {
        unsafe { ffi::moka_c_numbers_invalidate(&mut self.handle, key, now) };
    }

    /// Removes and returns the oldest notice, if one is queued.
    pub fn take_notice(&mut self) -> Option<Notice<u64, u64>> {
        let mut notice = ffi::NumberNotice { key: 0, value: 0, cause: 0 };
        match unsafe { ffi::moka_c_numbers_take_notice(&mut self.handle, &mut notice) } {
            DONE => Some(Notice { key: notice.key, value: notice.value, cause: Cause::of(notice.cause) }),
            _ => None,
        }
    }
}

common_calls!(
    moka_c_numbers_invalidate_all,
    moka_c_numbers_run_pending_tasks,
    moka_c_numbers_run_pending_tasks_up_to,
    moka_c_numbers_entry_count,
    moka_c_numbers_weighted_size,
    moka_c_numbers_close
);

impl OwnedCache for Cache {
    type Key = u64;

    fn open(settings: &Settings) -> Result<Cache, Error> {
        Cache::new(settings)
    }
}
