//! A cache whose keys and values are byte strings.

use crate::calls::common_calls;
use crate::ffi::{self, Cause, Handle, ABSENT, DONE, SHORT_BUFFER};
use crate::shared::OwnedCache;
use crate::{Error, Notice, Settings};

// Values up to this length are found by one call.
const ROOM: usize = 256;

type Copy = unsafe extern "C" fn(&mut Handle, *mut u8, usize, &mut usize) -> u32;

type Find = unsafe extern "C" fn(&mut Handle, *const u8, usize, u64, *mut u8, usize, &mut usize) -> u32;

/// A cache whose keys and values are byte strings. A failed call leaves it as it was.
pub struct Cache {
    handle: Handle,
}

impl Cache {
    /// Creates an empty cache.
    ///
    /// # Errors
    ///
    /// - `ZeroFlushLimit`: the flush limit is 0.
    /// - `FlushLimitWithWeigher`: both a flush limit and a weigher are set.
    /// - `OutOfMemory`: an allocation failed.
    pub fn new(settings: &Settings) -> Result<Cache, Error> {
        let mut cache = Cache { handle: Handle::closed() };
        match unsafe { ffi::moka_c_bytes_open(&mut cache.handle, &settings.for_library()) } {
            DONE => Ok(cache),
            number => Err(Error::of(number)),
        }
    }

    /// Returns the live value of `key`, if there is one. Counts as an access.
    ///
    /// # Errors
    ///
    /// - `OutOfMemory`: an allocation failed.
    pub fn get(&mut self, key: &[u8], now: u64) -> Result<Option<Vec<u8>>, Error> {
        self.find(key, now, ffi::moka_c_bytes_get)
    }

    /// Removes the entry of `key`, live or expired, and queues its notice. Returns the value if it was live.
    ///
    /// # Errors
    ///
    /// - `OutOfMemory`: an allocation failed.
    pub fn remove(&mut self, key: &[u8], now: u64) -> Result<Option<Vec<u8>>, Error> {
        self.find(key, now, ffi::moka_c_bytes_remove)
    }

    /// Inserts an entry, or overwrites it, which queues a notice of the old value.
    ///
    /// # Errors
    ///
    /// - `NumbersUsedUp`: no sequence number is left.
    /// - `OutOfMemory`: an allocation failed.
    pub fn insert(&mut self, key: &[u8], value: &[u8], now: u64) -> Result<(), Error> {
        // SAFETY: the pointers and the lengths are those of slices.
        let number = unsafe {
            ffi::moka_c_bytes_insert(&mut self.handle, key.as_ptr(), key.len(), value.as_ptr(), value.len(), now)
        };
        match number {
            DONE => Ok(()),
            number => Err(Error::of(number)),
        }
    }

    /// Checks whether `key` has a live value. No access.
    ///
    /// # Errors
    ///
    /// - `OutOfMemory`: an allocation failed.
    pub fn contains_key(&mut self, key: &[u8], now: u64) -> Result<bool, Error> {
        // SAFETY: the pointer and the length are those of a slice.
        match unsafe { ffi::moka_c_bytes_contains_key(&mut self.handle, key.as_ptr(), key.len(), now) } {
            DONE => Ok(true),
            ABSENT => Ok(false),
            number => Err(Error::of(number)),
        }
    }

    /// Removes the entry of `key`, live or expired, and queues its notice.
    ///
    /// # Errors
    ///
    /// - `OutOfMemory`: an allocation failed.
    pub fn invalidate(&mut self, key: &[u8], now: u64) -> Result<(), Error> {
        // SAFETY: the pointer and the length are those of a slice.
        match unsafe { ffi::moka_c_bytes_invalidate(&mut self.handle, key.as_ptr(), key.len(), now) } {
            DONE => Ok(()),
            number => Err(Error::of(number)),
        }
    }

    /// Removes and returns the oldest notice, if one is queued.
    pub fn take_notice(&mut self) -> Option<Notice<Vec<u8>, Vec<u8>>> {
        let mut notice = ffi::BytesNotice { key_len: 0, value_len: 0, cause: 0 };
        match unsafe { ffi::moka_c_bytes_take_notice(&mut self.handle, &mut notice) } {
            DONE => Some(Notice {
                key: self.kept(notice.key_len, ffi::moka_c_bytes_copy_key),
                value: self.kept(notice.value_len, ffi::moka_c_bytes_copy_value),
                cause: Cause::of(notice.cause),
            }),
            _ => None,
        }
    }

    // Looks a key up by one of the two calls that find a value.
    fn find(&mut self, key: &[u8], now: u64, find: Find) -> Result<Option<Vec<u8>>, Error> {
        let mut out = [0; ROOM];
        let mut len = 0;
        // SAFETY: the pointers and the lengths are those of slices.
        let number =
            unsafe { find(&mut self.handle, key.as_ptr(), key.len(), now, out.as_mut_ptr(), ROOM, &mut len) };
        match number {
            DONE => Ok(Some(out[..len].to_vec())),
            SHORT_BUFFER => Ok(Some(self.kept(len, ffi::moka_c_bytes_copy_value))),
            ABSENT => Ok(None),
            number => Err(Error::of(number)),
        }
    }

    // Copies what the library keeps, which has this length.
    fn kept(&mut self, len: usize, copy: Copy) -> Vec<u8> {
        let mut out = vec![0; len];
        let mut counted = 0;
        // SAFETY: the pointer and the length are those of a slice.
        let number = unsafe { copy(&mut self.handle, out.as_mut_ptr(), len, &mut counted) };
        assert_eq!((number, counted), (DONE, len));
        out
    }
}

common_calls!(
    moka_c_bytes_invalidate_all,
    moka_c_bytes_run_pending_tasks,
    moka_c_bytes_run_pending_tasks_up_to,
    moka_c_bytes_entry_count,
    moka_c_bytes_weighted_size,
    moka_c_bytes_close
);

impl OwnedCache for Cache {
    type Key = [u8];

    fn open(settings: &Settings) -> Result<Cache, Error> {
        Cache::new(settings)
    }
}
