//! Caches that threads share.

use crate::{Error, Settings};
use std::hash::{BuildHasher, Hash, RandomState};
use std::sync::{Mutex, MutexGuard, PoisonError};

/// A cache that [`Shared`] and [`Segments`] can hold.
pub trait OwnedCache: Send + Sized {
    /// What names an entry.
    type Key: Hash + ?Sized;

    /// Creates an empty cache.
    ///
    /// # Errors
    ///
    /// As its `new` says.
    fn open(settings: &Settings) -> Result<Self, Error>;
}

/// One cache behind a mutex.
pub struct Shared<C> {
    cache: Mutex<C>,
}

impl<C: OwnedCache> Shared<C> {
    /// Creates an empty cache behind a mutex.
    ///
    /// # Errors
    ///
    /// As the cache's `new` says.
    pub fn new(settings: &Settings) -> Result<Shared<C>, Error> {
        Ok(Shared { cache: Mutex::new(C::open(settings)?) })
    }

    /// Takes the lock. The cache stays as it was if a thread panicked with the lock, since no call of it can panic.
    pub fn lock(&self) -> MutexGuard<'_, C> {
        self.cache.lock().unwrap_or_else(PoisonError::into_inner)
    }
}

/// How many segments [`Segments`] has.
pub const SEGMENTS: usize = 16;

/// 16 caches behind 16 mutexes. The hash of a key chooses its segment.
pub struct Segments<C> {
    segments: Vec<Shared<C>>,
    hasher: RandomState,
}

impl<C: OwnedCache> Segments<C> {
    /// Creates 16 empty caches. Each has a share of the capacity, rounded up.
    ///
    /// # Errors
    ///
    /// As the cache's `new` says.
    pub fn new(settings: &Settings) -> Result<Segments<C>, Error> {
        let share = settings.share(SEGMENTS as u64);
        let segments = (0..SEGMENTS).map(|_| Shared::new(&share)).collect::<Result<_, _>>()?;
        Ok(Segments { segments, hasher: RandomState::new() })
    }

    /// Takes the lock of the segment of `key`.
    pub fn lock(&self, key: &C::Key) -> MutexGuard<'_, C> {
        let place = self.hasher.hash_one(key) as usize % SEGMENTS;
        self.segments[place].lock()
    }

    /// Returns all segments, as for a maintenance of each.
    pub fn segments(&self) -> &[Shared<C>] {
        &self.segments
    }
}
