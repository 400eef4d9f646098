//! The settings of a cache.

use crate::ffi;
use std::time::Duration;

/// Which entries are evicted if a cache exceeds its capacity, and which pending ones are admitted.
#[derive(Clone, Copy, Debug, Default, PartialEq, Eq)]
pub enum Policy {
    /// Evicts the least recently used entries, and admits a pending one only if it is more frequent than they are.
    #[default]
    TinyLfu,
    /// Evicts the least recently used entries, and admits each pending one.
    Lru,
}

/// The settings of a cache. The default has no bounds.
#[derive(Clone, Debug, Default)]
pub struct Settings {
    /// The bound on the total weight of the resident entries; without a weigher, on their number.
    pub max_capacity: Option<u64>,
    /// How long an entry lives after its last write.
    pub time_to_live: Option<Duration>,
    /// How long an entry lives after its last access or write.
    pub time_to_idle: Option<Duration>,
    /// How many entries a flush may evict: at least 1, and none beside a weigher.
    pub flush_limit: Option<u64>,
    /// For how many entries room is allocated at once.
    pub initial_capacity: usize,
    /// The first sequence number that a write draws.
    pub first_number: u64,
    /// The eviction policy.
    pub policy: Policy,
    /// Whether an entry weighs its bytes, key and value. Only for a cache of byte strings.
    pub weighs_bytes: bool,
}

impl Settings {
    /// Returns these settings for one of so many segments: a share of the capacity, rounded up.
    pub(crate) fn share(&self, segments: u64) -> Settings {
        Settings {
            max_capacity: self.max_capacity.map(|capacity| capacity.div_ceil(segments)),
            ..self.clone()
        }
    }

    /// Returns the settings as the library takes them. A time that has no `u64` of nanoseconds is as good as none.
    pub(crate) fn for_library(&self) -> ffi::CacheSettings {
        ffi::CacheSettings {
            max_capacity: limit(self.max_capacity),
            time_to_live: limit(self.time_to_live.and_then(nanos)),
            time_to_idle: limit(self.time_to_idle.and_then(nanos)),
            flush_limit: limit(self.flush_limit),
            initial_capacity: self.initial_capacity,
            first_number: self.first_number,
            policy: match self.policy {
                Policy::TinyLfu => 0,
                Policy::Lru => 1,
            },
            weighs_bytes: self.weighs_bytes,
        }
    }
}

fn nanos(time: Duration) -> Option<u64> {
    u64::try_from(time.as_nanos()).ok()
}

fn limit(value: Option<u64>) -> ffi::Limit {
    ffi::Limit { is_set: value.is_some(), value: value.unwrap_or(0) }
}
