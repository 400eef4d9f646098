//! Measures caches of Rust behind std's `Mutex`, on the loads of `moka_bench`: the same keys in the same order.
//!
//! `one CACHE LOAD CALLS` runs one load on one cache, and prints what `moka_bench one` prints: the names of both, the nanoseconds of the
//! measured calls, how many found their key, and the most memory that the process used, in KiB. A number past the last cache stands
//! for no cache. `tails CACHE LOAD CALLS` times each call, and prints the names, and then the median, the 99th of a hundred and the slowest,
//! in nanoseconds.
mod loads;

use loads::{asked, measure, Nothing, Shared};
use std::collections::hash_map::RandomState;
use std::hash::BuildHasher;
use std::sync::Mutex;

impl<S: BuildHasher> Shared for Mutex<lru::LruCache<u64, u64, S>> {
    fn look_up(&self, key: u64) -> bool {
        self.lock().unwrap().get(&key).is_some()
    }

    fn insert(&self, key: u64) {
        self.lock().unwrap().put(key, key);
    }
}

impl<S: BuildHasher> Shared for Mutex<hashlink::LruCache<u64, u64, S>> {
    fn look_up(&self, key: u64) -> bool {
        self.lock().unwrap().get(&key).is_some()
    }

    fn insert(&self, key: u64) {
        self.lock().unwrap().insert(key, key);
    }
}

impl<S: BuildHasher> Shared for Mutex<lru_cache::LruCache<u64, u64, S>> {
    fn look_up(&self, key: u64) -> bool {
        self.lock().unwrap().get_mut(&key).is_some()
    }

    fn insert(&self, key: u64) {
        self.lock().unwrap().insert(key, key);
    }
}

fn main() {
    let arguments: Vec<String> = std::env::args().skip(1).collect();
    let Some(asked) = asked(&arguments) else {
        return println!("usage: rust_lru (one | tails) CACHE LOAD CALLS");
    };
    let size = asked.load.capacity as usize;
    let sip = RandomState::new();
    match asked.cache {
        0 => measure("Rust's lru, SipHash", Mutex::new(lru::LruCache::with_hasher(size, sip)), &asked),
        1 => measure("Rust's lru, aHash", Mutex::new(lru::LruCache::new(size)), &asked),
        2 => measure("Rust's hashlink, SipHash", Mutex::new(hashlink::LruCache::with_hasher(size, sip)), &asked),
        3 => measure("Rust's lru-cache, SipHash", Mutex::new(lru_cache::LruCache::with_hasher(size, sip)), &asked),
        _ => measure("no cache", Nothing, &asked),
    }
}
