//! Measures this library from Rust, on the loads of `moka_bench`: the same keys in the same order.
//!
//! `one CACHE LOAD CALLS` does what `rust_lru` does, on the library's caches. `threads ROUNDS` prints a table for one thread and one for
//! four that share a cache, beside Rust's `lru` behind std's `Mutex`.
#[path = "../../rust_lru/src/loads.rs"]
mod loads;

use loads::{asked, keys, measure, prepare, run, Load, Nothing, LOADS};
use ludzvek::{numbers, Policy, Segments, Settings, Shared};
use lru::LruCache;
use std::collections::hash_map::RandomState;
use std::env;
use std::hash::BuildHasher;
use std::process::ExitCode;
use std::sync::Mutex;
use std::thread;
use std::time::Instant;

/// How many calls of a load are timed.
const CALLS: u32 = 1_000_000;

/// The loads that threads share: looks, inserts and hits.
const SHARED_LOADS: usize = 3;

const NAMES: [&str; 6] = [
    "Rust's `lru`, SipHash",
    "Rust's `lru`, aHash",
    "`Shared`, LRU",
    "`Shared`, TinyLFU",
    "`Segments`, LRU",
    "`Segments`, TinyLFU",
];

impl<S: BuildHasher> loads::Shared for Mutex<LruCache<u64, u64, S>> {
    fn look_up(&self, key: u64) -> bool {
        self.lock().unwrap().get(&key).is_some()
    }

    fn insert(&self, key: u64) {
        self.lock().unwrap().put(key, key);
    }
}

/// Inserts, and takes the notices.
fn insert(cache: &mut numbers::Cache, key: u64) {
    cache.insert(key, key, 0).unwrap();
    while cache.take_notice().is_some() {}
}

impl loads::Shared for Shared<numbers::Cache> {
    fn look_up(&self, key: u64) -> bool {
        self.lock().get(key, 0).unwrap().is_some()
    }

    fn insert(&self, key: u64) {
        insert(&mut self.lock(), key);
    }
}

impl loads::Shared for Segments<numbers::Cache> {
    fn look_up(&self, key: u64) -> bool {
        self.lock(&key).get(key, 0).unwrap().is_some()
    }

    fn insert(&self, key: u64) {
        insert(&mut self.lock(&key), key);
    }
}

fn settings(capacity: u32, policy: Policy) -> Settings {
    Settings { max_capacity: Some(u64::from(capacity)), policy, ..Settings::default() }
}

fn shared(load: &Load, policy: Policy) -> Shared<numbers::Cache> {
    Shared::new(&settings(load.capacity, policy)).unwrap()
}

/// Hashes do not give each segment just as many keys, so there is room for a fifth more where all keys are to be stored.
fn segments(load: &Load, policy: Policy) -> Segments<numbers::Cache> {
    let more = if load.has_all_stored() { load.capacity / 5 } else { 0 };
    Segments::new(&settings(load.capacity + more, policy)).unwrap()
}

/// Runs the measured calls of a load, each thread a part of them. Returns the nanoseconds, and how many keys were found.
fn timed<C: loads::Shared + Sync>(cache: C, load: &Load, threads: usize, keys: &[u64]) -> (f64, u64) {
    let (before, measured) = keys.split_at(keys.len() / 2);
    prepare(&cache, load, before);
    let begun = Instant::now();
    let hits = thread::scope(|scope| {
        let parts = measured.chunks(measured.len().div_ceil(threads));
        let workers: Vec<_> = parts.map(|part| scope.spawn(|| run(&cache, load.kind, part))).collect();
        workers.into_iter().map(|worker| worker.join().unwrap()).sum()
    });
    (begun.elapsed().as_nanos() as f64, hits)
}

/// The same for the cache that has this place in `NAMES`.
fn timed_at(place: usize, load: &Load, threads: usize, keys: &[u64]) -> (f64, u64) {
    let size = load.capacity as usize;
    match place {
        0 => timed(Mutex::new(LruCache::with_hasher(size, RandomState::new())), load, threads, keys),
        1 => timed(Mutex::new(LruCache::new(size)), load, threads, keys),
        2 => timed(shared(load, Policy::Lru), load, threads, keys),
        3 => timed(shared(load, Policy::TinyLfu), load, threads, keys),
        4 => timed(segments(load, Policy::Lru), load, threads, keys),
        _ => timed(segments(load, Policy::TinyLfu), load, threads, keys),
    }
}

fn median(mut numbers: Vec<f64>) -> f64 {
    numbers.sort_by(f64::total_cmp);
    numbers[numbers.len() / 2]
}

/// Prints the medians of the ratios to the first cache in the same round, and how many keys were found.
fn print_table(rounds: usize, threads: usize) {
    println!("| {threads} thread{} | looks | inserts | hits |\n|---|---|---|---|", if threads == 1 { "" } else { "s" });
    let mut cells = vec![String::new(); NAMES.len()];
    for load in &LOADS[..SHARED_LOADS] {
        let keys = keys(load, CALLS);
        let all: Vec<Vec<(f64, u64)>> = (0..rounds)
            .map(|_| (0..NAMES.len()).map(|place| timed_at(place, load, threads, &keys)).collect())
            .collect();
        for (place, cell) in cells.iter_mut().enumerate() {
            let ratio = median(all.iter().map(|round| round[place].0 / round[0].0).collect());
            let found = median(all.iter().map(|round| round[place].1 as f64 / f64::from(CALLS)).collect());
            *cell += &format!(" {ratio:.2} ({found:.3} found) |");
        }
    }
    for (name, cell) in NAMES.iter().zip(cells) {
        println!("| {name} |{cell}");
    }
    println!();
}

fn main() -> ExitCode {
    let arguments: Vec<String> = env::args().skip(1).collect();
    if let Some(asked) = asked(&arguments) {
        let load = asked.load;
        match asked.cache {
            0 => measure("from Rust, LRU", shared(load, Policy::Lru), &asked),
            1 => measure("from Rust, TinyLFU", shared(load, Policy::TinyLfu), &asked),
            2 => measure("from Rust, LRU, segments", segments(load, Policy::Lru), &asked),
            3 => measure("from Rust, TinyLFU, segments", segments(load, Policy::TinyLfu), &asked),
            _ => measure("no cache", Nothing, &asked),
        }
        return ExitCode::SUCCESS;
    }
    match arguments.iter().map(String::as_str).collect::<Vec<_>>()[..] {
        ["threads", rounds] => match rounds.parse() {
            Ok(rounds) if rounds > 0 => {
                [1, 4].into_iter().for_each(|threads| print_table(rounds, threads));
                return ExitCode::SUCCESS;
            }
            _ => eprintln!("ROUNDS is a number from 1 on, and not {rounds}"),
        },
        _ => eprintln!("usage: rust_shared (one | tails) CACHE LOAD CALLS, or threads ROUNDS"),
    }
    ExitCode::FAILURE
}
