//! The loads of `moka_bench`, and a run of one of them on a cache.
use std::time::Instant;

/// The keys of `moka_bench`: xorshift, its state multiplied.
struct Numbers(u64);

impl Numbers {
    fn below(&mut self, bound: u32) -> u32 {
        self.0 ^= self.0 >> 12;
        self.0 ^= self.0 << 25;
        self.0 ^= self.0 >> 27;
        let number = self.0.wrapping_mul(2_685_821_657_736_338_717) >> 32;
        (number.wrapping_mul(u64::from(bound)) >> 32) as u32
    }

    fn skewed(&mut self, octaves: u32) -> u32 {
        let first = 1_u32.wrapping_shl(self.below(octaves));
        for _ in 0..64 {
            let key = first.wrapping_add(self.below(first));
            if self.below(key) < first {
                return key;
            }
        }
        first
    }
}

/// A cache that a call locks.
pub trait Shared {
    fn look_up(&self, key: u64) -> bool;

    fn insert(&self, key: u64);
}

/// No cache: a lookup finds its key, and an insert does nothing.
pub struct Nothing;

impl Shared for Nothing {
    fn look_up(&self, _key: u64) -> bool {
        true
    }

    fn insert(&self, _key: u64) {}
}

#[derive(Clone, Copy, PartialEq)]
pub enum Kind {
    Look,
    Insert,
    Hit,
    Overwrite,
    Replace,
}

pub struct Load {
    pub name: &'static str,
    pub kind: Kind,
    pub capacity: u32,
    octaves: u32,
}

impl Load {
    /// Whether the cache is filled at first: with the keys of the load, or with others.
    pub fn has_all_stored(&self) -> bool {
        matches!(self.kind, Kind::Hit | Kind::Overwrite | Kind::Replace)
    }
}

/// Those of `moka_bench`, by the same numbers. These caches have no lifetimes, so they keep the values of the fifth load.
pub static LOADS: [Load; 10] = [
    Load { name: "looks", kind: Kind::Look, capacity: 100_000, octaves: 20 },
    Load { name: "inserts", kind: Kind::Insert, capacity: 100_000, octaves: 20 },
    Load { name: "hits", kind: Kind::Hit, capacity: 100_000, octaves: 20 },
    Load { name: "overwrites", kind: Kind::Overwrite, capacity: 100_000, octaves: 20 },
    Load { name: "looks, each value living 100,000 calls", kind: Kind::Look, capacity: 100_000, octaves: 20 },
    Load { name: "looks, capacity 1,000", kind: Kind::Look, capacity: 1_000, octaves: 14 },
    Load { name: "looks, capacity 10,000", kind: Kind::Look, capacity: 10_000, octaves: 17 },
    Load { name: "looks, capacity 1,000,000", kind: Kind::Look, capacity: 1_000_000, octaves: 24 },
    Load { name: "hits, capacity 1,000", kind: Kind::Hit, capacity: 1_000, octaves: 20 },
    Load { name: "hits, capacity 1,000,000", kind: Kind::Hit, capacity: 1_000_000, octaves: 20 },
];

/// Inserts of new keys into a full cache, and their number in `moka_bench`.
static NEW_KEYS: (usize, Load) = (18, Load { name: "new keys", kind: Kind::Replace, capacity: 1_000_000, octaves: 20 });

/// Returns the keys of the calls: first those that are not measured, and then as many that are.
pub fn keys(load: &Load, calls: u32) -> Vec<u64> {
    let mut numbers = Numbers(20_261_123);
    (0..2 * calls)
        .map(|call| match load.kind {
            Kind::Look => u64::from(numbers.skewed(load.octaves)),
            Kind::Insert => u64::from(call),
            Kind::Hit | Kind::Overwrite => u64::from(numbers.below(load.capacity)),
            Kind::Replace => u64::from(load.capacity) + u64::from(call),
        })
        .collect()
}

/// Runs keys of a load. Returns how many were found.
pub fn run<C: Shared>(cache: &C, kind: Kind, keys: &[u64]) -> u64 {
    let mut hits = 0;
    for key in keys {
        if matches!(kind, Kind::Look | Kind::Hit) && cache.look_up(*key) {
            hits += 1;
        } else if kind != Kind::Hit {
            cache.insert(*key);
        }
    }
    hits
}

/// Stores the keys of a load that finds all of its keys, and makes the calls that are not measured.
pub fn prepare<C: Shared>(cache: &C, load: &Load, before: &[u64]) {
    if load.has_all_stored() {
        for key in 0..u64::from(load.capacity) {
            cache.insert(key);
        }
    }
    run(cache, load.kind, before);
}

/// What the arguments ask for.
pub struct Asked {
    pub cache: usize,
    pub load: &'static Load,
    calls: u32,
    /// Whether each call is timed, and not all together.
    tails: bool,
}

/// Runs a load on a cache, and prints what it took.
pub fn measure<C: Shared>(name: &str, cache: C, asked: &Asked) {
    let load = asked.load;
    let keys = keys(load, asked.calls);
    if asked.tails {
        prepare(&cache, load, &[]);
        let nanos = time_each(&cache, load, &keys);
        let [half, tail, slowest] = [nanos.len() / 2, nanos.len() / 100 * 99, nanos.len() - 1].map(|place| nanos[place]);
        return println!("{name}\t{}\t{half}\t{tail}\t{slowest}", load.name);
    }
    let (before, measured) = keys.split_at(keys.len() / 2);
    prepare(&cache, load, before);
    let begun = Instant::now();
    let hits = run(&cache, load.kind, measured);
    let nanos = begun.elapsed().as_nanos();
    println!("{name}\t{}\t{nanos}\t{hits}\t{}", load.name, peak());
}

/// Runs keys of a load. Returns the nanoseconds that each took, sorted.
fn time_each<C: Shared>(cache: &C, load: &Load, keys: &[u64]) -> Vec<u128> {
    let mut nanos = Vec::with_capacity(keys.len());
    for key in keys {
        let begun = Instant::now();
        run(cache, load.kind, &[*key]);
        nanos.push(begun.elapsed().as_nanos());
    }
    nanos.sort_unstable();
    nanos
}

/// Returns the most memory that the process used, in KiB.
fn peak() -> String {
    let status = std::fs::read_to_string("/proc/self/status").unwrap_or_default();
    let line = status.lines().find_map(|line| line.strip_prefix("VmHWM:"));
    line.map_or("unknown", |rest| rest.trim_end_matches("kB").trim()).to_owned()
}

/// Returns what the arguments `one CACHE LOAD CALLS` or `tails CACHE LOAD CALLS` ask for.
pub fn asked(arguments: &[String]) -> Option<Asked> {
    let [word, cache, load, calls] = arguments else {
        return None;
    };
    let tails = word == "tails";
    if !tails && word != "one" {
        return None;
    }
    let number = load.parse::<usize>().ok()?;
    let load = if number == NEW_KEYS.0 { &NEW_KEYS.1 } else { LOADS.get(number)? };
    Some(Asked { cache: cache.parse().ok()?, load, calls: calls.parse().ok()?, tails })
}
