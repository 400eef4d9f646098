//! The model, and random calls.

use ludzvek::{Cause, Error, Notice, Settings};
use std::collections::VecDeque;

/// Random numbers: xorshift.
pub struct Random(u64);

impl Random {
    pub fn new(seed: u64) -> Random {
        Random(seed.wrapping_mul(0x9e37_79b9_7f4a_7c15) | 1)
    }

    pub fn next(&mut self) -> u64 {
        self.0 ^= self.0 << 13;
        self.0 ^= self.0 >> 7;
        self.0 ^= self.0 << 17;
        self.0
    }

    pub fn below(&mut self, bound: u64) -> u64 {
        (self.next() >> 11) % bound
    }

    /// Up to `len` bytes, each below `bound`.
    pub fn bytes(&mut self, len: u64, bound: u64) -> Vec<u8> {
        (0..self.below(len + 1)).map(|_| self.below(bound) as u8).collect()
    }

    /// The moment of the next call, which is rarely before the one of the last.
    pub fn moment(&mut self, now: u64) -> u64 {
        if self.below(10) == 0 {
            now.saturating_sub(self.below(50))
        } else {
            now + self.below(10)
        }
    }
}

struct Entry<K, V> {
    key: K,
    value: V,
    weight: u64,
    written: u64,
    accessed: u64,
    is_hidden: bool,
}

type Weigh<K, V> = Box<dyn Fn(&K, &V) -> u64>;

/// What a cache does, over two lists.
pub struct Model<K, V> {
    capacity: Option<u64>,
    time_to_live: Option<u64>,
    time_to_idle: Option<u64>,
    flush_limit: Option<u64>,
    next_number: u64,
    weigh: Weigh<K, V>,
    resident: Vec<Entry<K, V>>,
    pending: Vec<Entry<K, V>>,
    notices: VecDeque<Notice<K, V>>,
    latest: u64,
}

impl<K: PartialEq, V: Clone> Model<K, V> {
    pub fn new(settings: &Settings, weigh: impl Fn(&K, &V) -> u64 + 'static) -> Model<K, V> {
        let nanos = |time: std::time::Duration| time.as_nanos() as u64;
        Model {
            capacity: settings.max_capacity,
            time_to_live: settings.time_to_live.map(nanos),
            time_to_idle: settings.time_to_idle.map(nanos),
            flush_limit: settings.flush_limit,
            next_number: settings.first_number,
            weigh: Box::new(weigh),
            resident: vec![],
            pending: vec![],
            notices: VecDeque::new(),
            latest: 0,
        }
    }

    pub fn get(&mut self, key: &K, now: u64) -> Option<V> {
        let at = self.record(now);
        if let Some(place) = place_of(&self.resident, key) {
            if !self.is_live(&self.resident[place], at) {
                return None;
            }
            let mut entry = self.resident.remove(place);
            entry.accessed = at;
            let value = entry.value.clone();
            self.resident.push(entry);
            return Some(value);
        }
        let place = place_of(&self.pending, key)?;
        if !self.is_live(&self.pending[place], at) {
            return None;
        }
        self.pending[place].accessed = at;
        Some(self.pending[place].value.clone())
    }

    pub fn contains_key(&self, key: &K, now: u64) -> bool {
        let at = now.max(self.latest);
        let mut all = self.resident.iter().chain(&self.pending);
        all.any(|entry| entry.key == *key && self.is_live(entry, at))
    }

    pub fn insert(&mut self, key: K, value: V, now: u64) -> Result<(), Error> {
        if self.capacity == Some(0) {
            self.record(now);
            return Ok(());
        }
        if self.next_number == u64::MAX {
            return Err(Error::NumbersUsedUp);
        }
        if self.pending.len() >= 64 {
            self.maintain(self.flush_limit, now);
        }
        let at = self.record(now);
        self.next_number += 1;
        let weight = (self.weigh)(&key, &value);
        let new = Entry { key, value, weight, written: at, accessed: at, is_hidden: false };
        if let Some(place) = place_of(&self.resident, &new.key) {
            let old = self.resident.remove(place);
            self.notify(old, Cause::Replaced, at);
            self.resident.push(new); // (equal keys of these types are the same)
        } else if let Some(place) = place_of(&self.pending, &new.key) {
            let old = self.pending.remove(place);
            self.notify(old, Cause::Replaced, at);
            self.pending.insert(place, new);
        } else {
            self.pending.push(new);
        }
        Ok(())
    }

    /// Removes a key. Returns its value if it was live.
    pub fn remove(&mut self, key: &K, now: u64) -> Option<V> {
        let at = self.record(now);
        let old = if let Some(place) = place_of(&self.resident, key) {
            self.resident.remove(place)
        } else {
            let place = place_of(&self.pending, key)?;
            self.pending.remove(place)
        };
        let found = self.is_live(&old, at).then(|| old.value.clone());
        self.notify(old, Cause::Explicit, at);
        found
    }

    pub fn invalidate_all(&mut self) {
        for entry in self.resident.iter_mut().chain(&mut self.pending) {
            entry.is_hidden = true;
        }
    }

    /// Runs a maintenance. Returns whether a part is left undone.
    pub fn maintain(&mut self, limit: Option<u64>, now: u64) -> bool {
        let at = self.record(now);
        let mut left = limit.unwrap_or(u64::MAX);
        while let Some(place) = self.resident.iter().position(|entry| !self.is_live(entry, at)) {
            if left == 0 {
                return true;
            }
            left -= 1;
            let dead = self.resident.remove(place);
            self.notify(dead, Cause::Size, at);
        }
        while let Some(place) = self.pending.iter().position(|entry| !self.is_live(entry, at)) {
            if left == 0 {
                return true;
            }
            left -= 1;
            let dead = self.pending.remove(place);
            self.notify(dead, Cause::Size, at);
        }
        while !self.fits(0, 0) {
            if left == 0 {
                return true;
            }
            left -= 1;
            let over = self.resident.remove(0);
            self.notify(over, Cause::Size, at);
        }
        while let Some(entry) = self.pending.first() {
            let weight = entry.weight;
            if self.capacity.is_some_and(|capacity| weight > capacity) {
                if left == 0 {
                    return true;
                }
                left -= 1;
                let heavy = self.pending.remove(0);
                self.notify(heavy, Cause::Size, at);
                continue;
            }
            let victims = (0..).find(|&front| self.fits(weight, front)).unwrap();
            if victims as u64 > left {
                return true;
            }
            left -= victims as u64;
            for _ in 0..victims {
                let victim = self.resident.remove(0);
                self.notify(victim, Cause::Size, at);
            }
            let entry = self.pending.remove(0);
            self.resident.push(entry);
        }
        false
    }

    pub fn entry_count(&self) -> u64 {
        (self.resident.len() + self.pending.len()) as u64
    }

    pub fn weighted_size(&self) -> u64 {
        self.resident.iter().chain(&self.pending).map(|entry| entry.weight).sum()
    }

    pub fn take_notice(&mut self) -> Option<Notice<K, V>> {
        self.notices.pop_front()
    }

    fn record(&mut self, now: u64) -> u64 {
        self.latest = self.latest.max(now);
        self.latest
    }

    /// Whether so much more fits beside the resident entries without the first `front`.
    fn fits(&self, weight: u64, front: usize) -> bool {
        let sum: u64 = self.resident[front..].iter().map(|entry| entry.weight).sum();
        self.capacity.is_none_or(|capacity| sum + weight <= capacity)
    }

    fn is_expired(&self, entry: &Entry<K, V>, at: u64) -> bool {
        let ends = |from: u64, life: u64| from as u128 + life as u128 <= at as u128;
        self.time_to_live.is_some_and(|life| ends(entry.written, life))
            || self.time_to_idle.is_some_and(|life| ends(entry.accessed, life))
    }

    fn is_live(&self, entry: &Entry<K, V>, at: u64) -> bool {
        !entry.is_hidden && !self.is_expired(entry, at)
    }

    fn notify(&mut self, entry: Entry<K, V>, own: Cause, at: u64) {
        let cause = if entry.is_hidden {
            Cause::Explicit
        } else if self.is_expired(&entry, at) {
            Cause::Expired
        } else {
            own
        };
        self.notices.push_back(Notice { key: entry.key, value: entry.value, cause });
    }
}

fn place_of<K: PartialEq, V>(entries: &[Entry<K, V>], key: &K) -> Option<usize> {
    entries.iter().position(|entry| entry.key == *key)
}
