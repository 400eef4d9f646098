//! Random calls of both caches, each compared with a model that shares no code with the library.
//!
//! The model follows `docs/MODEL.md`: two queues of entries, the notices, and the latest moment. It knows LRU, and
//! TinyLFU only without a capacity, where nothing is judged.

mod support;

use ludzvek::{bytes, numbers, Cause, Error, Notice, Policy, Settings};
use std::time::Duration;
use support::{Model, Random};

const CALLS: usize = 100_000;

fn all_settings() -> Vec<Settings> {
    let nanos = |n| Some(Duration::from_nanos(n));
    let lru = Settings { policy: Policy::Lru, ..Settings::default() };
    vec![
        Settings::default(),
        Settings { time_to_live: nanos(300), ..Settings::default() },
        Settings { max_capacity: Some(20), ..lru.clone() },
        Settings { max_capacity: Some(20), time_to_idle: nanos(200), initial_capacity: 40, ..lru.clone() },
        Settings { max_capacity: Some(0), ..lru.clone() },
        Settings { max_capacity: Some(3), flush_limit: Some(2), time_to_live: nanos(900), ..lru.clone() },
        Settings { max_capacity: Some(10), first_number: u64::MAX - 500, ..lru },
    ]
}

/// Makes a call without a key on a cache and on its model, from the numbers 88 to 99, and compares their replies.
macro_rules! compare_without_key {
    ($call:expr, $cache:ident, $model:ident, $limit:expr, $now:ident) => {
        match $call {
            88 => {
                $cache.invalidate_all();
                $model.invalidate_all();
            }
            89..=90 => {
                $cache.run_pending_tasks($now);
                assert!(!$model.maintain(None, $now));
            }
            91..=92 => {
                let limit = $limit;
                assert_eq!($cache.run_pending_tasks_up_to(limit, $now), $model.maintain(Some(limit), $now));
            }
            93..=94 => assert_eq!($cache.entry_count(), $model.entry_count()),
            95..=96 => assert_eq!($cache.weighted_size(), $model.weighted_size()),
            _ => assert_eq!($cache.take_notice(), $model.take_notice()),
        }
    };
}

/// Compares all notices of a cache that are not taken yet with those of its model.
macro_rules! compare_notices {
    ($cache:ident, $model:ident) => {
        while let Some(notice) = $model.take_notice() {
            assert_eq!($cache.take_notice(), Some(notice));
        }
        assert_eq!($cache.take_notice(), None);
    };
}

#[test]
fn numbers_answer_as_the_model() {
    let all = all_settings();
    for (at, settings) in all.iter().enumerate() {
        let mut random = Random::new(at as u64 + 1);
        let mut cache = numbers::Cache::new(settings).unwrap();
        let mut model = Model::new(settings, |_: &u64, _: &u64| 1);
        let mut now = 1_000;
        for _ in 0..CALLS / all.len() + 1 {
            now = random.moment(now);
            let key = random.below(100);
            match random.below(100) {
                0..=34 => assert_eq!(cache.get(key, now), Ok(model.get(&key, now))),
                35..=74 => {
                    let value = random.next();
                    assert_eq!(cache.insert(key, value, now), model.insert(key, value, now));
                }
                75..=79 => assert_eq!(cache.contains_key(key, now), model.contains_key(&key, now)),
                80..=83 => assert_eq!(cache.remove(key, now), Ok(model.remove(&key, now))),
                84..=87 => {
                    cache.invalidate(key, now);
                    model.remove(&key, now);
                }
                call => compare_without_key!(call, cache, model, random.below(5), now),
            }
        }
        compare_notices!(cache, model);
    }
}

#[test]
fn bytes_answer_as_the_model() {
    let mut all = all_settings();
    all.push(Settings {
        max_capacity: Some(300),
        weighs_bytes: true,
        policy: Policy::Lru,
        ..Settings::default()
    });
    for (at, settings) in all.iter().enumerate() {
        let weighs = settings.weighs_bytes;
        let mut random = Random::new(at as u64 + 100);
        let mut cache = bytes::Cache::new(settings).unwrap();
        let weigh = move |key: &Vec<u8>, value: &Vec<u8>| if weighs { key.len() + value.len() } else { 1 } as u64;
        let mut model = Model::new(settings, weigh);
        let mut now = 1_000;
        for _ in 0..CALLS / all.len() + 1 {
            now = random.moment(now);
            let key = random.bytes(2, 10);
            match random.below(100) {
                0..=34 => assert_eq!(cache.get(&key, now), Ok(model.get(&key, now))),
                35..=74 => {
                    let value = random.bytes(40, 256);
                    assert_eq!(cache.insert(&key, &value, now), model.insert(key, value, now));
                }
                75..=79 => assert_eq!(cache.contains_key(&key, now), Ok(model.contains_key(&key, now))),
                80..=83 => assert_eq!(cache.remove(&key, now), Ok(model.remove(&key, now))),
                84..=87 => {
                    cache.invalidate(&key, now).unwrap();
                    model.remove(&key, now);
                }
                call => compare_without_key!(call, cache, model, random.below(5), now),
            }
        }
        compare_notices!(cache, model);
    }
}

#[test]
fn settings_are_refused() {
    let zero = Settings { flush_limit: Some(0), ..Settings::default() };
    assert_eq!(numbers::Cache::new(&zero).err(), Some(Error::ZeroFlushLimit));
    assert_eq!(bytes::Cache::new(&zero).err(), Some(Error::ZeroFlushLimit));
    let both = Settings { flush_limit: Some(1), weighs_bytes: true, ..Settings::default() };
    assert_eq!(bytes::Cache::new(&both).err(), Some(Error::FlushLimitWithWeigher));
    let much = Settings { initial_capacity: usize::MAX / 2, ..Settings::default() };
    assert_eq!(numbers::Cache::new(&much).err(), Some(Error::OutOfMemory));
}

#[test]
fn a_long_value_is_found_whole() {
    let mut cache = bytes::Cache::new(&Settings::default()).unwrap();
    let value: Vec<u8> = (0..100_000).map(|n| n as u8).collect();
    cache.insert(b"", &value, 0).unwrap();
    assert_eq!(cache.get(b"", 0).unwrap().as_deref(), Some(&value[..]));
    assert_eq!(cache.remove(b"", 0).unwrap(), Some(value.clone()));
    assert_eq!(cache.take_notice(), Some(Notice { key: vec![], value, cause: Cause::Explicit }));
}
