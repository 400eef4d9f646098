//! A bounded in-process cache, written and proved in Rattle, for Rust.
//!
//! The caches are those of the static library `moka_c`. [`numbers::Cache`] has `u64`s as keys and values, and
//! [`bytes::Cache`] byte strings. Both are called through `&mut`, and each call is given its moment: nanoseconds, counted
//! from wherever the caller likes. A moment before the latest one counts as the latest.
//!
//! [`Shared`] puts one of them behind a mutex, and [`Segments`] puts 16 of them behind 16 mutexes.
//!
//! The library is proved. This crate is not: it is what has to be trusted beside it.
#![warn(missing_docs)]

pub mod bytes;
mod calls;
mod error;
mod ffi;
pub mod numbers;
mod settings;
mod shared;

pub use error::Error;
pub use ffi::Cause;
pub use settings::{Policy, Settings};
pub use shared::{OwnedCache, Segments, Shared, SEGMENTS};

/// A removal notice: the stored key, the removed value, and why it was removed.
#[derive(Clone, Debug, PartialEq, Eq)]
pub struct Notice<K, V> {
    /// The stored key: that of the write that created the entry.
    pub key: K,
    /// The removed value.
    pub value: V,
    /// Why the value was removed.
    pub cause: Cause,
}
