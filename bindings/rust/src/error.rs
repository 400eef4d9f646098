//! Why a call failed.

use std::fmt;

/// Why a call failed. The cache is then as it was.
#[derive(Clone, Copy, Debug, PartialEq, Eq)]
pub enum Error {
    /// An allocation failed.
    OutOfMemory,
    /// No sequence number is left.
    NumbersUsedUp,
    /// The flush limit is 0.
    ZeroFlushLimit,
    /// Both a flush limit and a weigher are set.
    FlushLimitWithWeigher,
}

impl Error {
    /// Returns the error that a number of the library names.
    ///
    /// # Panics
    ///
    /// At a number that the calls of this crate cannot get.
    pub(crate) fn of(number: u32) -> Error {
        match number {
            2 => Error::OutOfMemory,
            3 => Error::NumbersUsedUp,
            7 => Error::ZeroFlushLimit,
            8 => Error::FlushLimitWithWeigher,
            _ => panic!("the library returned the number {number}"),
        }
    }
}

impl fmt::Display for Error {
    fn fmt(&self, f: &mut fmt::Formatter<'_>) -> fmt::Result {
        f.write_str(match self {
            Error::OutOfMemory => "out of memory",
            Error::NumbersUsedUp => "no sequence number is left",
            Error::ZeroFlushLimit => "the flush limit is 0",
            Error::FlushLimitWithWeigher => "both a flush limit and a weigher are set",
        })
    }
}

impl std::error::Error for Error {}
