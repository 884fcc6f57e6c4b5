//! Why a tile was not decoded, or planes were not written.

use crate::Refusal;
use std::fmt;

/// A stream or planes that were refused, or memory that cannot be had.
#[derive(Debug, Clone, Copy, PartialEq, Eq)]
#[non_exhaustive]
pub enum Error {
    /// The stream or the planes were refused; of decoding, no number of any slice was changed.
    Refused(Refusal),
    /// The memory for the planes of a tile, for writing them or for records cannot be had.
    Memory {
        /// How many numbers of 32 bits that is in all.
        numbers: usize,
    },
}

impl From<Refusal> for Error {
    fn from(refusal: Refusal) -> Error {
        Error::Refused(refusal)
    }
}

impl fmt::Display for Error {
    fn fmt(&self, f: &mut fmt::Formatter) -> fmt::Result {
        match self {
            Error::Refused(refusal) => refusal.fmt(f),
            Error::Memory { numbers } => {
                let megabytes = (numbers * 4).div_ceil(1_000_000);
                write!(f, "the memory for it, {megabytes} MB, cannot be had")
            }
        }
    }
}

impl std::error::Error for Error {}
