//! Why no raw image was found in a file.

use std::fmt;

/// Why a file has no raw image that could be taken.
#[derive(Debug, Clone, Copy, PartialEq, Eq, Hash)]
#[non_exhaustive]
pub enum ArwError {
    /// The file does not start as a TIFF does.
    NotTiff,
    /// The file is a BigTIFF.
    BigTiff,
    /// A field that is needed holds a number above 4 GiB.
    Above4GiB { value: u64 },
    /// The file has more than 1,024 directories or 64 strips without tiles, or its directories overlap,
    /// so that not all were looked at.
    Tangled,
    /// A directory, a value or a strip lies past the end of the file, which would have to be
    /// `needed` bytes long.
    Truncated { needed: u64, length: u64 },
    /// All was read, and no image has a strip with tiles.
    NoRawImage,
}

impl ArwError {
    /// Of several reasons the one with the greatest rank is told; of several ends past the file's
    /// end it is the last.
    pub(super) fn rank(&self) -> (u8, u64) {
        match *self {
            ArwError::NoRawImage => (0, 0),
            ArwError::Truncated { needed, .. } => (1, needed),
            ArwError::Tangled => (2, 0),
            ArwError::Above4GiB { value } => (3, value),
            ArwError::BigTiff | ArwError::NotTiff => (4, 0),
        }
    }
}

impl fmt::Display for ArwError {
    fn fmt(&self, f: &mut fmt::Formatter) -> fmt::Result {
        match self {
            ArwError::NotTiff => write!(f, "not a TIFF"),
            ArwError::BigTiff => {
                write!(f, "a BigTIFF, whose offsets may lie above 4 GiB; ARW files are plain TIFFs")
            }
            ArwError::Above4GiB { value } => {
                write!(f, "the file names {value}, which lies above 4 GiB; ARW files stay below")
            }
            ArwError::Tangled => {
                write!(f, "the file's directories are too many or overlap; no raw image among those read")
            }
            ArwError::Truncated { needed, length } => {
                write!(f, "the file has {length} bytes, but byte {needed} of it is named: a truncated copy?")
            }
            ArwError::NoRawImage => write!(f, "no image in the file has ARW6 tiles"),
        }
    }
}

impl std::error::Error for ArwError {}
