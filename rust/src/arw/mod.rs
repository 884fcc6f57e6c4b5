//! The raw image of an .ARW file, which is a TIFF.

mod error;
mod ifd;
mod search;
#[cfg(test)]
mod tests;

pub use error::ArwError;
use ifd::Tiff;
use search::Search;

/// The raw image of a camera file: the frame's size and the strip with its tiles.
#[derive(Clone, Copy, PartialEq, Eq)]
#[non_exhaustive]
pub struct RawImage<'a> {
    pub width: usize,
    pub height: usize,
    pub strip: &'a [u8],
    /// Where the strip starts in the file.
    pub offset: usize,
}

/// The strip's bytes are many, and are not shown.
impl std::fmt::Debug for RawImage<'_> {
    fn fmt(&self, f: &mut std::fmt::Formatter) -> std::fmt::Result {
        let RawImage { width, height, strip, offset } = self;
        write!(f, "RawImage {{ {width} by {height}, a strip of {} bytes at {offset} }}", strip.len())
    }
}

/// Whether the bytes start as a TIFF does, in either byte order. A BigTIFF does too.
pub fn is_tiff(file: &[u8]) -> bool {
    !matches!(Tiff::open(file), Err(ArwError::NotTiff))
}

/// Finds the raw image of an .ARW file: the first image in whose strip [`crate::find_streams`] finds
/// tiles. The chain of directories comes first, then the SubIFDs of its members in their order, each
/// with a chain of its own, then theirs. What is missing or odd makes an image none of those; what
/// lies past the end of the file is left out, and told if there is no raw image in the rest.
pub fn find_raw_image(file: &[u8]) -> Result<RawImage<'_>, ArwError> {
    Search::new(Tiff::open(file)?).run()
}
