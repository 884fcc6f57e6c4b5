//! The tiles of a strip.

use crate::ffi;

/// A tile stream inside the strip.
#[derive(Debug, Clone, Copy, PartialEq, Eq)]
#[non_exhaustive]
pub struct TileStream {
    pub offset: usize,
    pub length: usize,
    pub x: usize,
    pub y: usize,
    pub width: usize,
    pub height: usize,
}

impl TileStream {
    /// The tile's bytes in the strip that it was located in.
    pub fn stream<'a>(&self, strip: &'a [u8]) -> &'a [u8] {
        &strip[self.offset..self.offset + self.length]
    }
}

/// Locates the tile streams of a strip that covers a frame of `full_w` by `full_h`. An empty list
/// is refusal 1.
pub fn find_streams(strip: &[u8], full_w: usize, full_h: usize) -> Vec<TileStream> {
    let frame = (full_w, full_h);
    let field = |ordinal: usize, field: usize| ffi::tile_field(strip, frame, ordinal, field);
    let tile = |ordinal: usize| TileStream {
        offset: field(ordinal, 0),
        length: field(ordinal, 1),
        x: field(ordinal, 2),
        y: field(ordinal, 3),
        width: field(ordinal, 4),
        height: field(ordinal, 5),
    };
    (0..ffi::tile_count(strip, frame)).map(tile).collect()
}
