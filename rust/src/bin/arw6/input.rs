//! A frame and its tiles, out of a camera's .ARW file, a frame file or a bare strip.

use crate::failure::{Failure, Kind};
use arw6::{find_raw_image, find_streams, is_tiff, Refusal, TileStream};
use std::fs::File;
use std::io::{stdin, Read};
use std::ops::Range;
use std::os::unix::fs::FileTypeExt;
use std::path::Path;

/// Bytes of width and height at the start of a frame file.
const SIZES: usize = 8;

/// Where a strip without a table has its stream, and the least length of a strip.
const STREAM: usize = 512;
const LEAST: usize = 640;

/// A file's bytes, where its strip stands in them, and what the strip holds.
pub struct Frame {
    pub width: usize,
    pub height: usize,
    /// At least one tile.
    pub tiles: Vec<TileStream>,
    bytes: Vec<u8>,
    strip: Range<usize>,
}

impl Frame {
    /// Reads a camera file, a frame file or, if the frame's size is given, a bare strip.
    pub fn read(path: &Path, size: Option<(usize, usize)>) -> Result<Frame, Failure> {
        let bytes = read(path)?;
        let ((width, height), strip) = match size {
            Some(size) => (size, 0..bytes.len()),
            None if is_tiff(&bytes) => raw_image(&bytes)?,
            None => frame_file(&bytes)?,
        };
        let tiles = find_streams(&bytes[strip.clone()], width, height);
        if tiles.is_empty() {
            return Err(no_tile("a truncated copy, or another frame size?"));
        }
        Ok(Frame { width, height, tiles, bytes, strip })
    }

    /// The bytes of a tile.
    pub fn stream(&self, tile: &TileStream) -> &[u8] {
        tile.stream(&self.bytes[self.strip.clone()])
    }
}

fn no_tile(advice: &str) -> Failure {
    Failure::new(Kind::Refused(1), format!("{} ({advice})", Refusal::NO_TILE))
}

/// The bytes of a file, or of standard input; a device may have no end.
pub fn read(path: &Path) -> Result<Vec<u8>, Failure> {
    let unreadable = |text| Err(Failure::new(Kind::Unreadable, text));
    let mut bytes = Vec::new();
    if path.as_os_str() == "-" {
        stdin().lock().read_to_end(&mut bytes).map_err(Failure::reading)?;
    } else {
        let mut file = File::open(path).map_err(Failure::reading)?;
        let kind = file.metadata().map_err(Failure::reading)?.file_type();
        if kind.is_char_device() || kind.is_block_device() {
            return unreadable("is a device");
        }
        file.read_to_end(&mut bytes).map_err(Failure::reading)?;
    }
    if bytes.is_empty() {
        return unreadable("the file is empty (a truncated copy?)");
    }
    Ok(bytes)
}

/// The size and the strip of the raw image of a camera file.
fn raw_image(bytes: &[u8]) -> Result<((usize, usize), Range<usize>), Failure> {
    match find_raw_image(bytes) {
        Ok(image) => Ok(((image.width, image.height), image.offset..image.offset + image.strip.len())),
        Err(error) => Err(no_tile(&error.to_string())),
    }
}

/// The size and the strip of a frame file: one with a table's count at its start, or with a header
/// where a strip without a table has it.
fn frame_file(bytes: &[u8]) -> Result<((usize, usize), Range<usize>), Failure> {
    let word = |at: usize| u32::from_le_bytes([bytes[at], bytes[at + 1], bytes[at + 2], bytes[at + 3]]);
    let marked = |stream: &[u8]| stream.starts_with(b"A000") || stream.starts_with(b"0000");
    if bytes.len() < SIZES + LEAST || !(matches!(word(SIZES), 1..=16) || marked(&bytes[SIZES + STREAM..])) {
        return Err(Failure::new(Kind::Unreadable, "not an ARW file, nor a frame file"));
    }
    Ok(((word(0) as usize, word(4) as usize), SIZES..bytes.len()))
}
