//! The stream of a tile from its planes.

use crate::recovery::{self, Fault};
use crate::{ffi, Error, Lengths, Refusal};
use std::collections::TryReserveError;

/// Writes the stream of one tile of a coded size from its planes, green, red and blue, row after row.
/// Decoded, it gives exactly these planes. Longer slices are fine; numbers past the tile's
/// [`Lengths::of_size`] are not read.
///
/// The work slice and room for the longest stream that any planes of that size have, about as much
/// memory as the planes take, are had for the time of the call, so that no call is made twice.
pub fn write_stream(
    green: &[i32],
    red: &[i32],
    blue: &[i32],
    width: usize,
    height: usize,
) -> Result<Vec<u8>, Error> {
    let lengths = Lengths::of_size(width, height)?;
    let longest = longest_stream(&lengths);
    let numbers = lengths.work + longest.div_ceil(4);
    let (mut work, mut stream) = (Vec::new(), Vec::new());
    let room = reserve(&mut work, lengths.work).and_then(|()| reserve(&mut stream, longest));
    room.map_err(|_| Error::Memory { numbers })?;
    let length = write_stream_into(green, red, blue, width, height, &mut work, &mut stream)?;
    stream.truncate(length);
    stream.shrink_to_fit();
    Ok(stream)
}

/// So many elements, all of them 0.
pub(crate) fn reserve<T: Copy + Default>(slice: &mut Vec<T>, length: usize) -> Result<(), TryReserveError> {
    slice.try_reserve_exact(length)?;
    slice.resize(length, T::default());
    Ok(())
}

/// Writes the stream of one tile into a slice, and gives its length. The work slice has at least the
/// numbers that [`Lengths::of_size`] says. An accepted call leaves bytes past the stream and numbers
/// past that length as they were, and the work slice 0 over that length. A refused call changes no byte
/// of the stream; the work slice is 0 over that length after 25, 26 and a 4 that comes of the stream,
/// and as it was after any other refusal.
pub fn write_stream_into(
    green: &[i32],
    red: &[i32],
    blue: &[i32],
    width: usize,
    height: usize,
    work: &mut [i32],
    stream: &mut [u8],
) -> Result<usize, Refusal> {
    let answer = ffi::write_stream([green, red, blue], (width, height), work, stream);
    match answer.refusal {
        0 => Ok(answer.length as usize),
        number => Err(Refusal::new(number)),
    }
}

/// As many bytes as any stream of a size has, or more. A row opens with 21 bits at most, and four columns
/// take 100 at most: magnitudes of 19, signs, and an update of 20. Record k of all 13 packets has 74 rows
/// and 16 w columns, which are 4 w + 18 groups of four at most, thus 50 w + 420 bytes, with what fills the
/// last bytes and the record headers 50 w + 474. Each packet has a header, and is filled up twice.
pub fn longest_stream(lengths: &Lengths) -> usize {
    (lengths.height.div_ceil(16) + 1) * (50 * lengths.width + 480) + 768
}

/// The first number of the planes that refusal 25 is about, if there is one: what a caller shows to
/// whoever drew them. None also for planes that are refused before 25.
pub fn find_fault(green: &[i32], red: &[i32], blue: &[i32], width: usize, height: usize) -> Option<Fault> {
    let lengths = Lengths::of_size(width, height).ok()?;
    let short = [(green, lengths.green), (red, lengths.red), (blue, lengths.blue)];
    if short.iter().any(|(plane, length)| plane.len() < *length) || !(16..=32_767).contains(&height) {
        return None;
    }
    recovery::recover([green, red, blue], (width, height), |_, _| {})
}
