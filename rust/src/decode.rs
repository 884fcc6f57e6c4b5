//! The planes of a tile stream.

use crate::{digest, ffi, Error, Lengths, Refusal};
use std::collections::TryReserveError;

/// A 2-D plane of numbers, row after row. In an ordinary frame, where no record has a selector above
/// 4, every number lies strictly between -536,870,912 and 536,870,912, so the sum and the difference
/// of two fit an `i32`.
#[derive(Debug, Clone, Default, PartialEq, Eq)]
pub struct Plane {
    pub rows: usize,
    pub cols: usize,
    pub data: Vec<i32>,
}

impl Plane {
    /// Row `r`, from the left.
    pub fn row(&self, r: usize) -> &[i32] {
        &self.data[r * self.cols..(r + 1) * self.cols]
    }
}

/// Decoded planes of one tile, red and blue with half the columns of green.
#[derive(Debug, Clone, Default, PartialEq, Eq)]
#[non_exhaustive]
pub struct DecodedTile {
    pub full_green: Plane,
    pub red: Plane,
    pub blue: Plane,
    /// Coded width.
    pub width: usize,
    /// Coded height.
    pub height: usize,
    /// Records whose decoding stopped early: the broken and the spent ones together.
    pub stopped: usize,
    /// Records that first met a bit width above 19, which is damage.
    pub broken: usize,
    /// Records that first ran past their bits, as the coder lets them on an evenly lit lining.
    pub spent: usize,
    /// The bits that all records took from their allowances.
    pub bits: u64,
}

/// What a call that was accepted says of the planes it wrote.
#[derive(Debug, Clone, Copy, PartialEq, Eq)]
#[non_exhaustive]
pub struct Decoded {
    /// Coded width; the columns of green.
    pub width: usize,
    /// Coded height.
    pub height: usize,
    /// Rows of each plane.
    pub rows: usize,
    /// Records whose decoding stopped early: the broken and the spent ones together.
    pub stopped: usize,
    /// Records that first met a bit width above 19, which is damage.
    pub broken: usize,
    /// Records that first ran past their bits, as the coder lets them on an evenly lit lining.
    pub spent: usize,
    /// The bits that all records took from their allowances.
    pub bits: u64,
}

/// Decodes one tile stream. `_parallel` is the original's and is ignored: the order is plain.
pub fn decode_stream(stream: &[u8], _parallel: bool) -> Result<DecodedTile, Error> {
    let mut buffers = Buffers::default();
    let Decoded { width, height, rows, stopped, broken, spent, bits } = buffers.decode(stream)?.decoded;
    let plane = |cols: usize, data: Vec<i32>| Plane { rows, cols, data };
    Ok(DecodedTile {
        full_green: plane(width, buffers.green),
        red: plane(width / 2, buffers.red),
        blue: plane(width / 2, buffers.blue),
        width,
        height,
        stopped,
        broken,
        spent,
        bits,
    })
}

/// Decodes one tile stream into slices of at least the stream's [`Lengths`]. An accepted call
/// fills the planes from the start of their slices and leaves the work slice 0 over its length;
/// numbers past the lengths stay. A refused call changes nothing.
pub fn decode_stream_into(
    stream: &[u8],
    green: &mut [i32],
    red: &mut [i32],
    blue: &mut [i32],
    work: &mut [i32],
) -> Result<Decoded, Refusal> {
    let answer = ffi::decode_stream(stream, green, red, blue, work);
    match answer.refusal {
        0 => Ok(Decoded {
            width: answer.width as usize,
            height: answer.height as usize,
            rows: answer.rows as usize,
            stopped: answer.stopped as usize,
            broken: answer.broken as usize,
            spent: answer.spent as usize,
            bits: answer.bits,
        }),
        number => Err(Refusal::new(number)),
    }
}

/// Memory for one tile at a time, which grows to what a tile takes and is used again for the next.
#[derive(Debug, Default)]
pub struct Buffers {
    green: Vec<i32>,
    red: Vec<i32>,
    blue: Vec<i32>,
    work: Vec<i32>,
}

/// The planes of one tile in [`Buffers`], and what was said of them.
#[derive(Debug, Clone, Copy)]
#[non_exhaustive]
pub struct TilePlanes<'a> {
    pub decoded: Decoded,
    pub green: &'a [i32],
    pub red: &'a [i32],
    pub blue: &'a [i32],
}

impl TilePlanes<'_> {
    /// The SHA-256 of the coded size and the three planes, which docs/DIGEST.md defines.
    pub fn digest(&self) -> [u8; 32] {
        digest(self.decoded.width, self.decoded.height, self.green, self.red, self.blue)
    }
}

impl Buffers {
    /// Decodes one tile stream. Memory that cannot be had is an error, and all of it is given back.
    pub fn decode(&mut self, stream: &[u8]) -> Result<TilePlanes<'_>, Error> {
        let lengths = Lengths::of(stream)?;
        if self.grow(&lengths).is_err() {
            *self = Buffers::default();
            let numbers = lengths.green + lengths.red + lengths.blue + lengths.work;
            return Err(Error::Memory { numbers });
        }
        let Buffers { green, red, blue, work } = self;
        let decoded = decode_stream_into(stream, green, red, blue, work)?;
        let (green, red, blue) = (&green[..lengths.green], &red[..lengths.red], &blue[..lengths.blue]);
        Ok(TilePlanes { decoded, green, red, blue })
    }

    /// Makes each buffer at least as long as a tile needs it. What a shorter one held is given back
    /// first, and no memory is written before all of it is there.
    fn grow(&mut self, lengths: &Lengths) -> Result<(), TryReserveError> {
        let needed = [lengths.green, lengths.red, lengths.blue, lengths.work];
        let buffers = [&mut self.green, &mut self.red, &mut self.blue, &mut self.work];
        let mut short: Vec<_> = buffers.into_iter().zip(needed).filter(|(b, n)| b.len() < *n).collect();
        for (buffer, length) in &mut short {
            **buffer = Vec::new();
            buffer.try_reserve_exact(*length)?;
        }
        short.into_iter().for_each(|(buffer, length)| buffer.resize(length, 0));
        Ok(())
    }
}
