//! A caller of the original that calls this crate: the original's `decode`, word for word, and what
//! changes around it.

mod support;

// What changes: these two names come from here,
use arw6::{find_streams, DecodedTile};

// the original's `decode_stream` is this one, with the caller's error,
fn decode_stream(stream: &[u8], parallel: bool) -> Result<DecodedTile> {
    Ok(arw6::decode_stream(stream, parallel)?)
}

// and that error can be made of ours.
impl From<arw6::Error> for Error {
    fn from(error: arw6::Error) -> Error {
        corrupt(&error.to_string())
    }
}

/// What the caller has of its own.
#[derive(Debug)]
struct Error(String);

type Result<T> = std::result::Result<T, Error>;

const STREAM_OFFSET: usize = 0x200;
const BIAS: i32 = 2048;

fn corrupt(what: &str) -> Error {
    Error(format!("ARW6: {what}"))
}

fn require(cond: bool, what: &str) -> Result<()> {
    if cond {
        Ok(())
    } else {
        Err(corrupt(what))
    }
}

fn clamp_code(x: i32) -> i32 {
    x.saturating_add(BIAS).clamp(0, 4095) - BIAS
}

/// The original's curve is not the decoder's: here a code is its own sample.
fn sample(x: i32) -> u16 {
    x.saturating_add(BIAS).clamp(0, 4095) as u16
}

/// Plain order in place of threads.
mod par {
    pub fn map<T, U>(items: Vec<T>, _parallel: bool, f: impl Fn(T) -> U) -> Vec<U> {
        items.into_iter().map(f).collect()
    }

    pub fn for_each_row_chunk(
        data: &mut [u16],
        row: usize,
        rows: usize,
        _parallel: bool,
        f: impl Fn(usize, &mut [u16]),
    ) {
        data.chunks_mut(row * rows).enumerate().for_each(|(i, chunk)| f(i * rows, chunk));
    }
}

#[rustfmt::skip]
#[allow(clippy::all)]
mod unchanged {
use super::*;
/// Decode a whole ARW6 strip into `out` (`raw_w x raw_h`, row-major).
pub fn decode(strip: &[u8], out: &mut [u16], raw_w: usize, raw_h: usize, parallel: bool) -> Result<()> {
    require(raw_w > 0 && raw_h > 0 && raw_w % 16 == 0 && raw_h % 2 == 0, "frame size")?;
    require(out.len() >= raw_w * raw_h, "output buffer")?;
    require(strip.len() >= STREAM_OFFSET + 0x80, "strip too short")?;
    let streams = find_streams(strip, raw_w, raw_h);
    require(!streams.is_empty(), "no tile streams")?;
    let tiles: Vec<Result<DecodedTile>> =
        par::map(streams.clone(), parallel, |s| decode_stream(&strip[s.offset..s.offset + s.length], parallel));
    for (s, tile) in streams.iter().zip(tiles) {
        let t = tile?;
        let (half_h, half_w) = (s.height / 2, s.width / 2);
        require(
            t.full_green.rows >= half_h
                && t.full_green.cols == s.width
                && t.red.rows >= half_h
                && t.red.cols == half_w
                && t.blue.rows >= half_h
                && t.blue.cols == half_w,
            "tile plane sizes",
        )?;
        // Each output row pair of the tile is independent.
        let band = &mut out[s.y * raw_w..(s.y + s.height) * raw_w];
        par::for_each_row_chunk(band, 2 * raw_w, 8, parallel, |first, chunk| {
            for (i, pair) in chunk.chunks_mut(2 * raw_w).enumerate() {
                let y = first + i;
                let (r0, r1) = pair.split_at_mut(raw_w);
                let (r0, r1) = (&mut r0[s.x..s.x + s.width], &mut r1[s.x..s.x + s.width]);
                let (fg, red, blue) = (t.full_green.row(y), t.red.row(y), t.blue.row(y));
                for x in 0..half_w {
                    let g0 = clamp_code(fg[2 * x]);
                    let g1 = clamp_code(fg[2 * x + 1]);
                    let gavg = ((g0 as i64 + g1 as i64) >> 1) as i32;
                    r0[2 * x] = sample(gavg.wrapping_add(red[x].wrapping_mul(2)));
                    r0[2 * x + 1] = sample(fg[2 * x + 1]);
                    r1[2 * x] = sample(fg[2 * x]);
                    r1[2 * x + 1] = sample(gavg.wrapping_add(blue[x].wrapping_mul(2)));
                }
            }
        });
    }
    Ok(())
}
}

use unchanged::decode;

/// The function between the lines of `mod unchanged` stands in the original just so.
#[test]
fn decode_is_the_originals() {
    let original = include_str!("../../compare/src/original/sony_arw6.rs");
    let ours = include_str!("caller.rs");
    let function = &original[original.find("/// Decode a whole ARW6 strip").unwrap()..];
    assert!(ours.contains(function.trim_end()));
}

/// The frame of the sample: red, green, green and blue of each quad from the planes.
#[test]
fn the_sample_by_the_originals_decode() {
    let (width, height) = support::FRAME;
    let mut out = vec![0; width * height];
    decode(support::strip(), &mut out, width, height, true).unwrap();
    for (k, left) in [(0, 0), (1, 320)] {
        let tile = arw6::decode_stream(&support::stream(k), false).unwrap();
        for (y, x) in [(0, 0), (7, 31), (100, 80), (239, 159)] {
            let (g0, g1) = (tile.full_green.row(y)[2 * x], tile.full_green.row(y)[2 * x + 1]);
            let mean = (g0 + g1) >> 1;
            let at = |row: usize, column: usize| out[(2 * y + row) * width + left + 2 * x + column];
            let quad = [at(0, 0), at(0, 1), at(1, 0), at(1, 1)];
            let (red, blue) = (mean + 2 * tile.red.row(y)[x], mean + 2 * tile.blue.row(y)[x]);
            assert_eq!(quad, [red, g1, g0, blue].map(sample));
        }
    }
}

#[test]
fn errors_come_as_the_callers() {
    let (width, height) = support::FRAME;
    let mut out = vec![0; width * height];
    let error = decode(&support::spoilt()[8..], &mut out, width, height, false).unwrap_err();
    assert_eq!(error.0, "ARW6: refusal 9: a packet is missing");
}
