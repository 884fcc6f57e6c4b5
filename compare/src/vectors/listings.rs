//! Inputs of the program `tiles`, and what it prints of the tiles that the original finds.

use super::{size, Vectors};
use crate::oracle;
use crate::rng::Rng;
use crate::strips::{edge_strips, put_header, put_words, ENTRY, TABLE};

const LONGEST: usize = 65_536;

pub fn listings(out: &mut Vectors, _: &mut Rng) {
    for input in [none(), vec![0; 7], long(), table(), fallback(), steps()] {
        let text = response(&input);
        out.case(&[input.len(), text.len()]);
        out.bytes(&input);
        out.bytes(text.as_bytes());
    }
}

/// What document 01 has the program print for an input.
pub fn response(input: &[u8]) -> String {
    if input.len() > LONGEST {
        return "too long\n".into();
    }
    if input.len() < 8 {
        return "too short\n".into();
    }
    let side = |at: usize| u32::from_le_bytes(input[at..at + 4].try_into().unwrap()) as usize;
    let tiles = oracle::tiles(&input[8..], (side(0), side(4)));
    let line = |tile: &[usize; 6]| tile.map(|n| n.to_string()).join(" ") + "\n";
    format!("tiles {}\n{}", tiles.len(), tiles.iter().map(line).collect::<String>())
}

pub fn framed(width: u32, height: u32, strip: &[u8]) -> Vec<u8> {
    let mut input = vec![0; 8];
    put_words(&mut input, 0, &[width, height]);
    input.extend(strip);
    input
}

/// A stream header of a coded size with so many bytes of payload.
fn put(strip: &mut Vec<u8>, at: usize, magic: &[u8; 4], sides: (usize, usize), payload: usize) {
    put_header(strip, at, size(sides.0, sides.1), payload / 16);
    strip[at..at + 4].copy_from_slice(magic);
}

/// The table: start, x, y, width, height of each entry; the second word is unused.
fn put_table(strip: &mut [u8], entries: &[[u32; 5]]) {
    put_words(strip, 0, &[entries.len() as u32]);
    for (i, &[start, x, y, width, height]) in entries.iter().enumerate() {
        put_words(strip, TABLE + ENTRY * i, &[start, 77, x, y, width, height]);
    }
}

/// Document 01's example in another frame.
fn none() -> Vec<u8> {
    framed(16, 32, &edge_strips()[0].bytes)
}

/// The example in its frame, with a byte too many after it.
fn long() -> Vec<u8> {
    let mut input = framed(16, 16, &edge_strips()[0].bytes);
    input.resize(LONGEST + 1, 0);
    input
}

/// Three entries: 0 for 512 and for the header's sides, the sides written out, the last tile at the
/// frame's corner.
fn table() -> Vec<u8> {
    let mut strip = vec![0; 2048];
    put(&mut strip, 512, b"0000", (32, 16), 64);
    put(&mut strip, 1024, b"A000", (16, 32), 32);
    put(&mut strip, 1536, b"0000", (32, 16), 384);
    put_table(&mut strip, &[[0, 0, 0, 0, 0], [1024, 48, 0, 16, 32], [1536, 32, 32, 0, 16]]);
    framed(64, 48, &strip)
}

/// The second of three entries has no stream, so the first and the third count no more; the input
/// has all the bytes that it may have.
fn fallback() -> Vec<u8> {
    let mut strip = vec![0; LONGEST - 8];
    put(&mut strip, 512, b"0000", (64, 32), 4096);
    put(&mut strip, 16_384, b"0000", (32, 32), 16);
    put_table(&mut strip, &[[512, 0, 0, 64, 32], [8192, 0, 0, 0, 0], [16_384, 32, 0, 0, 0]]);
    framed(64, 32, &strip)
}

/// Candidates before the one that is taken: no payload, another width, a payload past the strip's
/// end, outside the frame.
fn steps() -> Vec<u8> {
    let mut strip = vec![0; 4096];
    put(&mut strip, 608, b"0000", (16, 16), 0);
    put(&mut strip, 640, b"0000", (32, 16), 16);
    put(&mut strip, 672, b"0000", (16, 16), 4096);
    put(&mut strip, 704, b"0000", (16, 64), 16);
    put(&mut strip, 736, b"0000", (16, 32), 16);
    put_table(&mut strip, &[[576, 16, 8, 16, 0]]);
    framed(32, 40, &strip)
}
