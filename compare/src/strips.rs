//! Draws strips: tables of tiles, headers some steps after their start, and the stream at 512.

use crate::rng::Rng;
use crate::size::Size;
use crate::streams::{header, put24};

pub const TABLE: usize = 8;
pub const ENTRY: usize = 24;
const STREAM: usize = 512;

/// A strip and the width and height of the frame.
#[derive(Debug, Clone, PartialEq, Eq)]
pub struct Strip {
    pub bytes: Vec<u8>,
    pub frame: (usize, usize),
}

/// A stream's header with `units` units of payload, put into the strip; the strip grows for it.
pub fn put_header(strip: &mut Vec<u8>, at: usize, size: Size, units: usize) {
    let mut head = header(size);
    put24(&mut head, 16, units);
    if strip.len() < at + head.len() {
        strip.resize(at + head.len(), 0);
    }
    strip[at..at + head.len()].copy_from_slice(&head);
}

/// Little-endian words from a byte on.
pub fn put_words(strip: &mut [u8], at: usize, words: &[u32]) {
    for (i, word) in words.iter().enumerate() {
        strip[at + 4 * i..at + 4 * i + 4].copy_from_slice(&word.to_le_bytes());
    }
}

/// One entry of the table, and the place and payload of its header.
struct Entry {
    words: [u32; 6],
    at: usize,
    size: Size,
    units: usize,
}

/// An entry whose tile is found, starting no earlier than `free`.
fn draw_entry(rng: &mut Rng, frame: (usize, usize), free: usize) -> Entry {
    let size = draw_tile(rng, frame);
    let start = free + rng.pick(&[0, 0, 0, 1, 5, 16]);
    let steps = rng.pick(&[0, 0, 0, 1, 2, 5]);
    let (x, y) = (frame.0 - size.width, frame.1 - size.height());
    let named = |rng: &mut Rng, side: usize| if rng.one_in(2) { 0 } else { side as u32 };
    let words = [
        if start == STREAM && rng.one_in(2) { 0 } else { start as u32 },
        rng.word() as u32,
        rng.pick(&[0, x / 2, x]) as u32,
        rng.pick(&[0, y / 2, y]) as u32,
        named(rng, size.width),
        named(rng, size.height()),
    ];
    Entry { words, at: start + 16 * steps, size, units: rng.within(1, 3) }
}

fn draw_tile(rng: &mut Rng, frame: (usize, usize)) -> Size {
    let width = 16 * rng.within(1, (frame.0 / 16).min(4095));
    Size { width, half: rng.within(1, (frame.1 / 2).min(65_535)) }
}

/// Spoils an entry, so that it is likely to fail.
fn spoil(rng: &mut Rng, entry: &mut Entry, frame: (usize, usize)) {
    match rng.below(9) {
        0 => entry.units = 0,
        1 => entry.units = rng.pick(&[1000, 0xff_ffff]),
        2 => entry.words[0] = rng.pick(&[1, 100, 1 << 20, u32::MAX]),
        3 => entry.words[2] = (frame.0 - entry.size.width) as u32 + 1,
        4 => entry.words[3] = (frame.1 - entry.size.height()) as u32 + 1,
        5 => entry.words[4] = rng.pick(&[1, 16, 32, u32::MAX]),
        6 => entry.words[5] = rng.pick(&[1, 2, 16, u32::MAX]),
        7 => entry.at += rng.pick(&[1, 8, 4096, 4112]),
        _ => entry.words[2] = u32::MAX,
    }
}

/// A strip whose table has `count` entries, one of them spoilt if so asked.
fn draw_table(rng: &mut Rng, frame: (usize, usize), count: usize, spoilt: bool) -> Vec<u8> {
    let mut strip = vec![0; 640];
    let spoilt = if spoilt { rng.below(count.max(1)) } else { usize::MAX };
    let mut free = STREAM;
    put_words(&mut strip, 0, &[count as u32]);
    for i in 0..count {
        let mut entry = draw_entry(rng, frame, free);
        if i == spoilt {
            spoil(rng, &mut entry, frame);
        }
        if i < 16 {
            put_words(&mut strip, TABLE + ENTRY * i, &entry.words);
        }
        if rng.one_in(6) && entry.at >= free + 16 {
            put_decoy(rng, &mut strip, entry.at - 16, frame);
        }
        put_header(&mut strip, entry.at, entry.size, entry.units);
        free = entry.at + 128 + 16 * entry.units.min(4);
    }
    strip.resize(strip.len().max(free), 0);
    strip
}

/// A valid header that may fail as a candidate.
fn put_decoy(rng: &mut Rng, strip: &mut Vec<u8>, at: usize, frame: (usize, usize)) {
    let size = draw_tile(rng, frame);
    put_header(strip, at, size, rng.pick(&[0, 1, 100_000]));
}

/// A header at offset 512 whose size is the frame's or nearly so.
fn put_frame_stream(rng: &mut Rng, strip: &mut Vec<u8>, frame: (usize, usize)) {
    let mut size = Size { width: frame.0, half: frame.1 / 2 };
    match rng.below(8) {
        0 => size.width += 16,
        1 => size.half += 1,
        _ => {}
    }
    let units = rng.pick(&[0, 0, 1, 2, 5000]);
    put_header(strip, STREAM, size, units);
    if rng.one_in(2) {
        strip.resize(strip.len().max(STREAM + 128 + 16 * units.min(3)), 0);
    }
}

fn draw_sides(rng: &mut Rng) -> (usize, usize) {
    (16 * rng.within(1, 20), 2 * rng.within(1, 100))
}

/// A strip with a table of `count` entries, one of them spoilt if so asked, and nothing else amiss.
pub fn draw_table_strip(rng: &mut Rng, count: usize, spoilt: bool) -> Strip {
    let frame = draw_sides(rng);
    Strip { bytes: draw_table(rng, frame, count, spoilt), frame }
}

/// A strip with a table that fails in one entry, and at offset 512 a stream of the frame's size.
pub fn draw_fallback_strip(rng: &mut Rng, count: usize) -> Strip {
    let Strip { mut bytes, frame } = draw_table_strip(rng, count, false);
    let size = Size { width: frame.0, half: frame.1 / 2 };
    put_header(&mut bytes, STREAM, size, rng.below(2));
    let failing = rng.below(count.min(16));
    put_words(&mut bytes, TABLE + ENTRY * failing, &[u32::MAX]);
    Strip { bytes, frame }
}

/// A random strip.
pub fn draw_strip(rng: &mut Rng) -> Strip {
    let count = rng.pick(&[0, 1, 1, 2, 3, 4, 8, 15, 16, 17]);
    let spoilt = rng.one_in(2);
    let Strip { mut bytes, frame } = draw_table_strip(rng, count, spoilt);
    if rng.one_in(if spoilt { 2 } else { 10 }) {
        put_frame_stream(rng, &mut bytes, frame);
    }
    draw_end(rng, &mut bytes);
    if rng.one_in(10) {
        flip(rng, &mut bytes);
    }
    Strip { bytes, frame: draw_frame(rng, frame) }
}

/// The strip's end: as it is, cut short, or with some more bytes.
fn draw_end(rng: &mut Rng, bytes: &mut Vec<u8>) {
    match rng.below(10) {
        0 => {
            let length = rng.below(bytes.len() + 1);
            bytes.truncate(length);
        }
        1 => bytes.truncate(bytes.len() - rng.within(1, 20)),
        2 => bytes.truncate(rng.pick(&[639, 640, 641])),
        3 => bytes.resize(bytes.len() + rng.within(1, 300), 0),
        _ => {}
    }
}

fn flip(rng: &mut Rng, bytes: &mut [u8]) {
    for _ in 0..bytes.len().min(3) {
        let at = if rng.one_in(2) { rng.below(bytes.len().min(408)) } else { rng.below(bytes.len()) };
        bytes[at] ^= 1 << rng.below(8);
    }
}

/// Mostly the frame that the tiles were drawn for.
fn draw_frame(rng: &mut Rng, frame: (usize, usize)) -> (usize, usize) {
    match rng.below(24) {
        0 => (0, frame.1),
        1 => (frame.0, 0),
        2 => (frame.0 - 1, frame.1),
        3 => (frame.0, frame.1 - 1),
        4 => (usize::MAX, usize::MAX),
        _ => frame,
    }
}

/// A strip of one table entry with its header `steps` candidates after the start at 512.
fn stepped(steps: usize) -> Strip {
    let mut bytes = vec![0; 640];
    put_words(&mut bytes, 0, &[1, 0, 0, 0, 0, 0, 0, 0]);
    let at = STREAM + 16 * steps;
    put_header(&mut bytes, at, Size { width: 16, half: 8 }, 1);
    bytes.resize(at + 128 + 16, 0);
    Strip { bytes, frame: (32, 32) }
}

/// Strips at the edges of the rules: document 01's example, the same one byte short, the last
/// candidate and the one after it, a payload of 0 in the table, and a start at the strip's end.
pub fn edge_strips() -> Vec<Strip> {
    let mut example = Strip { bytes: vec![0; 640], frame: (16, 16) };
    put_header(&mut example.bytes, STREAM, Size { width: 16, half: 8 }, 0);
    example.bytes[STREAM] = b'0';
    let short = Strip { bytes: example.bytes[..639].to_vec(), ..example.clone() };
    let mut no_payload = example.clone();
    put_words(&mut no_payload.bytes, 0, &[1]);
    let mut other_frame = no_payload.clone();
    other_frame.frame = (32, 16);
    let mut late = stepped(0);
    let end = late.bytes.len() - 128;
    put_words(&mut late.bytes, TABLE, &[end as u32]);
    let mut later = stepped(0);
    put_words(&mut later.bytes, TABLE, &[end as u32 + 1]);
    vec![
        example,
        short,
        no_payload,
        other_frame,
        stepped(0),
        stepped(1),
        stepped(256),
        stepped(257),
        late,
        later,
    ]
}
