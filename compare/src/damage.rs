//! Draws trials: whole streams, streams with faults, and slices lent longer or shorter than needed.

use crate::bits::overwrite;
use crate::faults::{directory_alone, empty_stream, faults, one_packet, Change, Trial};
use crate::oracle::header_size;
use crate::packets::record_at;
use crate::records::Recipe;
use crate::rng::Rng;
use crate::size::Size;
use crate::streams::{assemble, draw_packet, draw_parts, draw_size, draw_stream, Stream, TILE_PACKETS};

/// Most numbers that are lent in all four slices together.
const MOST_LENT: usize = 4_500_000;

/// A random trial of a whole stream.
pub fn draw_whole(rng: &mut Rng) -> Trial {
    let stream = draw_stream(rng).bytes;
    let lent = draw_lengths(rng, &stream);
    Trial { stream, lent }
}

/// A random trial of a damaged stream.
pub fn draw_damaged(rng: &mut Rng) -> Trial {
    let mut changes = Vec::new();
    let mut bytes = match rng.below(12) {
        0 => draw_directory_alone(rng),
        1 => draw_one_packet(rng),
        2 => draw_wrong_kind(rng).bytes,
        3 => draw_wrong_count(rng).bytes,
        4 | 5 => draw_byte_damage(rng),
        6 if rng.one_in(4) => draw_tall(rng),
        _ => {
            let stream = if rng.one_in(4) { draw_empty(rng) } else { draw_stream(rng) };
            for _ in 0..rng.pick(&[1, 1, 1, 2, 3]) {
                changes.extend(draw_fault(rng, &stream));
            }
            stream.bytes
        }
    };
    if rng.one_in(12) {
        let length = rng.below(bytes.len() + 1);
        bytes.truncate(length);
    }
    Trial::new(bytes, &changes, |stream| draw_lengths(rng, stream))
}

/// The changes of a random fault, or of its near value.
fn draw_fault(rng: &mut Rng, stream: &Stream) -> Vec<Change> {
    let (group, index) = draw_place(rng);
    let all = faults(stream, group, index);
    let mut numbers: Vec<u64> = all.iter().map(|f| f.number).collect();
    numbers.sort();
    numbers.dedup();
    let number = rng.pick(&numbers);
    let alike: Vec<_> = all.iter().filter(|f| f.number == number).collect();
    let fault = rng.pick(&alike);
    if rng.one_in(5) {
        fault.near.clone()
    } else {
        fault.bad.clone()
    }
}

/// A packet of the tile, the first more often than others.
fn draw_place(rng: &mut Rng) -> (usize, usize) {
    let group = if rng.one_in(3) { 0 } else { rng.below(5) };
    (group, rng.below(TILE_PACKETS[group]))
}

/// A stream with byte length 0 in all records, so that zeros follow the record headers.
fn draw_empty(rng: &mut Rng) -> Stream {
    let size = draw_size(rng);
    empty_stream(size, size.n() + 1)
}

fn draw_directory_alone(rng: &mut Rng) -> Vec<u8> {
    let counts = std::array::from_fn(|_| rng.pick(&[1, 3, 3, 5, 5, 9]));
    let length = rng.within(128, 210);
    directory_alone(draw_size(rng), counts, length)
}

fn draw_one_packet(rng: &mut Rng) -> Vec<u8> {
    let size = Size { width: 16, half: rng.within(60, 600) };
    let trailing = rng.below(200);
    one_packet(size, trailing).bytes
}

/// A narrow stream whose header says a height above 32,767.
fn draw_tall(rng: &mut Rng) -> Vec<u8> {
    let size = Size { width: 16, half: rng.within(16_384, 65_535) };
    empty_stream(size, 2).bytes
}

/// A stream in which one packet has the other kind, with record headers and rows to match.
fn draw_wrong_kind(rng: &mut Rng) -> Stream {
    let (size, recipe) = (draw_size(rng), Recipe::draw(rng));
    let mut parts = draw_parts(rng, size, &recipe);
    let (group, index) = draw_place(rng);
    let mut shape = size.shape(group);
    shape.kind = 4 - shape.kind;
    parts.groups[group][index] = draw_packet(rng, shape, &recipe, size.n() + 1);
    assemble(&parts)
}

/// A stream in which one packet has a number of records that is close to the right one.
fn draw_wrong_count(rng: &mut Rng) -> Stream {
    let (size, recipe) = (draw_size(rng), Recipe::draw(rng));
    let mut parts = draw_parts(rng, size, &recipe);
    let (group, index) = draw_place(rng);
    let count = (size.n() + rng.below(5)).saturating_sub(1).max(1);
    parts.groups[group][index] = draw_packet(rng, size.shape(group), &recipe, count);
    assemble(&parts)
}

/// A stream with random bytes changed, in its head, in a packet's head or anywhere, or with a
/// record header overwritten.
fn draw_byte_damage(rng: &mut Rng) -> Vec<u8> {
    let mut stream = draw_stream(rng);
    let (group, index) = draw_place(rng);
    let (start, length) = stream.packets[group][index];
    if rng.one_in(3) {
        let kind = stream.size.shape(group).kind;
        let at = record_at(kind, rng.below(stream.size.n() + 1));
        let value = rng.pick(&[0, 1, 15, 16, 17, 255, 65_535]);
        overwrite(&mut stream.bytes[start..start + length], at, 16, value);
        return stream.bytes;
    }
    let (from, to) = match rng.below(3) {
        0 => (0, 128),
        1 => (start, start + length.min(40)),
        _ => (0, stream.bytes.len()),
    };
    for _ in 0..rng.within(1, 4) {
        let at = rng.within(from, to - 1);
        stream.bytes[at] ^= 1 << rng.below(8);
    }
    stream.bytes
}

/// Lengths of lent slices: enough and some more, or one or two too short.
fn draw_lengths(rng: &mut Rng, stream: &[u8]) -> [usize; 4] {
    let fitting = |s: &Size| !s.too_large() && s.needed().iter().sum::<usize>() <= MOST_LENT;
    let Some(size) = header_size(stream).filter(fitting) else {
        return std::array::from_fn(|_| rng.below(100));
    };
    let mut lent = size.needed().map(|needed| needed + rng.pick(&[0, 0, 1, 7, 33]));
    if rng.one_in(25) {
        for _ in 0..rng.within(1, 2) {
            let slice = rng.below(4);
            let needed = size.needed()[slice];
            lent[slice] = rng.pick(&[needed - 1, needed / 2, 0]);
        }
    }
    lent
}
