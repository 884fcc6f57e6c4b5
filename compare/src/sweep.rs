//! The command `sweep`: small streams and strips with every value of every byte in their heads,
//! cut at every length, and every 16 bits at the start and at the end of a record's payload, rows with
//! longer zero runs among them.

use crate::bits::BitWriter;
use crate::check::Case;
use crate::encoder::{least_width, write_row, Group};
use crate::faults::Trial;
use crate::oracle::header_size;
use crate::packets::{packet, Record, Room, UNIT};
use crate::records::{draw_value, Recipe};
use crate::rng::Rng;
use crate::size::{Shape, Size};
use crate::streams::{assemble, draw_parts, Parts};
use crate::strips::{draw_table_strip, edge_strips, Strip};

/// Most numbers lent in the work slice; a larger stream meets slices that are too short.
const MOST_WORK: usize = 20_000;

/// All cases, in a fixed order.
pub fn cases() -> impl Iterator<Item = Case> {
    let streams = [(16, 16), (16, 26)].map(|(width, height)| small_parts(width, height));
    let heads = streams.clone().into_iter().flat_map(|parts| stream_heads(assemble(&parts).bytes));
    let ends = streams.clone().into_iter().flat_map(|parts| stream_ends(assemble(&parts).bytes));
    let narrow = streams.into_iter().flat_map(|parts| payloads(parts, narrow_rests()));
    let wide = small_parts(48, 16);
    let rests = [(whole_rows(wide.size.shape(4)), 14, 0)];
    let payloads = narrow.chain(payloads(wide, rests));
    heads.chain(ends).chain(payloads).chain(small_strips().into_iter().flat_map(strip_cases))
}

fn small_parts(width: usize, height: usize) -> Parts {
    let size = Size { width, half: height / 2 };
    draw_parts(&mut Rng::new(1), size, &Recipe::ordinary(2.0, [0, 3]))
}

fn stream_case(stream: Vec<u8>) -> Case {
    Case::Stream(Trial::new(stream, &[], |stream| {
        let fitting = header_size(stream).filter(|size| size.needed()[3] <= MOST_WORK);
        fitting.map_or([99; 4], |size| size.needed().map(|needed| needed + 3))
    }))
}

/// The bytes with each value at each of the places.
fn every_value(bytes: Vec<u8>, places: impl Iterator<Item = usize>) -> impl Iterator<Item = Vec<u8>> {
    let changed = move |at: usize, value: u8| {
        let mut changed = bytes.clone();
        changed[at] = value;
        changed
    };
    places.flat_map(|at| (0..=255).map(move |value| (at, value))).map(move |(at, value)| changed(at, value))
}

/// Header, directory and the headers of the first packet.
fn stream_heads(stream: Vec<u8>) -> impl Iterator<Item = Case> {
    every_value(stream, 0..160).map(stream_case)
}

fn stream_ends(stream: Vec<u8>) -> impl Iterator<Item = Case> {
    (0..=stream.len()).map(move |length| stream_case(stream[..length].to_vec()))
}

/// A payload of one unit, the place of two bytes in it that take every value, and a selector.
type Rest = ([u8; UNIT], usize, u32);

/// Every opening of a record, over zeros and over other bits, and every ending, before signs and
/// without, each with a selector and without.
fn narrow_rests() -> [Rest; 4] {
    [([0x00; UNIT], 0, 0), ([0xb6; UNIT], 0, 1), (unended(0), 14, 0), (unended(1), 14, 1)]
}

/// The first record of group 4 with all these payloads.
fn payloads<const N: usize>(parts: Parts, rests: [Rest; N]) -> impl Iterator<Item = Case> {
    let all = rests.into_iter().flat_map(|rest| (0..=u16::MAX).map(move |bits| (rest, bits)));
    all.map(move |((rest, at, selector), bits)| {
        let mut payload = rest.to_vec();
        payload[at..at + 2].copy_from_slice(&bits.to_be_bytes());
        let mut records = vec![Record::default(); parts.size.n() + 1];
        records[0] = Record { selectors: [selector, 0, 0], payload };
        let mut parts = parts.clone();
        parts.groups[4][0] = packet(1, &records, Room::default());
        stream_case(assemble(&parts).bytes)
    })
}

/// A payload of 112 bits for rows of eight columns: a row of zeros under a width of 3, then four
/// values under a width of 16, before its update. Six rows are left.
fn unended(value: u32) -> [u8; UNIT] {
    let mut bits = BitWriter::default();
    write_row(&mut bits, &[Group::default(); 2], &[3, 3], 0);
    bits.put(0b10, 2);
    bits.unary(16);
    (0..4).for_each(|_| bits.put(value, 16));
    assert_eq!(bits.written(), 112);
    let mut payload = bits.finish();
    payload.resize(UNIT, 0);
    payload.try_into().expect("one unit")
}

/// A payload of 112 bits that ends with a row and has three rows left or more, so that zero runs of
/// all lengths and the bits after them meet the end of the allowance.
fn whole_rows(shape: Shape) -> [u8; UNIT] {
    let drawn = |seed| {
        let (mut rng, mut bits) = (Rng::new(seed), BitWriter::default());
        for _ in 0..shape.rows() - 3 {
            let groups: Vec<Group> =
                (0..shape.groups()).map(|_| std::array::from_fn(|_| draw_value(&mut rng, 0.5))).collect();
            let widths: Vec<u32> = groups.iter().map(least_width).collect();
            write_row(&mut bits, &groups, &widths, 0);
            if bits.written() == 112 {
                let mut payload = bits.finish();
                payload.resize(UNIT, 0);
                return payload.try_into().ok();
            }
        }
        None
    };
    (1..).find_map(drawn).expect("such rows")
}

/// Document 01's example, one with a table entry for the same place, and a table of three.
fn small_strips() -> [Strip; 3] {
    let mut edges = edge_strips();
    [edges.swap_remove(0), edges.swap_remove(4), draw_table_strip(&mut Rng::new(1), 3, false)]
}

/// Every value in the table's start and in the header at 512, and every length.
fn strip_cases(strip: Strip) -> impl Iterator<Item = Case> {
    let frame = strip.frame;
    let lengths: Vec<Vec<u8>> = (0..=strip.bytes.len()).map(|n| strip.bytes[..n].to_vec()).collect();
    let changed = every_value(strip.bytes, (0..32).chain(512..544));
    changed.chain(lengths).map(move |bytes| Case::Strip(Strip { bytes, frame }))
}
