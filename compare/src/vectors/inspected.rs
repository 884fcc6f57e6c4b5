//! Single records of streams, with the original's answers.

use super::{size, Vectors};
use crate::faults::{directory_alone, empty_stream, faults, one_packet, Change, Trial};
use crate::inspected::{expected, Query};
use crate::oracle::{self, ORDER};
use crate::packets::{packet, Record, Room};
use crate::records::{draw_styled, Recipe, Style};
use crate::rng::Rng;
use crate::size::{Shape, Size};
use crate::streams::{assemble, Parts, TILE_PACKETS};

/// Most bytes of a stream and numbers of a band.
pub const MOST_BYTES: usize = 8000;
pub const MOST_BAND: usize = 1024;

pub fn inspected(out: &mut Vectors, rng: &mut Rng) {
    for (at, &(group, index)) in ORDER.iter().enumerate() {
        put_kinds(out, rng, at, group, index);
    }
    put_ends(out, rng);
    put_largest(out, rng);
    put_bands(out, rng);
    put_missing(out, rng);
    put_absent(out, rng);
    put_refused(out);
}

fn put(out: &mut Vectors, stream: &[u8], query: Query) {
    assert!(stream.len() <= MOST_BYTES && query.band <= MOST_BAND, "{} {query:?}", stream.len());
    let (answer, numbers) = expected(&oracle::tile_packets(stream), query);
    let [refusal, bytes, allowance, bits, broken, spent] =
        [answer.refusal, answer.bytes, answer.allowance, answer.bits, answer.broken, answer.spent]
            .map(|field| field as usize);
    let Query { packet, record, band } = query;
    let written = numbers.len();
    out.case(&[stream.len(), packet, record, band, refusal, bytes, allowance, bits, broken, spent, written]);
    out.bytes(stream);
    out.numbers(&numbers);
}

/// Widths at which a record of the group can run out, and few numbers more.
fn width_of(rng: &mut Rng, group: usize) -> usize {
    rng.pick(&[[112, 128], [48, 80], [48, 64], [16, 32], [16, 48]][group])
}

fn numbers_of(rng: &mut Rng, shape: Shape, style: Style) -> Record {
    let mean = rng.pick(if style == Style::Spent { &[1e5, 3e4] } else { &[0.3, 30.0] });
    let recipe = Recipe { loose: true, ..Recipe::ordinary(mean, [0, rng.pick(&[0, 4, 15])]) };
    draw_styled(rng, shape, &recipe, style)
}

/// A stream of empty records, but for those of one packet, which are of a style, and now and then one
/// of another packet; `fewer` records than expected in that packet.
fn stream_with(rng: &mut Rng, size: Size, at: (usize, usize), style: Style, fewer: usize) -> Vec<u8> {
    let mut parts = Parts { size, groups: Default::default(), spare: [0; 5], trailing: Vec::new() };
    for (group, &packets) in TILE_PACKETS.iter().enumerate() {
        let shape = size.shape(group);
        for index in 0..packets {
            let asked = (group, index) == at;
            let one = |rng: &mut Rng| match () {
                _ if asked => numbers_of(rng, shape, style),
                _ if rng.one_in(12) => numbers_of(rng, shape, Style::Cut),
                _ => Record::default(),
            };
            let count = size.n() + 1 - if asked { fewer } else { 0 };
            let records: Vec<Record> = (0..count).map(|_| one(rng)).collect();
            parts.groups[group].push(packet(shape.kind, &records, Room::default()));
        }
    }
    assemble(&parts).bytes
}

/// A whole, a broken, a spent and an empty record of a packet, and one that ends anyhow.
fn put_kinds(out: &mut Vectors, rng: &mut Rng, packet: usize, group: usize, index: usize) {
    for style in [Style::Coded, Style::Wide, Style::Spent, Style::Empty, Style::Noise] {
        let size = size(width_of(rng, group), rng.pick(&[16, 18, 32, 34]));
        let stream = stream_with(rng, size, (group, index), style, 0);
        let band = size.shape(group).numbers() + rng.pick(&[0, 0, 1, 5]);
        put(out, &stream, Query { packet, record: rng.below(size.n() + 1), band });
    }
}

/// Records at the end of their allowance, in groups 1 to 4.
fn put_ends(out: &mut Vectors, rng: &mut Rng) {
    for packet in [1, 6, 11, 12] {
        for style in [Style::Within, Style::Within, Style::Within, Style::Brink, Style::Past] {
            let (group, index) = ORDER[packet];
            let size = size(width_of(rng, group), 16);
            let stream = stream_with(rng, size, (group, index), style, 0);
            put(out, &stream, Query { packet, record: rng.below(2), band: size.shape(group).numbers() });
        }
    }
}

/// Records of 768 and of 1024 numbers.
fn put_largest(out: &mut Vectors, rng: &mut Rng) {
    for packet in [3, 12] {
        let (size, (group, index)) = (size(256, 16), ORDER[packet]);
        let stream = stream_with(rng, size, (group, index), Style::Coded, 0);
        put(out, &stream, Query { packet, record: 1, band: size.shape(group).numbers() });
    }
}

/// Bands that are one number short, empty, as long as they must be and longer, for each group.
fn put_bands(out: &mut Vectors, rng: &mut Rng) {
    for packet in [8, 5, 2, 7, 12] {
        let (group, index) = ORDER[packet];
        let size = size(width_of(rng, group), 18);
        let stream = stream_with(rng, size, (group, index), Style::Coded, 0);
        let numbers = size.shape(group).numbers();
        for band in [numbers - 1, 0, numbers, numbers + 9] {
            put(out, &stream, Query { packet, record: 2, band });
        }
    }
}

/// Packets with one record fewer: the last that is there and the one that is missing.
fn put_missing(out: &mut Vectors, rng: &mut Rng) {
    for packet in [4, 9, 12] {
        let (group, index) = ORDER[packet];
        let size = size(width_of(rng, group), 18);
        let stream = stream_with(rng, size, (group, index), Style::Coded, 1);
        for record in [size.n() - 1, size.n()] {
            put(out, &stream, Query { packet, record, band: size.shape(group).numbers() + 1 });
        }
    }
}

/// Packets and records that are not there, beside the last ones.
fn put_absent(out: &mut Vectors, rng: &mut Rng) {
    let most = u32::MAX as usize;
    let size = size(16, 16);
    let stream = stream_with(rng, size, (4, 0), Style::Coded, 0);
    for (packet, record) in [
        (12, 1),
        (12, 2),
        (13, 0),
        (13, 2),
        (16, 0),
        (256, 0),
        (most, 0),
        (most, most),
        (0, 2),
        (0, 256),
        (3, 65_536),
        (11, most),
    ] {
        put(out, &stream, Query { packet, record, band: size.shape(4).numbers() });
    }
    put(out, &stream, Query { packet: 13, record: 0, band: 0 });
    put(out, &stream, Query { packet: 12, record: 2, band: 0 });
}

/// Streams that are refused, one for each number, asked for what would be there and for what would not,
/// with bands that are long enough and empty ones; and planes above the limit of 3, which is not asked.
fn put_refused(out: &mut Vectors) {
    let base = empty_stream(size(16, 16), 2);
    let mut streams: Vec<Vec<u8>> = Vec::new();
    let mut numbers = Vec::new();
    let mut all: Vec<_> = [(0, 0), (1, 1)].into_iter().flat_map(|(g, i)| faults(&base, g, i)).collect();
    all.retain(|fault| !matches!(fault.number, 3 | 4));
    for fault in all {
        if !numbers.contains(&fault.number) {
            numbers.push(fault.number);
            streams.push(Trial::new(base.bytes.clone(), &fault.bad, |_| [0; 4]).stream);
        }
    }
    streams.push(directory_alone(size(16, 16), [5, 5, 5, 3, 1], 175));
    streams.push(one_packet(size(16, 208), 15).bytes);
    let large = Change::Put { at: 8, bytes: vec![0xff, 0xf0, 0x08, 0x08] };
    streams.push(Trial::new(base.bytes.clone(), &[large], |_| [0; 4]).stream);
    let queries = [(0, 0, 64), (12, 1, 64), (13, 0, 64), (4, 7, 0)];
    for (stream, (packet, record, band)) in streams.iter().zip(queries.into_iter().cycle()) {
        put(out, stream, Query { packet, record, band });
    }
}
