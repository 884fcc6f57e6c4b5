//! Streams that are refused, by damage to the sample.

use super::{flat_stream, header, stream};

/// Where the first packet's parts stand in a stream.
const PACKET: usize = 128;
const KIND: usize = PACKET + 6;
const BLOCKS: usize = PACKET + 7;
const RECORDS: usize = PACKET + 16;

fn put(mut stream: Vec<u8>, edits: &[(usize, &[u8])]) -> Vec<u8> {
    for (at, bytes) in edits {
        stream[*at..at + bytes.len()].copy_from_slice(bytes);
    }
    stream
}

/// The sample's first stream with other bytes at one place.
fn with(at: usize, bytes: &[u8]) -> Vec<u8> {
    put(stream(0), &[(at, bytes)])
}

/// A header whose directory starts with a long block, so that its last block lies beyond.
fn long_directory() -> Vec<u8> {
    put(header(16, 16), &[(48, &[5])])
}

/// One packet with 31 records in a stream of 14 units.
fn many_records() -> Vec<u8> {
    let start = put(header(320, 480), &[(16, &[0, 0, 6]), (48, &[1, 0, 0, 6])]);
    let packet = put(vec![0; 96], &[(0, &[0, 5, 0, 0, 0, 0x40, 0x40, 0, 31, 16])]);
    [start, packet].concat()
}

/// The kind of the first packet of a group of a flat stream.
fn with_kind(group: usize, kind: u8) -> Vec<u8> {
    put(flat_stream(48, 32), &[(KIND + group * 3 * 128, &[kind << 6])])
}

/// A stream for each number but 1 and 4.
pub fn refused() -> Vec<(u64, Vec<u8>)> {
    vec![
        (2, Vec::new()),
        (2, stream(0)[..127].to_vec()),
        (2, with(0, b"B")),
        (3, with(8, &[0xff, 0xf0, 0x3f, 0xff])),
        (5, long_directory()),
        (6, with(48, &[10])),
        (7, with(49, &[0xff, 0xff, 0xff])),
        (8, with(16, &[0, 0, 0])),
        (9, with(48, &[0])),
        (10, with(49, &[0, 0, 0])),
        (11, put(stream(0), &[(49, &[0, 0, 1]), (PACKET, &[0, 0, 0, 0, 0])])),
        (12, with(PACKET + 15, &[1])),
        (13, with(PACKET + 5, &[0x50])),
        (14, with(KIND, &[0x80])),
        (15, with(BLOCKS, &[0, 0])),
        (16, with(PACKET + 9, &[17])),
        (17, with(PACKET + 2, &[1])),
        (18, with(RECORDS, &[0xff, 0xff])),
        (19, with_kind(0, 3)),
        (20, with(10, &[0x40, 0x08])),
        (21, with(10, &[0, 8])),
        (22, many_records()),
        (23, with_kind(1, 1)),
        (24, flat_stream(48, 14)),
    ]
}
