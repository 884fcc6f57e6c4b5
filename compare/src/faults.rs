//! Faults of one field: for each refusal a change that brings it about, and a near value of the
//! same field that does not.

use crate::packets::{packet, record_at, Record, Room, UNIT};
use crate::size::Size;
use crate::streams::{assemble, entry_at, header, Parts, Stream, DIRECTORY, PACKETS, TILE_PACKETS};

/// A stream with the lengths of the slices lent for green, red, blue and work.
#[derive(Debug, Clone, PartialEq, Eq)]
pub struct Trial {
    pub stream: Vec<u8>,
    pub lent: [usize; 4],
}

/// One change of a trial.
#[derive(Debug, Clone, PartialEq, Eq)]
pub enum Change {
    Put { at: usize, bytes: Vec<u8> },
    Cut(usize),
    Lend { slice: usize, length: usize },
}

impl Trial {
    /// The stream with the changes, and slices of the lengths that `lengths` gives for it, which
    /// the changes may shorten in turn. Bytes past the stream's end are dropped.
    pub fn new(mut stream: Vec<u8>, changes: &[Change], lengths: impl FnOnce(&[u8]) -> [usize; 4]) -> Trial {
        for change in changes {
            match change {
                Change::Put { at, bytes } => {
                    let room = stream.iter_mut().skip(*at);
                    room.zip(bytes).for_each(|(to, from)| *to = *from);
                }
                Change::Cut(length) => stream.truncate(*length),
                Change::Lend { .. } => {}
            }
        }
        let mut lent = lengths(&stream);
        for change in changes {
            if let Change::Lend { slice, length } = change {
                lent[*slice] = *length;
            }
        }
        Trial { stream, lent }
    }
}

/// A fault that is refused with its number, and the same field with a value that is not.
#[derive(Debug, Clone)]
pub struct Fault {
    pub number: u64,
    pub bad: Vec<Change>,
    pub near: Vec<Change>,
}

fn put(at: usize, bytes: &[u8]) -> Change {
    Change::Put { at, bytes: bytes.to_vec() }
}

fn put24(at: usize, value: usize) -> Change {
    put(at, &(value as u32).to_be_bytes()[1..])
}

fn put16(at: usize, value: usize) -> Change {
    put(at, &(value as u16).to_be_bytes())
}

fn fault(number: u64, bad: Change, near: Change) -> Fault {
    Fault { number, bad: vec![bad], near: vec![near] }
}

/// Number 2, field by field.
fn header_faults() -> Vec<Fault> {
    let magic = [b"B000", b"A00 ", b"1000"].map(|m| fault(2, put(0, m), put(0, b"0000")));
    let fields = [
        (8, 0, 16),
        (8, 24, 16),
        (8, 17, 32),
        (10, 0, 1),
        (12, 0x0000, 0xfd0f),
        (12, 0x0110, 0x0100),
        (12, 0x0300, 0x0100),
        (14, 0x4c00, 0x7fff),
        (14, 0xec00, 0x6c00),
        (14, 0x6800, 0x6c00),
        (14, 0x6400, 0x6c01),
    ];
    let fields = fields.map(|(at, bad, near)| fault(2, put16(at, bad), put16(at, near)));
    let cut = fault(2, Change::Cut(PACKETS - 1), Change::Cut(PACKETS));
    magic.into_iter().chain(fields).chain([cut]).collect()
}

/// Number 3 at both sides of the limit, for H of 32,768 and 32,752.
fn size_faults() -> Vec<Fault> {
    let at_height = |half: usize| Fault {
        number: 3,
        bad: vec![put16(10, half), put16(8, 8208)],
        near: vec![put16(10, half), put16(8, 8192)],
    };
    vec![at_height(16_384), at_height(16_376)]
}

/// Number 4 for each slice.
fn lending_faults(size: Size) -> Vec<Fault> {
    let lend = |slice: usize, length: usize| Change::Lend { slice, length };
    let needed = size.needed().into_iter().enumerate();
    needed.map(|(slice, length)| fault(4, lend(slice, length - 1), lend(slice, length))).collect()
}

/// Numbers 20 and 24, by the half height alone.
fn height_faults(size: Size) -> Vec<Fault> {
    let mut faults = vec![fault(20, put16(10, 16_384), put16(10, 16_383))];
    if size.n() == 1 {
        faults.push(fault(24, put16(10, 7), put16(10, 8)));
        faults.push(fault(24, put16(10, 1), put16(10, 8)));
    }
    faults
}

/// Numbers 6 to 10 in the directory's block of a group; 9 and 10 are those of packet `index`.
fn directory_faults(stream: &Stream, group: usize, index: usize) -> Vec<Fault> {
    let (block, packets) = (stream.blocks[group], &stream.packets[group]);
    let last = packets.len() - 1;
    let left = (stream.bytes.len() - packets[last].0) / UNIT;
    let (here, units) = (entry_at(block, index), packets[index].1 / UNIT);
    let size_at = 16 + 3 * group;
    let total = packets.iter().map(|p| p.1).sum::<usize>() / UNIT;
    vec![
        fault(6, put(block, &[0x0a]), put(block, &[0x09])),
        fault(6, put(block, &[0xff]), put(block, &[0xf0 | packets.len() as u8])),
        fault(7, put24(entry_at(block, last), left + 1), put24(entry_at(block, last), left)),
        fault(8, put24(size_at, total - 1), put24(size_at, total)),
        fault(9, put(block, &[index as u8]), put(block, &[packets.len() as u8])),
        fault(10, put24(here, 0), put24(here, units)),
    ]
}

/// Numbers 11 to 19, 21 and 23 in the header of a packet and of its first record.
fn packet_faults(stream: &Stream, group: usize, index: usize) -> Vec<Fault> {
    let (p, length) = stream.packets[group][index];
    let bytes = &stream.bytes[p..p + length];
    let field16 = |at: usize| u16::from_be_bytes([bytes[at], bytes[at + 1]]) as usize;
    let (control, blocks) = (field16(0), field16(7));
    let extra = field16(3) + 65_536 * bytes[2] as usize;
    let kind = (bytes[6] >> 6) as usize;
    let fitting = (length * 8 - 128) / (record_at(kind, 1) - 128);
    let room = length.saturating_sub((control + 1) * UNIT).min(65_534);
    let other = if kind == 1 { 3 } else { 1 };
    let same = put(p + 6, &bytes[6..7]);
    let kinds = |value: usize| put(p + 6, &[(value << 6) as u8]);
    vec![
        fault(11, put16(p + 7, fitting + 1), put16(p + 7, fitting)),
        fault(12, put(p + 11, &[1]), put(p + 11, &[0])),
        fault(12, put(p + 15, &[0x80]), put(p + 15, &[0])),
        fault(13, put(p + 5, &[0x50]), put(p + 5, &[0x40])),
        fault(13, put(p + 5, &[0x41]), put(p + 5, &[0x40])),
        fault(13, put(p + 6, &[bytes[6] | 0x20]), same.clone()),
        fault(14, kinds(0), same.clone()),
        fault(14, kinds(2), same.clone()),
        fault(15, put16(p + 7, 0), put16(p + 7, blocks)),
        fault(15, put16(p + 7, 30_001), put16(p + 7, 30_000)),
        fault(16, put(p + 9, &[0x11]), put(p + 9, &[0x10])),
        fault(16, put(p + 10, &[1]), put(p + 10, &[0])),
        fault(17, put16(p, control + 1), put16(p, control)),
        fault(17, put24(p + 2, extra + 1), put24(p + 2, extra)),
        fault(18, put16(p + 16, room + 1), put16(p + 16, room)),
        fault(if kind == 1 && matches!(group, 0 | 4) { 19 } else { 23 }, kinds(other), same),
        fault(21, put16(p + 7, blocks + 1), put16(p + 7, blocks)),
    ]
}

/// Every fault of one field that a stream offers in the stream's header, in the directory's block
/// of `group` and in packet `index` of it.
pub fn faults(stream: &Stream, group: usize, index: usize) -> Vec<Fault> {
    let mut all = header_faults();
    all.extend(size_faults());
    all.extend(lending_faults(stream.size));
    all.extend(directory_faults(stream, group, index));
    all.extend(packet_faults(stream, group, index));
    all.extend(height_faults(stream.size));
    all
}

/// The stream with byte length 0 in all records, `records` of them in each packet.
pub fn empty_stream(size: Size, records: usize) -> Stream {
    let group = |g: usize| {
        let shape = size.shape(g);
        vec![packet(shape.kind, &vec![Record::default(); records], Room::default()); TILE_PACKETS[g]]
    };
    assemble(&Parts { size, groups: std::array::from_fn(group), spare: [0; 5], trailing: Vec::new() })
}

/// A stream whose packets have no bytes but the first, which has n + 1 records of byte length 0.
/// Number 22 depends on the bytes after it.
pub fn one_packet(size: Size, trailing: usize) -> Stream {
    let records = vec![Record::default(); size.n() + 1];
    let mut groups: [Vec<Vec<u8>>; 5] = std::array::from_fn(|g| vec![Vec::new(); TILE_PACKETS[g]]);
    groups[0][0] = packet(1, &records, Room::default());
    assemble(&Parts { size, groups, spare: [0; 5], trailing: vec![0; trailing] })
}

/// As [`one_packet`] at a guarded height, with one record fewer in the first packet, and in the
/// first packet of group 1 all n + 1 records, of kind 1. Number 22 or else 23 is that packet's.
pub fn two_packets(size: Size, trailing: usize) -> Stream {
    let records = vec![Record::default(); size.n() + 1];
    let mut groups: [Vec<Vec<u8>>; 5] = std::array::from_fn(|g| vec![Vec::new(); TILE_PACKETS[g]]);
    groups[0][0] = packet(1, &records[1..], Room::default());
    groups[1][0] = packet(1, &records, Room::default());
    assemble(&Parts { size, groups, spare: [0; 5], trailing: vec![0; trailing] })
}

/// A stream of `length` bytes, at least 128, whose directory blocks have the given entry counts
/// and no lengths. Number 5 depends on the length.
pub fn directory_alone(size: Size, counts: [u8; 5], length: usize) -> Vec<u8> {
    let mut bytes = header(size);
    let mut block = DIRECTORY;
    bytes.resize(length, 0);
    for count in counts {
        if let Some(byte) = bytes.get_mut(block) {
            *byte = count;
        }
        block += if count >= 5 { 32 } else { 16 };
    }
    bytes
}

#[cfg(test)]
mod tests {
    use super::*;
    use crate::oracle;

    fn answer(stream: &[u8], changes: &[Change], size: Size) -> u64 {
        let needed = |stream: &[u8]| oracle::header_size(stream).unwrap_or(size).needed();
        let trial = Trial::new(stream.to_vec(), changes, needed);
        oracle::decode(&trial.stream, trial.lent).err().unwrap_or(0)
    }

    #[test]
    fn faults_have_their_numbers_and_near_values_do_not() {
        let size = Size { width: 16, half: 8 };
        let base = empty_stream(size, 2);
        assert_eq!(answer(&base.bytes, &[], size), 0);
        for (group, index) in [(0, 0), (1, 0), (2, 1), (3, 2), (4, 0)] {
            for fault in faults(&base, group, index) {
                let bad = answer(&base.bytes, &fault.bad, size);
                assert_eq!(bad, fault.number, "{group} {index} {:?}", fault.bad);
                let near = answer(&base.bytes, &fault.near, size);
                assert_ne!(near, fault.number, "{group} {index} {:?}", fault.near);
            }
        }
    }

    #[test]
    fn record_count_by_length() {
        let size = Size { width: 16, half: 104 };
        assert_eq!(answer(&one_packet(size, 15).bytes, &[], size), 22);
        assert_eq!(answer(&one_packet(size, 16).bytes, &[], size), 10);
        let guarded = Size { width: 16, half: 129 };
        assert_eq!(answer(&two_packets(guarded, 15).bytes, &[], guarded), 22);
        assert_eq!(answer(&two_packets(guarded, 16).bytes, &[], guarded), 23);
    }
}
