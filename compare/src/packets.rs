//! Builds packets: the header, the record headers and the payloads, as document 01 lays them out.

use crate::bits::{overwrite, BitWriter};

pub const UNIT: usize = 16;

/// One record; its byte length is the payload's.
#[derive(Debug, Clone, Default)]
pub struct Record {
    pub selectors: [u32; 3],
    pub payload: Vec<u8>,
}

/// Units from the packet's start to the payloads, and units after that; each may be left to the
/// least that holds everything.
#[derive(Debug, Clone, Copy, Default)]
pub struct Room {
    pub control: Option<usize>,
    pub extra: Option<usize>,
    /// Units of nothing after the payloads.
    pub spare: usize,
}

/// Bits of a record header.
pub fn record_bits(kind: usize) -> usize {
    16 + 4 * kind
}

/// The bit at which the header of record `i` starts.
pub fn record_at(kind: usize, i: usize) -> usize {
    128 + record_bits(kind) * i
}

fn header(control: usize, extra: usize, kind: usize, blocks: usize) -> Vec<u8> {
    let mut bits = BitWriter::default();
    bits.put(control as u32 - 1, 16);
    bits.put(extra as u32, 24);
    bits.put(4, 4);
    bits.put(0, 4);
    bits.put(kind as u32, 2);
    bits.put(0, 6);
    bits.put(blocks as u32, 16);
    bits.put(16, 8);
    bits.put(0, 24);
    bits.put(0, 24);
    bits.finish()
}

/// A packet of the kind. With less control room than the record headers take, they run on over
/// the payloads.
pub fn packet(kind: usize, records: &[Record], room: Room) -> Vec<u8> {
    let header_bits = record_at(kind, records.len());
    let control = room.control.unwrap_or(header_bits.div_ceil(8 * UNIT));
    let payload: usize = records.iter().map(|r| r.payload.len()).sum();
    let headers_past = header_bits.div_ceil(8 * UNIT).saturating_sub(control);
    let least = payload.div_ceil(UNIT).max(headers_past);
    let extra = room.extra.unwrap_or(least + room.spare);

    let mut bytes = header(control, extra, kind, records.len());
    bytes.resize(control * UNIT, 0);
    records.iter().for_each(|r| bytes.extend(&r.payload));
    bytes.resize((control + extra) * UNIT, 0);
    for (i, record) in records.iter().enumerate() {
        let at = record_at(kind, i);
        overwrite(&mut bytes, at, 16, record.payload.len() as u32);
        for (c, &selector) in record.selectors.iter().take(kind).enumerate() {
            overwrite(&mut bytes, at + 16 + 4 * c, 4, selector);
        }
    }
    bytes
}
