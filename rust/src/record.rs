//! One record of a tile stream: how long it is, and how many bits of it were read.

use crate::lengths::coded_width;
use crate::write::reserve;
use crate::{ffi, Error, Refusal};
use std::fmt;

/// The packets of a tile: 0 to 3 are groups 0 to 3 of green, 4 to 7 those of red, 8 to 11 those of
/// blue, and 12 is group 4.
const PACKETS: usize = 13;

/// As many numbers of 32 bits take the memory of one [`Record`].
const IN_A_RECORD: usize = size_of::<Record>() / size_of::<i32>();

/// For each group how many components a record has, the rows of each, and how many columns of the tile
/// go to one of theirs.
const SHAPES: [[usize; 3]; 5] = [[1, 1, 16], [3, 1, 16], [3, 2, 8], [3, 4, 4], [1, 8, 2]];

/// What one record is, and what reading it took.
#[derive(Debug, Clone, Copy, PartialEq, Eq)]
#[non_exhaustive]
pub struct Record {
    /// Its packet, 0 to 12: groups 0 to 3 of green, of red and of blue, then group 4.
    pub packet: usize,
    /// Its number in the packet, from 0.
    pub record: usize,
    /// Its byte length.
    pub bytes: usize,
    /// The bits that it may take: 128 for each 16 bytes that its length begins.
    pub allowance: u64,
    /// The bits that it took, the allowance at most. A read that runs out takes what was left, and the
    /// zeros that come of it take nothing.
    pub bits: u64,
    pub state: RecordState,
}

/// What became of a record.
#[derive(Debug, Clone, Copy, PartialEq, Eq, Hash)]
#[non_exhaustive]
pub enum RecordState {
    /// Its byte length is 0: no bit is read, and its coefficients are 0.
    Empty,
    /// It was read to the end of its rows.
    Sound,
    /// It first met a bit width above 19, which is damage, and is 0 from there on.
    Broken,
    /// It first ran past its bits, as the coder lets it on an evenly lit lining, and is 0 from there on.
    Spent,
}

impl fmt::Display for RecordState {
    fn fmt(&self, f: &mut fmt::Formatter) -> fmt::Result {
        f.write_str(match self {
            RecordState::Empty => "empty",
            RecordState::Sound => "sound",
            RecordState::Broken => "broken",
            RecordState::Spent => "spent",
        })
    }
}

/// All records of a tile stream, packet after packet, those that are there. A stream that is too large
/// to be decoded (refusal 3) has them too.
///
/// Every record is read by a call that checks the whole stream first, so the time grows with the square
/// of their number.
pub fn records(stream: &[u8]) -> Result<Vec<Record>, Error> {
    let mut band = zeros(numbers(PACKETS - 1, coded_width(stream)?))?;
    let mut found: Vec<Record> = Vec::new();
    for packet in 0..PACKETS {
        for record in 0.. {
            let Some(record) = inspect_record_into(stream, packet, record, &mut band)? else { break };
            found
                .try_reserve(1)
                .map_err(|_| Error::Memory { numbers: band.len() + IN_A_RECORD * found.len() })?;
            found.push(record);
        }
    }
    Ok(found)
}

/// One record of a tile stream and its coefficients as they are read, or None where the packet or the
/// record isn't there.
///
/// The coefficients go component after component, each of so many rows, one after the other:
///
/// | group | components | rows | columns for a coded width w |
/// |---|---|---|---|
/// | 0 | 1 | 1 | w / 16 |
/// | 1 | 3 | 1 | w / 16 |
/// | 2 | 3 | 2 | w / 8 |
/// | 3 | 3 | 4 | w / 4 |
/// | 4 | 1 | 8 | w / 2 |
pub fn inspect_record(
    stream: &[u8],
    packet: usize,
    record: usize,
) -> Result<Option<(Record, Vec<i32>)>, Error> {
    let mut band = zeros(numbers(packet, coded_width(stream)?))?;
    let found = inspect_record_into(stream, packet, record, &mut band)?;
    Ok(found.map(|record| (record, band)))
}

/// One record of a tile stream, with its coefficients at the start of a band, in the order that
/// [`inspect_record`] tells; 4 w numbers are enough for any record of a coded width w. None where the
/// packet or the record isn't there. There and in a refused call no number of the band changes.
///
/// The refusals are those of [`crate::decode_stream_into`] but 3 and 4, and then 4 where the band is
/// shorter than a record that is there.
pub fn inspect_record_into(
    stream: &[u8],
    packet: usize,
    record: usize,
    band: &mut [i32],
) -> Result<Option<Record>, Refusal> {
    let answer = ffi::record(stream, packet, record, band);
    if answer.refusal != 0 {
        return Err(Refusal::new(answer.refusal));
    }
    if answer.bytes == 0 && !is_there(stream, packet, record) {
        return Ok(None);
    }
    Ok(Some(Record {
        packet,
        record,
        bytes: answer.bytes as usize,
        allowance: answer.allowance,
        bits: answer.bits,
        state: match answer {
            ffi::Inspected { bytes: 0, .. } => RecordState::Empty,
            ffi::Inspected { broken: 1.., .. } => RecordState::Broken,
            ffi::Inspected { spent: 1.., .. } => RecordState::Spent,
            _ => RecordState::Sound,
        },
    }))
}

/// Whether an accepted stream has a record. Each has a number at least, for which an empty band is too
/// short; nothing is refused where there is none.
fn is_there(stream: &[u8], packet: usize, record: usize) -> bool {
    ffi::record(stream, packet, record, &mut []).refusal == 4
}

/// How many coefficients the records of a packet have; none where it isn't there.
fn numbers(packet: usize, width: usize) -> usize {
    let group = match packet {
        0..12 => packet % 4,
        12 => 4,
        _ => return 0,
    };
    let [components, rows, columns] = SHAPES[group];
    components * rows * (width / columns)
}

fn zeros(numbers: usize) -> Result<Vec<i32>, Error> {
    let mut band = Vec::new();
    reserve(&mut band, numbers).map_err(|_| Error::Memory { numbers })?;
    Ok(band)
}

#[cfg(test)]
mod tests {
    use super::*;

    #[test]
    fn numbers_of_records() {
        let tile: Vec<usize> = (0..15).map(|packet| numbers(packet, 16)).collect();
        assert_eq!(tile, [1, 3, 12, 48, 1, 3, 12, 48, 1, 3, 12, 48, 64, 0, 0]);
        assert_eq!(numbers(12, 65_520), 262_080);
        assert_eq!(numbers(usize::MAX, 65_520), 0);
    }
}
