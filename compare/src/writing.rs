//! A model of the writer, from documents 01 and 02 (job 2): the one stream that planes have, or the
//! number that refuses them, and what the call leaves in the work slice.

use crate::bits::BitWriter;
use crate::encoder::{least_width, write_row, Group, Value};
use crate::packets::{packet, record_at, Record, Room, UNIT};
use crate::recovery;
use crate::size::{Shape, Size};
use crate::streams::{assemble, Parts, TILE_PACKETS};
use crate::whole::Coefficients;
use crate::written::MOST_BYTES;

/// Most units of a group: a size of 24 bits, 268,435,440 bytes.
pub const MOST_UNITS: usize = (1 << 24) - 1;

/// What a caller lends: planes green, red and blue, the coded width and height, and the lengths of the
/// work slice and of the stream's.
pub struct Call<'a> {
    pub planes: [&'a [i32]; 3],
    pub sides: (usize, usize),
    pub work: usize,
    pub stream: usize,
}

/// What comes of it.
#[derive(Debug, Clone, Default, PartialEq, Eq)]
pub struct Outcome {
    pub refusal: u64,
    /// The stream; empty where the call is refused.
    pub stream: Vec<u8>,
    /// How many numbers of the work slice are 0 afterwards; the others are as they were.
    pub zeroed: usize,
}

pub fn write(call: &Call) -> Outcome {
    let size = match measure(call) {
        Err(refusal) => return Outcome { refusal, ..Outcome::default() },
        Ok(size) => size,
    };
    let zeroed = size.needed()[3];
    match stream_of(call, size) {
        Err(refusal) => Outcome { refusal, zeroed, ..Outcome::default() },
        Ok(stream) => Outcome { refusal: 0, stream, zeroed },
    }
}

/// The checks that come before the planes are looked at: 2, 3, 4, 20 and 24.
fn measure(call: &Call) -> Result<Size, u64> {
    let (width, height) = call.sides;
    let width_holds = width > 0 && width.is_multiple_of(16) && width <= 65_535;
    let height_holds = height > 0 && height.is_multiple_of(2) && height <= 131_070;
    if !(width_holds && height_holds) {
        return Err(2);
    }
    let size = Size { width, half: height / 2 };
    if size.too_large() {
        return Err(3);
    }
    let [green, red, blue] = call.planes.map(<[i32]>::len);
    if size.needed().into_iter().zip([green, red, blue, call.work]).any(|(needed, lent)| lent < needed) {
        return Err(4);
    }
    match height {
        0..16 => Err(24),
        32_768.. => Err(20),
        _ => Ok(size),
    }
}

/// The stream, or 25, 26 or the last 4.
fn stream_of(call: &Call, size: Size) -> Result<Vec<u8>, u64> {
    let coefficients = recovered(call.planes, size).ok_or(25u64)?;
    let records = records(&coefficients);
    if too_long(size, &records) {
        return Err(26);
    }
    let groups = std::array::from_fn(|group| {
        let kind = size.shape(group).kind;
        records[group].iter().map(|records| packet(kind, records, Room::default())).collect()
    });
    let stream = assemble(&Parts { size, groups, spare: [0; 5], trailing: Vec::new() }).bytes;
    if call.stream < stream.len() {
        return Err(4);
    }
    Ok(stream)
}

/// The coefficients of planes, 0 in rows that do not go in; None where 25 refuses a number.
pub fn recovered(planes: [&[i32]; 3], size: Size) -> Option<Coefficients> {
    let mut all = Coefficients::new(size);
    let fault = recovery::recover(planes, (size.width, size.height()), |place, numbers| {
        let at = all.place(place.group, place.component, place.row);
        all.packets[place.group][place.index][at..at + numbers.len()].copy_from_slice(numbers);
    });
    fault.is_none().then_some(all)
}

/// The records of the 13 packets by group and index.
pub type Records = [Vec<Vec<Record>>; 5];

fn records(c: &Coefficients) -> Records {
    std::array::from_fn(|group| {
        let shape = c.size.shape(group);
        let of_packet =
            |numbers: &Vec<i32>| numbers.chunks(shape.numbers()).map(|n| record(shape, n)).collect();
        c.packets[group].iter().map(of_packet).collect()
    })
}

/// A record under selectors of 0; an all-zero one has no byte.
pub fn record(shape: Shape, numbers: &[i32]) -> Record {
    match numbers.iter().all(|&number| number == 0) {
        true => Record::default(),
        false => Record { selectors: [0; 3], payload: bits(shape, numbers).finish() },
    }
}

/// The bits of its rows, each group in its least width.
pub fn bits(shape: Shape, numbers: &[i32]) -> BitWriter {
    let mut bits = BitWriter::default();
    for row in numbers.chunks(shape.columns) {
        let groups: Vec<Group> = row.chunks(4).map(group).collect();
        let widths: Vec<u32> = groups.iter().map(least_width).collect();
        write_row(&mut bits, &groups, &widths, 0);
    }
    bits
}

/// Four coefficients, those past the last column 0.
fn group(numbers: &[i32]) -> Group {
    std::array::from_fn(|i| {
        let number = numbers.get(i).copied().unwrap_or(0);
        Value { u: number.unsigned_abs(), negative: number < 0 }
    })
}

/// Whether a record or a group is longer than its number can tell.
fn too_long(size: Size, records: &Records) -> bool {
    let long_record = records.iter().flatten().flatten().any(|record| record.payload.len() > MOST_BYTES);
    let units = |group: usize| -> usize {
        records[group].iter().map(|records| packet_units(size, group, &lengths(records))).sum()
    };
    long_record || (0..5).any(|group| units(group) > MOST_UNITS)
}

fn lengths(records: &[Record]) -> Vec<usize> {
    records.iter().map(|record| record.payload.len()).collect()
}

/// The units of a packet whose records have these lengths: those of its headers and of its payload.
pub fn packet_units(size: Size, group: usize, lengths: &[usize]) -> usize {
    let headers = record_at(size.shape(group).kind, lengths.len());
    headers.div_ceil(8 * UNIT) + lengths.iter().sum::<usize>().div_ceil(UNIT)
}

/// The largest size that a group's packets can come to under 3's bound, in units, with every record as
/// long as a length can tell or as its rows can make it.
pub fn most_units(size: Size, group: usize) -> usize {
    let shape = size.shape(group);
    let bits = shape.rows() * (21 + 100 * shape.columns.div_ceil(4));
    let lengths = vec![bits.div_ceil(8).min(MOST_BYTES); size.n() + 1];
    TILE_PACKETS[group] * packet_units(size, group, &lengths)
}
