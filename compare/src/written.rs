//! Streams with chosen values and selectors.

use crate::bits::BitWriter;
use crate::encoder::{least_width, scaled, write_row, Group, Value};
use crate::packets::{packet, Record, Room};
use crate::size::{Shape, Size};
use crate::streams::{assemble, Parts, Stream};
use crate::whole::Coefficients;

/// Most bytes that a record's length can tell.
pub const MOST_BYTES: usize = 65_535;

/// A record with these values, row after row, under a selector for each component.
pub fn record(shape: Shape, selectors: [u32; 3], values: &[Value]) -> Record {
    let mut bits = BitWriter::default();
    for (row, values) in values.chunks(shape.columns).enumerate() {
        let groups: Vec<Group> = values.chunks(4).map(group).collect();
        let widths: Vec<u32> = groups.iter().map(least_width).collect();
        write_row(&mut bits, &groups, &widths, selectors[row / shape.m]);
    }
    Record { selectors, payload: bits.finish() }
}

/// Four values, those past the row's end 0.
fn group(values: &[Value]) -> Group {
    std::array::from_fn(|i| values.get(i).copied().unwrap_or_default())
}

/// A stream of these records by group and index, in the plain layout.
pub fn stream(size: Size, records: &[Vec<Vec<Record>>; 5]) -> Stream {
    let groups = std::array::from_fn(|group| {
        let kind = size.shape(group).kind;
        records[group].iter().map(|records| packet(kind, records, Room::default())).collect()
    });
    assemble(&Parts { size, groups, spare: [0; 5], trailing: Vec::new() })
}

/// The value that a decoder makes a coefficient of, which must be one that the selector allows.
fn value(coefficient: i32, selector: u32) -> Value {
    let value = Value { u: coefficient.unsigned_abs() >> selector, negative: coefficient < 0 };
    assert_eq!(scaled(value.u, selector), coefficient.abs(), "no value under selector {selector}");
    value
}

/// A stream with these coefficients: selector 0 in band 0, the other selector elsewhere.
pub fn coded(c: &Coefficients, selector: u32) -> Stream {
    let records = std::array::from_fn(|group| {
        let (shape, selector) = (c.size.shape(group), if group == 0 { 0 } else { selector });
        let one = |numbers: &[i32]| {
            let values: Vec<Value> = numbers.iter().map(|&n| value(n, selector)).collect();
            record(shape, [selector; 3], &values)
        };
        c.packets[group].iter().map(|p| p.chunks(shape.numbers()).map(one).collect()).collect()
    });
    assert!(records.iter().flatten().flatten().all(|r: &Record| r.payload.len() <= MOST_BYTES));
    stream(c.size, &records)
}
