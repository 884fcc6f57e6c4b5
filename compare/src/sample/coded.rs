//! From coefficients to a stream, with selector 0 and the least widths.

use super::analysis::Tile;
use super::picture::Rows;
use compare::bits::BitWriter;
use compare::encoder::{least_width, write_row, Group, Value};
use compare::packets::{packet, Record, Room};
use compare::size::{Shape, Size};
use compare::streams::{assemble, Parts};
use std::slice::from_ref;

pub fn stream(size: Size, tile: &Tile) -> Vec<u8> {
    let mut groups: [Vec<Vec<u8>>; 5] = Default::default();
    for plane in &tile.planes {
        groups[0].push(coded_packet(size.shape(0), from_ref(&plane.band0)));
        for (g, subbands) in plane.levels.iter().enumerate() {
            groups[g + 1].push(coded_packet(size.shape(g + 1), subbands));
        }
    }
    groups[4].push(coded_packet(size.shape(4), from_ref(&tile.detail)));
    assemble(&Parts { size, groups, spare: [0; 5], trailing: Vec::new() }).bytes
}

/// A packet; each component's rows are dealt out to its records, `m` to each.
fn coded_packet(shape: Shape, components: &[Rows]) -> Vec<u8> {
    let count = components[0].len() / shape.m;
    let records: Vec<Record> = (0..count)
        .map(|i| record(components.iter().flat_map(|rows| &rows[i * shape.m..(i + 1) * shape.m])))
        .collect();
    packet(shape.kind, &records, Room::default())
}

fn record<'a>(rows: impl Iterator<Item = &'a Vec<i32>>) -> Record {
    let mut bits = BitWriter::default();
    for row in rows {
        let groups: Vec<Group> = row.chunks(4).map(group).collect();
        let widths: Vec<u32> = groups.iter().map(least_width).collect();
        write_row(&mut bits, &groups, &widths, 0);
    }
    Record { selectors: [0; 3], payload: bits.finish() }
}

/// Four coefficients, those past the row's end 0.
fn group(coefficients: &[i32]) -> Group {
    std::array::from_fn(|i| {
        let coefficient = coefficients.get(i).copied().unwrap_or(0);
        Value { u: coefficient.unsigned_abs(), negative: coefficient < 0 }
    })
}
