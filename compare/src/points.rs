//! Document 01's 'Points on the line', run on the original.

use crate::check::{check, Case, Seen};
use crate::encoder::scaled;
use crate::faults::{empty_stream, Trial};
use crate::oracle;
use crate::original::{
    decode_component, edge_detail, final_green, inv53_vertical, inv53_vertical_high_leading, update_width,
    zero_run, CoeffBits, Plane,
};
use crate::ours::mock::Mock;
use crate::size::Size;
use crate::strips::edge_strips;

/// The bits as bytes, filled up with ones so that what lies after them shows.
fn packed(bits: &str) -> Vec<u8> {
    let padded = format!("{bits}{}", "1".repeat(128 - bits.len()));
    let byte = |i: usize| u8::from_str_radix(&padded[8 * i..8 * i + 8], 2).unwrap();
    (0..16).map(byte).collect()
}

fn plane(rows: usize, data: &[i32]) -> Plane {
    Plane { rows, cols: data.len() / rows, data: data.to_vec() }
}

/// A reader with `left` bits of its allowance of 128 to go.
fn reader_with(left: u32, bytes: &[u8]) -> CoeffBits<'_> {
    let mut reader = CoeffBits::new(bytes, 0, 16);
    let mut over = 128 - left;
    while over > 0 {
        reader.read(over.min(32));
        over -= over.min(32);
    }
    reader
}

#[test]
fn allowance() {
    for (length, bits) in [(16, 128), (17, 256)] {
        let bytes = vec![0xff; 64];
        let mut reader = CoeffBits::new(&bytes, 0, length);
        for _ in 0..bits {
            assert_eq!((reader.read(1), reader.status), (1, 0));
        }
        assert_eq!((reader.read(1), reader.status), (0, 2));
    }
}

#[test]
fn three_bits_left_read_five() {
    let bytes = packed(&format!("{}101", "0".repeat(125)));
    let mut reader = reader_with(3, &bytes);
    assert_eq!((reader.read(5), reader.status), (20, 2));
}

#[test]
fn width_updates() {
    for (bits, width, expected) in [("11", 0, 0), ("1001", 0, 2), ("1101", 5, 3)] {
        let bytes = packed(bits);
        assert_eq!(update_width(&mut CoeffBits::new(&bytes, 0, 16), width), expected);
    }
}

/// The second opening bit past the allowance: the original grows the width by one, document 01
/// keeps it. A row never shows it, for the status then ends the row.
#[test]
fn width_update_past_the_allowance() {
    let bytes = packed(&format!("{}1", "0".repeat(127)));
    let mut reader = reader_with(1, &bytes);
    assert_eq!((update_width(&mut reader, 5), reader.status), (6, 2));
}

#[test]
fn zero_runs() {
    for (bits, expected) in [("000", 5), ("011", 3)] {
        let bytes = packed(bits);
        assert_eq!(zero_run(&mut CoeffBits::new(&bytes, 0, 16), 5), expected);
    }
}

/// A row of one group of width 17 with the value 65,536 and three zeros, with no sign bit.
#[test]
fn values() {
    assert_eq!((scaled(3, 1), scaled(3, 2), scaled(65_536, 15)), (6, 13, -2_147_467_264));
    let bytes = packed(&format!("10{}1{}{}", "0".repeat(16), "10000000000000000", "0".repeat(51)));
    let mut row = [7; 4];
    let mut reader = CoeffBits::new(&bytes, 0, 16);
    decode_component(&mut reader, 1, 15, &mut row);
    assert_eq!((row, reader.status), ([-2_147_467_264, 0, 0, 0], 0));
    assert_eq!(reader.read(1), 1, "the first bit after the values");
}

#[test]
fn edges() {
    assert_eq!((edge_detail(2, false), edge_detail(-2, false), edge_detail(1, true)), (5, -5, 3));
}

#[test]
fn lifting() {
    let lift = |low: &[i32], high: &[i32]| {
        inv53_vertical(&plane(low.len(), low), &plane(high.len(), high), false).unwrap().data
    };
    assert_eq!(lift(&[10, 20], &[3, -5]), [8, 17, 20, 15]);
    assert_eq!(lift(&[i32::MIN], &[1]), [2_147_483_647, 0]);
    let leading = inv53_vertical_high_leading(&plane(1, &[8]), &plane(2, &[3, 11])).unwrap();
    assert_eq!(leading.data, [7, 4, 15]);
}

/// One average and one detail, which stand in rows and columns of their own.
#[test]
fn final_green_of_one() {
    let green = final_green(&plane(1, &[10]), &plane(8, &[4; 8]), 1, false).unwrap();
    assert_eq!(green.data, [12, 8]);
}

#[test]
fn heights() {
    let answer = |height: usize| {
        let size = Size { width: 16, half: height / 2 };
        let stream = empty_stream(size, size.n() + 1).bytes;
        oracle::decode(&stream, size.needed()).map(|planes| planes.size.rows())
    };
    assert_eq!((answer(14), answer(16), answer(26)), (Err(24), Ok(8), Ok(12)));
}

#[test]
fn example_strip() {
    let example = &edge_strips()[0];
    let mut bytes = vec![0; 640];
    bytes[512..516].copy_from_slice(b"0000");
    let fields = [(520, 0x00, 0x10), (522, 0x00, 0x08), (524, 0x01, 0x00), (526, 0x6c, 0x00)];
    fields.iter().for_each(|&(at, high, low)| bytes[at..at + 2].copy_from_slice(&[high, low]));
    assert_eq!(example.bytes, bytes);
    assert_eq!(oracle::tiles(&bytes, (16, 16)), [[512, 128, 0, 0, 16, 16]]);
}

#[test]
fn edges_of_the_table() {
    let counts: Vec<usize> = edge_strips().iter().map(|s| oracle::tiles(&s.bytes, s.frame).len()).collect();
    assert_eq!(counts, [1, 0, 1, 0, 1, 1, 1, 0, 0, 0]);
}

/// H under 16 has R 4, so 4 is measured on that before 24.
#[test]
fn short_slices_before_low_height() {
    let size = Size { width: 16, half: 7 };
    assert_eq!(size.needed(), [64, 32, 32, 512]);
    let stream = empty_stream(size, 2).bytes;
    let answer = |lent| check(&Mock, &Case::Stream(Trial { stream: stream.clone(), lent }));
    assert_eq!(answer([63, 32, 32, 512]), Ok(Seen::Refused(4)));
    assert_eq!(answer([64, 32, 32, 512]), Ok(Seen::Refused(24)));
}
