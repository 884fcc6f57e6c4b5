//! The model on its lines, and mistakes of a writer that a run finds.

use super::draw::{edge_mode, extent, long_record, picture, picture_of, planes_of, planes_with, MOST};
use super::*;
use crate::encoder::{coefficient, Value};
use crate::ours::mock::{Mistake, Mock};
use crate::ours::{Decoder, Ours};
use crate::packets::{Record, UNIT};
use crate::recovery::edge_value;
use crate::size::Shape;
use crate::streams::TILE_PACKETS;
use crate::whole::{Coefficients, Site};
use crate::writing::{most_units, packet_units, record, MOST_UNITS};
use crate::written::{self, MOST_BYTES};

fn size(width: usize, height: usize) -> Size {
    Size { width, half: height / 2 }
}

/// What the model says of planes that are lent in full.
fn outcome(size: Size, planes: [Vec<i32>; 3]) -> writing::Outcome {
    let sides = (size.width, size.height());
    Case { sides, planes, work: size.needed()[3], stream: usize::MAX }.expected()
}

#[test]
fn every_refusal_is_reached() {
    let (tally, failing) = run(&Mock, 1, 2500);
    assert_eq!(failing, None);
    assert!(tally.plain > 100 && tally.guarded > 300 && tally.stream_short > 50, "{tally:?}");
    for (number, _) in REFUSALS {
        assert!(tally.refused[number] >= 3, "number {number}: {tally:?}");
    }
}

/// The whole stream of the smallest tile with one coefficient, byte by byte: a detail of 5.
#[test]
fn one_coefficient() {
    let size = size(16, 16);
    let mut c = Coefficients::new(size);
    c.packets[4][0][0] = 5;
    let stream = outcome(size, planes_of(&c)).stream;
    let mut expected = vec![0; 128];
    expected[..16].copy_from_slice(b"A000\0\0\0\0\0\x10\0\x08\x01\0\x6c\0");
    expected[16..31].copy_from_slice(&[0, 0, 6, 0, 0, 6, 0, 0, 6, 0, 0, 6, 0, 0, 3]);
    for group in 0..4 {
        expected[48 + 16 * group..][..10].copy_from_slice(&[3, 0, 0, 2, 0, 0, 2, 0, 0, 2]);
    }
    expected[112..116].copy_from_slice(&[1, 0, 0, 3]);
    // Two empty records in each packet, whose headers end within the second unit.
    for kind in [1, 1, 1, 3, 3, 3, 3, 3, 3, 3, 3, 3] {
        expected.extend([0, 1, 0, 0, 0, 0x40, kind << 6, 0, 2, 16]);
        expected.resize(expected.len() + 22, 0);
    }
    expected.extend([0, 1, 0, 0, 1, 0x40, 0x40, 0, 2, 16]);
    expected.resize(expected.len() + 6, 0);
    expected.extend([0, 5]);
    expected.resize(expected.len() + 14, 0);
    // 10 001 raises the width to 3, 101 and three zeros, 11 00 lowers it to 0, the sign; the run of one group
    // takes no bit. Then seven rows of 0 and a run to the end, 0.
    expected.extend([0b1000_1101, 0b0000_0000, 0b0110_0000, 0, 0]);
    expected.resize(expected.len() + 11, 0);
    assert_eq!(stream, expected);
}

/// Runs, updates and signs of a longer row.
#[test]
fn a_row_of_runs() {
    let shape = Shape { kind: 1, m: 1, columns: 38 };
    let mut numbers = vec![0; 38];
    (numbers[8], numbers[11], numbers[20], numbers[37]) = (-1, 1, 6, -2);
    let bits: String = record(shape, &numbers).payload.iter().map(|byte| format!("{byte:08b}")).collect();
    // 0 keeps 0 at the start; a run of 2 where 10 are left, 01 0; the width 1 in unary, 1; four values; 11
    // lowers it to 0; two signs; a run of 2 where 7 are left, 01 0; the width 3, 001; values, 11 00, a sign; a
    // run of 3 where 4 are left, 01 1; the width 2, 01; values, the last two past the end; a sign.
    let expected = "0 010 1 1001 11 10 010 001 110000000000 1100 0 011 01 00100000 1".replace(' ', "");
    assert_eq!(bits.trim_end_matches('0'), expected.trim_end_matches('0'));
    assert_eq!(bits.len(), expected.len().next_multiple_of(8));
}

/// Each site on both sides of its line.
#[test]
fn lines_of_25() {
    for (size, index, level, band) in sites() {
        let site = Site { index, level, band };
        let (rows, columns) = extent(size, site);
        for y in [0, 1, 2, rows / 2, rows - 1].into_iter().filter(|&y| y < rows) {
            let mode = edge_mode(size, site, y);
            let numbers = match (level, mode) {
                (0, _) => [32_767, 32_768, -32_768, -32_769],
                (_, None) => [MOST, MOST + 1, -MOST, -MOST - 1],
                (_, Some(odd)) => [MOST, MOST + 1, -MOST, -MOST - 1].map(|v| edge_value(v as i32, odd)),
            };
            for (number, refusal) in numbers.into_iter().zip([0, 25, 0, 25]) {
                let place = (y, (y * 7) % columns);
                let planes = planes_with(&Coefficients::new(size), site, place, number);
                assert_eq!(outcome(size, planes).refusal, refusal, "{size:?} {site:?} {place:?} {number}");
            }
        }
    }
}

/// All sites of small tiles: band 0's steps, the bands of each level, the details.
fn sites() -> Vec<(Size, usize, usize, usize)> {
    let mut sites = Vec::new();
    for size in [(32, 16), (16, 18), (32, 34), (16, 48)].map(|(w, h)| size(w, h)) {
        sites.push((size, 0, 4, 0));
        for index in 0..3 {
            sites.push((size, index, 0, 0));
            sites.extend((1..4).flat_map(|level| (0..3).map(move |band| (size, index, level, band))));
        }
    }
    sites
}

/// At an edge only what E gives is accepted, which is about half of all numbers.
#[test]
fn values_of_e() {
    for odd in [false, true] {
        let index = odd as usize;
        let given: Vec<i64> =
            (-60..=60).map(|v| edge_value(v, odd)).filter(|number| number.abs() <= 100).collect();
        for (height, level) in [(16, 3), (18, 3), (32, 3)] {
            let size = size(16, height);
            let site = Site { index, level, band: 2 };
            assert_eq!(edge_mode(size, site, 0), Some(odd));
            let accepted = |number: &i64| {
                let planes = planes_with(&Coefficients::new(size), site, (0, 1), *number);
                outcome(size, planes).refusal == 0
            };
            let found: Vec<i64> = (-100..=100).filter(accepted).collect();
            assert_eq!(found, given);
        }
    }
}

/// Records of 65,535 and of 65,536 bytes.
#[test]
fn lines_of_26() {
    for (group, width) in [(3, 8752), (4, 6576)] {
        for half in [16, 17] {
            for (bits, refusal) in [(8 * MOST_BYTES - 7, 0), (8 * MOST_BYTES, 0), (8 * MOST_BYTES + 1, 26)] {
                let size = Size { width, half };
                let c = long_record(&mut Rng::new(bits as u64), size, group, bits);
                let planes = planes_of(&c);
                assert_eq!(outcome(size, planes).refusal, refusal, "group {group}, {bits} bits");
            }
        }
    }
}

/// Where two refusals meet, the earlier check decides, and it alone says what is left in work.
#[test]
fn the_earlier_check_wins() {
    let long = size(6576, 32);
    let lengths = long.needed();
    let c = long_record(&mut Rng::new(1), long, 4, 8 * MOST_BYTES + 1);
    let whole = Case { sides: (6576, 32), planes: planes_of(&c), work: lengths[3], stream: 0 };
    let answer = |case: &Case| {
        let writing::Outcome { refusal, stream, zeroed } = case.expected();
        assert!(stream.is_empty());
        (refusal, zeroed)
    };
    assert_eq!(answer(&whole), (26, lengths[3]));
    let mut fault = whole.clone();
    fault.planes[2][0] = 1 << 20;
    assert_eq!(answer(&fault), (25, lengths[3]));
    for (sides, refusal) in [((6576, 33), 2), ((6568, 32), 2), ((65_520, 32_768), 3), ((6576, 48), 4)] {
        assert_eq!(answer(&Case { sides, ..fault.clone() }), (refusal, 0));
    }
    let flat = |sides, lent: usize| Case {
        sides,
        planes: [(); 3].map(|()| vec![1 << 30; lent]),
        work: 2 * lent,
        stream: 0,
    };
    assert_eq!(answer(&flat((16, 32_768), 262_400)), (20, 0));
    assert_eq!(answer(&flat((16, 32_768), 262_143)), (4, 0));
    assert_eq!(answer(&flat((16, 14), 256)), (24, 0));
    assert_eq!(answer(&flat((16, 14), 63)), (4, 0));
    assert_eq!(answer(&flat((16, 16), 256)), (25, 512));
}

/// Only group 3 can be longer than a size of 24 bits tells; all sizes that 2, 3, 20 and 24 leave.
#[test]
fn only_group_3_can_be_too_long() {
    let mut long = 0;
    for width in (16..65_536).step_by(16) {
        let highest = (8..16_384).rev().map(|half| Size { width, half }).find(|size| !size.too_large());
        let size = highest.expect("the lowest tiles are never too large");
        assert!([0, 1, 2, 4].into_iter().all(|group| most_units(size, group) <= MOST_UNITS));
        long += (most_units(size, 3) > MOST_UNITS) as usize;
    }
    assert!(long > 0);
    // Three packets of 1,366 records: headers of 2,398 units for each, and the rest in payload.
    let size = size(8752, 21_840);
    let lengths = vec![MOST_BYTES; size.n() + 1];
    assert!(!size.too_large() && 3 * packet_units(size, 3, &lengths) > MOST_UNITS);
}

/// A record of group 3 with numbers of 19 bits, its bits as many as asked for. All numbers are such that
/// selector 1 gives them too: 1 or 2 above a multiple of 4.
fn full_record(shape: Shape, bits: usize) -> Vec<i32> {
    let magnitude = |k: usize| (1 << 18) + 4 * (k as i32 * 7919 % 60_000) + 1 + (k % 2) as i32;
    let mut numbers: Vec<i32> =
        (0..shape.numbers()).map(|k| if k % 3 == 0 { -magnitude(k) } else { magnitude(k) }).collect();
    let surplus = writing::bits(shape, &numbers).written() - bits;
    (0..surplus).for_each(|k| numbers[k / 3 * 4 + 1 + k % 3] = 0);
    assert_eq!(writing::bits(shape, &numbers).written(), bits);
    numbers
}

/// A record of these numbers under selector 1, which takes fewer bits.
fn shorter(shape: Shape, numbers: &[i32]) -> Record {
    let value = |&number: &i32| Value { u: number.unsigned_abs() / 2, negative: number < 0 };
    let values: Vec<Value> = numbers.iter().map(value).collect();
    assert!(values.iter().zip(numbers).all(|(&value, &number)| coefficient(value, 1) == number));
    written::record(shape, [1; 3], &values)
}

/// Group 3 of 268,435,440 bytes, and of one unit more, which no header tells: there the planes come of a
/// stream with selectors of 1. Takes some gigabytes: `cargo test --release -- --ignored`.
#[test]
#[ignore]
fn a_group_on_its_line() {
    let size = size(8752, 21_888);
    let shape = size.shape(3);
    // Records 1 to n - 1 are full, and have this many bytes or one more.
    let (bytes, full) = (65_452, size.n() - 1);
    let records = [bytes, bytes + 1].map(|bytes| full_record(shape, 8 * bytes));
    let payload = (MOST_UNITS / 3 - packet_units(size, 3, &vec![0; size.n() + 1])) * UNIT;
    let spare = payload - full * bytes;
    for (longer, refusal) in [(spare, 0), (spare + 1, 26)] {
        // So many of a packet's records are a byte longer; in the last packet there may be one more.
        let packet = |longer: usize, code: &dyn Fn(&[i32]) -> Record| {
            let [short, long] = records.each_ref().map(|record| code(record));
            let mut all = vec![Record::default(); size.n() + 1];
            (1..=full).for_each(|k| all[k] = if k <= longer { long.clone() } else { short.clone() });
            all
        };
        let coded = |numbers: &[i32]| record(shape, numbers);
        let short = |numbers: &[i32]| shorter(shape, numbers);
        let empty = |group: usize| vec![vec![Record::default(); size.n() + 1]; TILE_PACKETS[group]];
        let mut packets: [Vec<Vec<Record>>; 5] = std::array::from_fn(empty);
        packets[3] = match refusal {
            0 => [spare, spare, longer].map(|longer| packet(longer, &coded)).to_vec(),
            _ => [spare, spare, longer].map(|longer| packet(longer, &short)).to_vec(),
        };
        let stream = written::stream(size, &packets).bytes;
        let mut slices = size.needed().map(|length| vec![1; length]);
        assert_eq!(Ours.decode_stream(&stream, &mut slices).refusal, 0);
        let [green, red, blue, mut work] = slices;
        let mut again = vec![1; stream.len() + UNIT];
        let sides = (size.width, size.height());
        let answer = Ours.write_stream([&green, &red, &blue], sides, &mut work, &mut again);
        let length = if refusal == 0 { stream.len() } else { 0 };
        assert_eq!(answer, Written { refusal, length: length as u64 });
        assert!(again[..length] == stream[..length] && again[length..].iter().all(|&byte| byte == 1));
        assert!(work.iter().all(|&number| number == 0));
    }
}

/// Eight rows at the top and eight at the bottom that are constant along the row are enough, for the
/// least and the greatest codes alone and in a tile of 7,400 columns too.
#[test]
fn a_margin_is_enough() {
    let mut rng = Rng::new(5);
    for half in 8..150 {
        let size = Size { width: 16 * rng.within(1, 5), half };
        assert_eq!(outcome(size, picture(&mut rng, size)).refusal, 0, "{size:?}");
        let ends = picture_of(&mut rng, size, |rng| rng.pick(&[-2048, 2047]));
        assert_eq!(outcome(size, ends).refusal, 0, "{size:?}");
    }
    for height in [64, 66] {
        let size = size(7392, height);
        let ends = picture_of(&mut rng, size, |rng| rng.pick(&[-2048, 2047]));
        assert_eq!(outcome(size, ends).refusal, 0);
    }
}

/// The most that a caller needs to lend, as the crate and the C header say it.
#[test]
fn no_stream_is_longer() {
    let mut rng = Rng::new(9);
    for (width, height) in [(16, 16), (16, 18), (32, 64), (48, 34), (2048, 32)] {
        let size = size(width, height);
        let longest = (size.n() + 1) * (50 * width + 480) + 768;
        for manner in 0..3 {
            let mut c = Coefficients::new(size);
            for (group, packet) in
                c.packets.iter_mut().enumerate().flat_map(|(g, p)| p.iter_mut().map(move |p| (g, p)))
            {
                let most = if group == 0 { 32_767 } else { MOST as i32 };
                for (x, number) in packet.iter_mut().enumerate() {
                    *number = match manner {
                        0 => most,
                        1 => [most, -most, most, -most, 1, 1, 1, 1][x % 8],
                        _ => rng.pick(&[most, -most, 1]),
                    };
                }
            }
            let length = outcome(size, planes_of(&c)).stream.len();
            assert!(length > longest / 4 && length <= longest, "{size:?}: {length} of {longest}");
        }
    }
}

/// A writer with one mistake.
struct Mistaken(fn(&Case, &mut [i32], &mut [u8], &mut Written));

impl Mistake for Mistaken {}

impl Writer for Mistaken {
    fn write_stream(
        &self,
        planes: [&[i32]; 3],
        sides: (usize, usize),
        work: &mut [i32],
        stream: &mut [u8],
    ) -> Written {
        let mut written = Mock.write_stream(planes, sides, work, stream);
        let planes = planes.map(<[i32]>::to_vec);
        let case = Case { sides, planes, work: work.len(), stream: stream.len() };
        (self.0)(&case, work, stream, &mut written);
        written
    }
}

#[test]
fn mistakes_are_found() {
    let mistakes: [fn(&Case, &mut [i32], &mut [u8], &mut Written); 8] = [
        // No clearing after 25; a number cleared past the end; all cleared whatever is refused.
        |_, work, _, written| work.iter_mut().take((written.refusal == 25) as usize).for_each(|n| *n = 1),
        |_, work, _, written| {
            work.iter_mut().last().into_iter().for_each(|n| *n = if written.refusal == 0 { 0 } else { *n })
        },
        |_, work, _, written| work.iter_mut().take((written.refusal == 24) as usize).for_each(|n| *n = 0),
        // A byte past the stream; another opening; bits that no rule names.
        |_, _, stream, written| stream.iter_mut().skip(written.length as usize).take(1).for_each(|b| *b = 0),
        |_, _, stream, written| {
            stream.iter_mut().take((written.refusal == 0) as usize).for_each(|b| *b = b'0')
        },
        |_, _, stream, written| {
            stream.iter_mut().skip(31).take((written.refusal == 0) as usize).for_each(|b| *b = 1)
        },
        // A refusal in another order, and a length with a refusal.
        |case, _, _, written| {
            written.refusal = if case.sides.1 < 16 && written.refusal == 4 { 24 } else { written.refusal }
        },
        |case, _, _, written| {
            written.length = if written.refusal == 4 { case.stream as u64 } else { written.length }
        },
    ];
    for (i, mistake) in mistakes.into_iter().enumerate() {
        let (tally, failing) = run(&Mistaken(mistake), 5, 600);
        let (_, what) = failing.unwrap_or_else(|| panic!("mistake {i} shows"));
        assert!(tally.mismatches > 0 && !what.is_empty(), "mistake {i}");
    }
}
