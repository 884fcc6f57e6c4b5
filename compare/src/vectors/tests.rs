//! The vectors are read back and held against the original.

use super::*;
use crate::inspected::{ask, Query};
use crate::oracle::Course;
use crate::ours::mock::Mock;
use crate::ours::Inspected;
use crate::write::{self, Case};

/// A reader of the format.
struct Reader<'a>(&'a [u8]);

impl<'a> Reader<'a> {
    fn take(&mut self, count: usize) -> &'a [u8] {
        let (taken, rest) = self.0.split_at(count);
        self.0 = rest;
        taken
    }

    fn word(&mut self) -> usize {
        u32::from_le_bytes(self.take(4).try_into().unwrap()) as usize
    }

    fn words<const N: usize>(&mut self) -> [usize; N] {
        std::array::from_fn(|_| self.word())
    }

    fn numbers(&mut self, count: usize) -> Vec<i32> {
        (0..count).map(|_| self.word() as u32 as i32).collect()
    }
}

/// Reads every case of a kind with `read`, which must end at the end of the last.
fn read_all(name: &str, limit: usize, mut read: impl FnMut(&mut Reader)) {
    let kind = 1 + KINDS.iter().position(|k| k.0 == name).unwrap();
    for seed in 1..=5 {
        let Vectors { cases, bytes, .. } = Vectors::of_kind(kind, seed);
        assert!(bytes.len() < limit, "{name} {seed}: {} bytes", bytes.len());
        assert_eq!(bytes, Vectors::of_kind(kind, seed).bytes);
        let mut reader = Reader(&bytes);
        for _ in 0..cases {
            assert_eq!(reader.word(), kind);
            read(&mut reader);
        }
        assert!(reader.0.is_empty());
    }
}

/// The files of `replay` are those of seed 1, and `tiles` has document 01's example.
#[test]
fn files_are_these() {
    let (input, output) = make(1);
    assert!(input == include_bytes!("../../../crates/replay/stdin"));
    assert_eq!(output, include_str!("../../../crates/replay/stdout"));
    let example = listings::framed(16, 16, &edge_strips()[0].bytes);
    assert_eq!(example, include_bytes!("../../../crates/tiles/stdin"));
    assert_eq!(listings::response(&example), include_str!("../../../crates/tiles/stdout"));
}

#[test]
fn strips_read_back() {
    let mut counts = [0; 17];
    read_all("strips", 200_000, |r| {
        let [length, width, height, count] = r.words();
        let strip = r.take(length);
        let tiles: Vec<[usize; 6]> = (0..count).map(|_| r.words()).collect();
        assert_eq!(oracle::tiles(strip, (width, height)), tiles);
        counts[count] += 1;
    });
    assert!(counts[0] > 0 && counts[1] > 0 && counts[2] > 0 && counts[16] > 0);
}

#[test]
fn refusals_read_back() {
    let mut counts = [0; 25];
    read_all("refusals", 150_000, |r| {
        let [length, green, red, blue, work, number] = r.words();
        let stream = r.take(length);
        let answer = oracle::decode(stream, [green, red, blue, work]);
        assert_eq!(answer.err().unwrap_or(0) as usize, number);
        counts[number] += 1;
    });
    assert!((2..=24).all(|number| counts[number] >= 5), "{counts:?}");
}

fn counts(counts: [usize; 3]) -> Counts {
    let [broken, spent, bits] = counts.map(|count| count as u64);
    Counts { stopped: broken + spent, broken, spent, bits }
}

/// Records that stay broken, that turn, that are spent in their first row and later, and that are
/// whole.
#[derive(Default)]
struct Kinds([usize; 5]);

impl Kinds {
    fn add(&mut self, courses: &[Course]) {
        for course in courses {
            let kind = match (course.first(), course.last()) {
                (1, 1) => 0,
                (1, _) => 1,
                (2, _) if course.statuses[0] == 2 => 2,
                (2, _) => 3,
                _ => 4,
            };
            self.0[kind] += 1;
        }
    }

    fn all_there(&self) {
        assert!(self.0.iter().all(|&count| count >= 50), "{:?}", self.0);
    }
}

#[test]
fn records_read_back() {
    let mut seen = Kinds::default();
    read_all("records", 150_000, |r| {
        let [length, kind, m, columns, records, broken, spent, bits] = r.words();
        let packet = r.take(length);
        let shape = Shape { kind, m, columns };
        let numbers = r.numbers(records * shape.numbers());
        assert_eq!(
            oracle::packet_coefficients(packet, shape, records),
            Ok((numbers, counts([broken, spent, bits])))
        );
        assert!(records * shape.numbers() <= 1024 && kind.max(m).max(columns).max(records) < 256);
        seen.add(&oracle::packet_courses(packet, shape).unwrap());
    });
    seen.all_there();
}

#[test]
fn tiles_read_back() {
    let mut seen = Kinds::default();
    read_all("tiles", 600_000, |r| {
        let [length, refusal, width, height, rows, broken, spent, bits] = r.words();
        let stream = r.take(length);
        let planes = [width, width / 2, width / 2].map(|columns| r.numbers(rows * columns));
        match oracle::decode(stream, [usize::MAX; 4]) {
            Err(number) => assert_eq!([refusal, rows, broken, spent, bits], [number as usize, 0, 0, 0, 0]),
            Ok(found) => {
                assert_eq!([found.green, found.red, found.blue], planes);
                let size = (found.size.width, found.size.height(), found.size.rows());
                assert_eq!((size, found.counts), ((width, height, rows), counts([broken, spent, bits])));
                let most = found.size.needed();
                assert!(most[0] <= 1024 && most[1] <= 512 && most[3] <= 4096 && width.max(height) < 256);
                seen.add(&found.courses);
            }
        }
    });
    seen.all_there();
}

#[test]
fn listings_read_back() {
    let mut texts = Vec::new();
    read_all("listings", 200_000, |r| {
        let [length, printed] = r.words();
        let input = r.take(length);
        let text = String::from_utf8(r.take(printed).to_vec()).unwrap();
        assert_eq!(listings::response(input), text);
        texts.push((length, text));
    });
    let expected = [
        (648, "tiles 0\n"),
        (7, "too short\n"),
        (65_537, "too long\n"),
        (2056, "tiles 3\n512 192 0 0 32 16\n1024 160 48 0 16 32\n1536 512 32 32 32 16\n"),
        (65_536, "tiles 1\n512 4224 0 0 64 32\n"),
        (4104, "tiles 1\n736 144 16 8 16 32\n"),
    ];
    assert_eq!(texts[..6], expected.map(|(length, text)| (length, text.to_string())));
}

#[test]
fn written_read_back() {
    let (mut numbers, mut last_4) = ([0; 27], 0);
    read_all("written", 400_000, |r| {
        let [input, width, height, green, red, blue, work, stream, refusal, length, zeroed] = r.words();
        assert_eq!(input, 4 * (green + red + blue));
        let planes = [green, red, blue].map(|count| r.numbers(count));
        let case = Case { sides: (width, height), planes, work, stream };
        let expected = case.expected();
        assert_eq!((expected.refusal as usize, expected.zeroed), (refusal, zeroed));
        assert!(expected.stream == r.take(length));
        assert!(green <= 1024 && red.max(blue) <= 512 && work <= 4096 && stream <= 8192);
        assert!(write::check(&Mock, &case).is_ok());
        numbers[refusal] += 1;
        last_4 += (refusal == 4 && zeroed > 0) as usize;
    });
    assert!([0, 2, 3, 4, 24, 25].into_iter().all(|number| numbers[number] >= 5), "{numbers:?}");
    assert!(last_4 >= 5 && numbers[0] > 200 && numbers[25] > 200, "{last_4} {numbers:?}");
}

/// Records of every packet, whole, broken, spent and empty ones of every group; refusals, bands that are
/// too short, and what is not there.
#[test]
fn inspected_read_back() {
    let (mut refusals, mut packets, mut groups, mut absent) = ([0; 25], [0; 13], [[0; 4]; 5], [0; 2]);
    read_all("inspected", 400_000, |r| {
        let [length, packet, record, lent, refusal, bytes, allowance, bits, broken, spent, written] =
            r.words();
        let stream = r.take(length);
        let numbers = r.numbers(written);
        let tile = oracle::tile_packets(stream);
        let answer = ask(&Mock, stream, &tile, Query { packet, record, band: lent }).unwrap();
        let words = [refusal, bytes, allowance, bits, broken, spent].map(|word| word as u64);
        let [refusal, bytes, allowance, bits, broken, spent] = words;
        assert_eq!(answer, Inspected { refusal, bytes, allowance, bits, broken, spent });
        assert!(length <= inspected::MOST_BYTES && lent <= inspected::MOST_BAND && written <= lent);
        refusals[refusal as usize] += 1;
        let Ok(tile) = tile else {
            return assert_eq!(written, 0);
        };
        if packet >= 13 || record >= tile[packet].records() {
            absent[(packet < 13) as usize] += 1;
            return assert_eq!((written, answer), (0, Inspected::default()));
        }
        packets[packet] += 1;
        if refusal == 0 {
            assert_eq!(numbers, tile[packet].record(record).0);
            let kind = if bytes == 0 { 3 } else { broken + 2 * spent };
            groups[oracle::ORDER[packet].0][kind as usize] += 1;
        }
    });
    let refused = refusals[2..].iter().filter(|&&count| count >= 5).count();
    assert!(refused >= 22 && refusals[3] == 0 && refusals[4] >= 5, "{refusals:?}");
    assert!(packets.iter().all(|&count| count >= 5) && absent.iter().all(|&count| count >= 5));
    assert!(groups.iter().flatten().all(|&count| count >= 5), "{groups:?}");
}
