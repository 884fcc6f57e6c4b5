//! Holds a decoder's answer for one case against the original's, and makes a failing case smaller.

use crate::faults::Trial;
use crate::inspected;
use crate::oracle::{self, Counts, Course, Planes, TilePacket};
use crate::ours::{Decoded, Decoder, Lengths, Slices};
use crate::strips::Strip;
use crate::used::{End, Read};

/// One case of the comparison.
#[derive(Debug, Clone, PartialEq, Eq)]
pub enum Case {
    Stream(Trial),
    Strip(Strip),
}

/// What the original answers to a case.
#[derive(Debug, Clone, Copy, PartialEq, Eq)]
pub enum Seen {
    Accepted { guarded: bool, counts: Counts, records: Records },
    Tiles(usize),
    Refused(u64),
}

/// Records of an accepted stream that meet some end.
#[derive(Debug, Clone, Copy, Default, PartialEq, Eq)]
pub struct Records {
    /// Broken ones whose status turned from 1 into 2.
    pub turned: usize,
    /// Broken ones with rows and bits left.
    pub left_over: usize,
    /// Whole ones that take all of their allowance.
    pub exact: usize,
    /// Spent ones by the read that runs out: at its start, and within it.
    pub ends: [[usize; 2]; 9],
}

impl Records {
    pub fn add(&mut self, other: &Records) {
        self.turned += other.turned;
        self.left_over += other.left_over;
        self.exact += other.exact;
        let ends = self.ends.iter_mut().flatten().zip(other.ends.iter().flatten());
        ends.for_each(|(sum, more)| *sum += more);
    }

    /// 1 for each count that is not 0.
    pub fn once(&self) -> Records {
        let one = |count: usize| count.min(1);
        Records {
            turned: one(self.turned),
            left_over: one(self.left_over),
            exact: one(self.exact),
            ends: self.ends.map(|ends| ends.map(one)),
        }
    }

    /// Counts one record by its course and, if it is spent, by the read that runs out.
    pub fn note(&mut self, course: &Course, end: Option<End>) {
        self.turned += course.turned() as usize;
        self.left_over += course.left_over() as usize;
        self.exact += course.exact() as usize;
        if let Some(End { read, within }) = end {
            self.ends[read as usize][within as usize] += 1;
        }
    }

    /// What is told, in words, and how many there are.
    pub fn lines(&self) -> Vec<(String, usize)> {
        let mut lines = vec![
            ("broken, status turned from 1 into 2".to_string(), self.turned),
            ("broken, rows and bits left".to_string(), self.left_over),
            ("whole, all of the allowance taken".to_string(), self.exact),
        ];
        for read in Read::ALL {
            let [start, within] = self.ends[read as usize];
            lines.push((format!("spent before {}", read.name()), start));
            if !read.is_single() {
                lines.push((format!("spent within {}", read.name()), within));
            }
        }
        lines
    }
}

/// The number that stands at a place of a slice before the call.
pub fn pattern(slice: usize, place: usize) -> i32 {
    let mixed = (place as u32 ^ (slice as u32) << 29).wrapping_mul(0x9e37_79b1);
    (mixed ^ mixed >> 15) as i32 | 1
}

/// Slices of the lengths, filled with the pattern.
fn lend(lent: [usize; 4]) -> Slices {
    std::array::from_fn(|slice| (0..lent[slice]).map(|place| pattern(slice, place)).collect())
}

/// Compares the decoder with the original in one case; the text says where they part.
pub fn check(decoder: &impl Decoder, case: &Case) -> Result<Seen, String> {
    match case {
        Case::Stream(trial) => check_stream(decoder, trial),
        Case::Strip(strip) => check_strip(decoder, strip),
    }
}

fn check_stream(decoder: &impl Decoder, trial: &Trial) -> Result<Seen, String> {
    let lengths = Lengths::by(oracle::measure(&trial.stream));
    equal("lengths", &decoder.lengths(&trial.stream), &lengths)?;
    let expected = oracle::decode(&trial.stream, trial.lent);
    let mut slices = lend(trial.lent);
    let decoded = decoder.decode_stream(&trial.stream, &mut slices);
    equal("answer", &decoded, &Decoded::by(expected.as_ref()))?;
    let packets = oracle::tile_packets(&trial.stream);
    if !matches!(decoded.refusal, 3 | 4) {
        let refusal = packets.as_ref().err().copied().unwrap_or(0);
        equal("refusal by the checks in turn", &refusal, &decoded.refusal)?;
    }
    inspected::check_some(decoder, &trial.stream, &packets)?;
    let Ok(planes) = expected else {
        check_rests(&slices, [0; 4])?;
        return Ok(Seen::Refused(decoded.refusal));
    };
    let needed = planes.size.needed();
    let names = ["green", "red", "blue"];
    for (i, plane) in [&planes.green, &planes.red, &planes.blue].into_iter().enumerate() {
        check_numbers(names[i], &slices[i][..needed[i]], plane)?;
    }
    check_numbers("work", &slices[3][..needed[3]], &vec![0; needed[3]])?;
    check_rests(&slices, needed)?;
    let records = check_model(&planes, &packets.unwrap_or_default())?;
    Ok(Seen::Accepted { guarded: planes.size.guarded(), counts: planes.counts, records })
}

/// The model's count of each record's bits and its statuses are the original's.
fn check_model(planes: &Planes, packets: &[TilePacket]) -> Result<Records, String> {
    let mut records = Records::default();
    let mut courses = planes.courses.iter();
    for (p, packet) in packets.iter().enumerate() {
        for (i, course) in (0..packet.records()).zip(&mut courses) {
            let model = packet.model(i);
            if (&model.statuses, model.bits) != (&course.statuses, course.bits) {
                return Err(format!("packet {p}, record {i}: the model {model:?}, the original {course:?}"));
            }
            records.note(course, model.end);
        }
    }
    Ok(records)
}

/// Two answers are the same; else the text tells both.
pub fn equal<T: PartialEq + std::fmt::Debug>(what: &str, found: &T, expected: &T) -> Result<(), String> {
    match found == expected {
        true => Ok(()),
        false => Err(format!("{what}: ours {found:?}, the original {expected:?}")),
    }
}

pub fn check_numbers(name: &str, found: &[i32], expected: &[i32]) -> Result<(), String> {
    match found.iter().zip(expected).position(|(a, b)| a != b) {
        None => Ok(()),
        Some(i) => equal(&format!("{name}[{i}]"), &found[i], &expected[i]),
    }
}

/// The elements from the given lengths on are as they were.
fn check_rests(slices: &Slices, from: [usize; 4]) -> Result<(), String> {
    for (s, slice) in slices.iter().enumerate() {
        if let Some(i) = (from[s]..slice.len()).find(|&i| slice[i] != pattern(s, i)) {
            let name = ["green", "red", "blue", "work"][s];
            return Err(format!("{name}[{i}] was changed, though nothing is written there"));
        }
    }
    Ok(())
}

fn check_strip(decoder: &impl Decoder, strip: &Strip) -> Result<Seen, String> {
    let (bytes, frame) = (&strip.bytes, strip.frame);
    let expected = oracle::tiles(bytes, frame);
    equal("tile count", &decoder.tile_count(bytes, frame), &expected.len())?;
    for (ordinal, tile) in expected.iter().enumerate() {
        let found = std::array::from_fn(|field| decoder.tile_field(bytes, frame, ordinal, field));
        equal(&format!("tile {ordinal}"), &found, tile)?;
    }
    let absent = [(expected.len(), 0), (expected.len(), 5), (usize::MAX, 1), (0, 6), (0, usize::MAX)];
    for (ordinal, field) in absent {
        let found = decoder.tile_field(bytes, frame, ordinal, field);
        equal(&format!("field {field} of tile {ordinal}"), &found, &0)?;
    }
    Ok(if expected.is_empty() { Seen::Refused(1) } else { Seen::Tiles(expected.len()) })
}

/// Most cases that are tried to make one smaller.
const ATTEMPTS: usize = 4000;

/// Makes a failing case smaller: cuts its end and clears stretches of it as long as it still fails.
pub fn shrink(decoder: &impl Decoder, case: &Case) -> Case {
    let mut best = case.clone();
    let mut attempts = 0;
    let mut keep = |best: &mut Case, bytes: Vec<u8>| {
        attempts += 1;
        let smaller = best.with_bytes(bytes);
        let fails = attempts <= ATTEMPTS && check(decoder, &smaller).is_err();
        if fails {
            *best = smaller;
        }
        fails
    };
    let mut step = best.bytes().len();
    while step > 0 {
        while best.bytes().len() >= step {
            let shorter = best.bytes()[..best.bytes().len() - step].to_vec();
            if !keep(&mut best, shorter) {
                break;
            }
        }
        for at in (0..best.bytes().len()).step_by(step) {
            let mut cleared = best.bytes().to_vec();
            let end = (at + step).min(cleared.len());
            if cleared[at..end].iter().any(|&b| b != 0) {
                cleared[at..end].fill(0);
                keep(&mut best, cleared);
            }
        }
        step /= 2;
    }
    best
}

impl Case {
    fn bytes(&self) -> &[u8] {
        match self {
            Case::Stream(trial) => &trial.stream,
            Case::Strip(strip) => &strip.bytes,
        }
    }

    fn with_bytes(&self, bytes: Vec<u8>) -> Case {
        match self {
            Case::Stream(trial) => Case::Stream(Trial { stream: bytes, lent: trial.lent }),
            Case::Strip(strip) => Case::Strip(Strip { bytes, frame: strip.frame }),
        }
    }

    /// The case in words, without its bytes.
    pub fn describe(&self) -> String {
        match self {
            Case::Stream(t) => format!(
                "stream of {} bytes, lent green {}, red {}, blue {}, work {}",
                t.stream.len(),
                t.lent[0],
                t.lent[1],
                t.lent[2],
                t.lent[3]
            ),
            Case::Strip(s) => {
                format!("strip of {} bytes, frame {} by {}", s.bytes.len(), s.frame.0, s.frame.1)
            }
        }
    }

    /// Writes the case's bytes to a file.
    pub fn write(&self, path: &str) -> std::io::Result<()> {
        std::fs::write(path, self.bytes())
    }
}
