//! The command `write`: planes written by the library, held against the model of the writer byte for
//! byte, both slices after the call too, and decoded again by the original.

pub mod draw;
#[cfg(test)]
mod tests;

use crate::check::equal;
use crate::oracle::{self, Counts};
use crate::ours::{Writer, Written};
use crate::rng::Rng;
use crate::size::Size;
use crate::writing::{self, Call};
use draw::draw_case;

/// One call of the writer; the slices have what the planes have and these lengths.
#[derive(Debug, Clone, PartialEq, Eq)]
pub struct Case {
    pub sides: (usize, usize),
    pub planes: [Vec<i32>; 3],
    pub work: usize,
    pub stream: usize,
}

impl Case {
    pub fn planes(&self) -> [&[i32]; 3] {
        self.planes.each_ref().map(Vec::as_slice)
    }

    /// What the model says.
    pub fn expected(&self) -> writing::Outcome {
        let Case { sides, work, stream, .. } = *self;
        writing::write(&Call { planes: self.planes(), sides, work, stream })
    }

    /// The case in words, without its numbers.
    pub fn describe(&self) -> String {
        let [green, red, blue] = self.planes.each_ref().map(Vec::len);
        let Case { sides: (width, height), work, stream, .. } = self;
        format!(
            "{width} by {height}, lent green {green}, red {red}, blue {blue}, work {work}, stream {stream}"
        )
    }
}

/// What the model answers to a case.
#[derive(Debug, Clone, Copy, PartialEq, Eq)]
pub enum Seen {
    Accepted {
        guarded: bool,
        bytes: usize,
    },
    Refused(u64),
    /// Number 4 last of all: the stream's slice is too short.
    StreamShort,
}

/// The number and the byte that stand at a place of a slice before the call.
fn number_before(place: usize) -> i32 {
    (place as u32).wrapping_mul(0x9e37_79b1) as i32 | 1
}

fn byte_before(place: usize) -> u8 {
    (place as u32).wrapping_mul(0x9e37_79b1).to_be_bytes()[0] | 1
}

/// Compares the writer with the model in one case; the text says where they part.
pub fn check(writer: &impl Writer, case: &Case) -> Result<Seen, String> {
    let expected = case.expected();
    let mut work: Vec<i32> = (0..case.work).map(number_before).collect();
    let mut stream: Vec<u8> = (0..case.stream).map(byte_before).collect();
    let written = writer.write_stream(case.planes(), case.sides, &mut work, &mut stream);
    let answer = Written { refusal: expected.refusal, length: expected.stream.len() as u64 };
    parts("answer", written == answer, || format!("{written:?}, the model {answer:?}"))?;
    let left = |place: usize| expected.stream.get(place).copied().unwrap_or_else(|| byte_before(place));
    parts_at("stream", &stream, left)?;
    parts_at("work", &work, |place| if place < expected.zeroed { 0 } else { number_before(place) })?;
    if expected.refusal > 0 {
        return Ok(match (expected.refusal, expected.zeroed) {
            (4, 1..) => Seen::StreamShort,
            (number, _) => Seen::Refused(number),
        });
    }
    decoded_again(writer, case, &expected.stream)?;
    let guarded = !case.sides.1.is_multiple_of(16);
    Ok(Seen::Accepted { guarded, bytes: expected.stream.len() })
}

fn parts(what: &str, same: bool, told: impl Fn() -> String) -> Result<(), String> {
    if same {
        return Ok(());
    }
    Err(format!("{what}: ours {}", told()))
}

/// A slice after the call is what the model leaves there.
fn parts_at<T: Copy + PartialEq + std::fmt::Debug>(
    name: &str,
    found: &[T],
    left: impl Fn(usize) -> T,
) -> Result<(), String> {
    match found.iter().enumerate().position(|(place, &element)| element != left(place)) {
        None => Ok(()),
        Some(at) => {
            parts(&format!("{name}[{at}]"), false, || format!("{:?}, the model {:?}", found[at], left(at)))
        }
    }
}

/// The original and our decoder give the planes again, and no record stops.
fn decoded_again(writer: &impl Writer, case: &Case, stream: &[u8]) -> Result<(), String> {
    let size = Size { width: case.sides.0, half: case.sides.1 / 2 };
    let needed = size.needed();
    let original =
        oracle::decode(stream, needed).map_err(|number| format!("the original refuses it: {number}"))?;
    equal("size", &original.size, &size)?;
    let Counts { stopped, broken, spent, bits } = original.counts;
    equal("stopped, broken and spent records", &[stopped, broken, spent], &[0; 3])?;
    if let Some(course) = original.courses.iter().find(|c| c.bits.div_ceil(8) != c.bytes) {
        return Err(format!("a record of {} bytes takes {} bits", course.bytes, course.bits));
    }
    let mut slices = needed.map(|length| vec![1; length]);
    let decoded = writer.decode_stream(stream, &mut slices);
    equal("refusal and bits of ours", &[decoded.refusal, decoded.bits], &[0, bits])?;
    let again = [&original.green, &original.red, &original.blue];
    for (i, name) in ["green", "red", "blue"].into_iter().enumerate() {
        let meant = &case.planes[i][..needed[i]];
        if again[i] != meant || slices[i] != meant {
            return Err(format!("{name}: decoded, it is another one"));
        }
    }
    Ok(())
}

/// The counts of a run.
#[derive(Debug, Clone, Default)]
pub struct Tally {
    pub cases: usize,
    pub plain: usize,
    pub guarded: usize,
    pub bytes: usize,
    pub refused: [usize; 27],
    pub stream_short: usize,
    pub mismatches: usize,
}

impl Tally {
    fn count(&mut self, seen: Seen) {
        match seen {
            Seen::Accepted { guarded, bytes } => {
                self.plain += !guarded as usize;
                self.guarded += guarded as usize;
                self.bytes += bytes;
            }
            Seen::Refused(number) => self.refused[number as usize] += 1,
            Seen::StreamShort => self.stream_short += 1,
        }
    }

    pub fn print(&self) {
        let line = |what: &str, count: usize| println!("{what:<48}{count:>13}");
        line("calls", self.cases);
        line("accepted, plain", self.plain);
        line("accepted, guarded", self.guarded);
        line("  bytes written", self.bytes);
        for (number, what) in REFUSALS {
            line(&format!("refused {number:>2}  {what}"), self.refused[number]);
        }
        line("refused  4  last of all, the stream's slice", self.stream_short);
        line("mismatches", self.mismatches);
    }
}

/// The refusals of a call, in their order.
pub const REFUSALS: [(usize, &str); 7] = [
    (2, "width or height"),
    (3, "plane above 134,217,728 numbers"),
    (4, "planes or work too short"),
    (20, "coded height above 32,767"),
    (24, "coded height under 16"),
    (25, "a number that no stream holds"),
    (26, "a record or a group too long"),
];

/// The table of a run, and a failing case with what went wrong in it.
pub type Outcome = (Tally, Option<(Case, String)>);

/// Runs `count` random cases; the first that fails is made smaller.
pub fn run(writer: &impl Writer, seed: u64, count: usize) -> Outcome {
    let mut seeds = Rng::new(seed);
    let mut tally = Tally::default();
    let mut failing: Option<Case> = None;
    for _ in 0..count {
        let case = draw_case(&mut Rng::new(seeds.word()));
        tally.cases += 1;
        match check(writer, &case) {
            Ok(seen) => tally.count(seen),
            Err(_) => {
                tally.mismatches += 1;
                failing.get_or_insert(case);
            }
        }
    }
    let told = failing.map(|case| {
        let case = shrink(writer, case);
        let what = check(writer, &case).err().unwrap_or_default();
        (case, what)
    });
    (tally, told)
}

/// Most cases that are tried to make one smaller.
const ATTEMPTS: usize = 1000;

/// Clears stretches of a failing case's planes as long as it still fails.
fn shrink(writer: &impl Writer, mut best: Case) -> Case {
    let mut attempts = 0;
    for plane in 0..3 {
        let mut step = best.planes[plane].len();
        while step > 0 {
            for at in (0..best.planes[plane].len()).step_by(step) {
                let mut smaller = best.clone();
                let end = (at + step).min(smaller.planes[plane].len());
                smaller.planes[plane][at..end].fill(0);
                attempts += 1;
                if attempts <= ATTEMPTS && smaller != best && check(writer, &smaller).is_err() {
                    best = smaller;
                }
            }
            step /= 2;
        }
    }
    best
}
