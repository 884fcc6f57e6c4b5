//! The command `ordinary`: random tiles with selectors up to 4, whole and damaged, in which the
//! library, the original and the synthesis on whole numbers must agree, and nothing leaves 32 bits.

use crate::bits::overwrite;
use crate::check::equal;
use crate::encoder::{Value, MAX_WIDTH};
use crate::oracle::{self, Planes};
use crate::ours::{Decoded, Decoder, Slices};
use crate::packets::{record_at, Record};
use crate::records::{draw_value, Recipe};
use crate::rng::Rng;
use crate::size::{Shape, Size};
use crate::stages::{self, thousands, STAGES};
use crate::streams::{assemble, draw_parts, Stream, TILE_PACKETS};
use crate::watch::Held;
use crate::whole::{self, Coefficients, Rows};
use crate::written::{self, MOST_BYTES};

/// The greatest selector of an ordinary tile.
pub const GREATEST_SELECTOR: u32 = 4;

/// Every number of an ordinary tile's planes lies strictly between this and its negative.
pub const PLANES_BELOW: i64 = 536_870_912;

// Drawing.

/// How the values of a component are drawn.
#[derive(Debug, Clone, Copy)]
enum Manner {
    Zero,
    Small,
    /// As many bits as one likes, up to all.
    Any,
    /// The greatest magnitudes, with random signs.
    Extreme,
    /// The greatest magnitudes, with signs that alternate by row, by column, by both or by none.
    Stripes([usize; 3]),
    /// The greatest steps of band 0 under selector 0, all with one sign.
    Steps(bool),
}

impl Manner {
    fn draw(rng: &mut Rng) -> Self {
        match rng.below(12) {
            0 => Manner::Zero,
            1 => Manner::Small,
            2 | 3 => Manner::Any,
            4..=6 => Manner::Extreme,
            7 => Manner::Steps(rng.one_in(2)),
            _ => Manner::Stripes(std::array::from_fn(|_| rng.below(2))),
        }
    }

    fn value(self, rng: &mut Rng, row: usize, column: usize) -> Value {
        let most = (1 << MAX_WIDTH) - 1;
        match self {
            Manner::Zero => Value::default(),
            Manner::Small => draw_value(rng, 3.0),
            Manner::Any => {
                let bits = rng.within(1, MAX_WIDTH as usize);
                Value { u: rng.below(1 << bits) as u32, negative: rng.one_in(2) }
            }
            Manner::Extreme => Value { u: most - rng.pick(&[0, 0, 0, 1, 2]), negative: rng.one_in(2) },
            Manner::Stripes([a, b, c]) => {
                Value { u: most - rng.one_in(8) as u32, negative: (a * row + b * column + c) % 2 == 1 }
            }
            Manner::Steps(negative) => Value { u: 32_767 + negative as u32, negative },
        }
    }
}

/// A record of these manners and selectors, one of each for a component; a payload that no byte
/// length can tell is cut.
fn record(rng: &mut Rng, shape: Shape, manners: [Manner; 3], selectors: [u32; 3]) -> Record {
    let mut values = Vec::with_capacity(shape.numbers());
    for row in 0..shape.rows() {
        values.extend((0..shape.columns).map(|x| manners[row / shape.m].value(rng, row % shape.m, x)));
    }
    let mut record = written::record(shape, selectors, &values);
    record.payload.truncate(MOST_BYTES);
    record
}

fn draw_selectors(rng: &mut Rng) -> [u32; 3] {
    std::array::from_fn(|_| rng.below(GREATEST_SELECTOR as usize + 1) as u32)
}

/// A record of mixed selectors; `all` is the manner of each of its components, but band 0 often
/// steps one way.
fn draw_record(rng: &mut Rng, shape: Shape, all: Option<Manner>) -> Record {
    if shape.rows() == 1 && rng.one_in(2) {
        let steps = Manner::Steps(rng.one_in(2));
        return record(rng, shape, [steps; 3], [0; 3]);
    }
    let selectors = if rng.one_in(8) { [0; 3] } else { draw_selectors(rng) };
    let manners = std::array::from_fn(|_| all.unwrap_or_else(|| Manner::draw(rng)));
    record(rng, shape, manners, selectors)
}

/// A tile of the greatest magnitudes with random signs, under one selector or mixed ones.
pub fn draw_extreme(rng: &mut Rng, size: Size, selector: Option<u32>) -> Stream {
    let mut one = |shape| {
        let selectors = selector.map_or_else(|| draw_selectors(rng), |selector| [selector; 3]);
        record(rng, shape, [Manner::Extreme; 3], selectors)
    };
    let records = std::array::from_fn(|group| {
        let mut packet = || (0..=size.n()).map(|_| one(size.shape(group))).collect();
        (0..TILE_PACKETS[group]).map(|_| packet()).collect()
    });
    written::stream(size, &records)
}

/// All sorts of small sizes, now and then some thousand columns, seldom as wide as can be.
fn draw_size(rng: &mut Rng) -> Size {
    let (width, height) = match rng.below(60) {
        0 | 1 if rng.one_in(30) => (65_520, rng.pick(&[16, 18])),
        0 | 1 => (16 * rng.within(64, 320), rng.pick(&[16, 18, 30, 32])),
        2..=6 => (16 * rng.within(5, 24), 2 * rng.within(8, 20)),
        7..=10 => (16, 2 * rng.within(8, 120)),
        11..=29 => (16 * rng.within(1, 3), rng.pick(&[16, 18, 30, 32, 34, 48, 64])),
        _ => (16 * rng.within(1, 5), 2 * rng.within(8, 30)),
    };
    let half = if rng.one_in(3) { height / 16 * 8 } else { height / 2 };
    Size { width, half }
}

/// A whole tile: mostly of chosen values, else with records that stop and packets that are short.
pub fn draw_ordinary(rng: &mut Rng) -> Stream {
    let size = draw_size(rng);
    if rng.one_in(5) {
        let recipe = Recipe { selectors: [0, GREATEST_SELECTOR], ..Recipe::draw(rng) };
        return assemble(&draw_parts(rng, size, &recipe));
    }
    let all = if rng.one_in(2) { Some(Manner::draw(rng)) } else { None };
    let records = std::array::from_fn(|group| {
        let fewer = (size.guarded() && rng.one_in(8)) as usize;
        let mut packet = || (fewer..=size.n()).map(|_| draw_record(rng, size.shape(group), all)).collect();
        (0..TILE_PACKETS[group]).map(|_| packet()).collect()
    });
    written::stream(size, &records)
}

/// Flips bits of payloads or of record headers, or shortens records.
fn damage(rng: &mut Rng, stream: &mut Stream) {
    let manner = rng.below(5);
    for _ in 0..rng.pick(&[1, 1, 2, 5, 20]) {
        let (group, start, payloads, end) = draw_packet(rng, stream);
        match manner {
            0 | 1 => {
                let at = record_at(stream.size.shape(group).kind, rng.below(stream.size.n() + 1));
                shorten(rng, &mut stream.bytes[start..end], at);
            }
            2 => flip(rng, &mut stream.bytes[start + 16..payloads]),
            _ => flip(rng, &mut stream.bytes[payloads..end]),
        }
    }
}

/// Flips bits of payloads.
pub fn damage_payloads(rng: &mut Rng, stream: &mut Stream, count: usize) {
    for _ in 0..count {
        let (_, _, payloads, end) = draw_packet(rng, stream);
        flip(rng, &mut stream.bytes[payloads..end]);
    }
}

/// A packet of the tile: its group, its start, its payloads' start, its end.
fn draw_packet(rng: &mut Rng, stream: &Stream) -> (usize, usize, usize, usize) {
    let group = rng.below(5);
    let (start, length) = stream.packets[group][rng.below(TILE_PACKETS[group])];
    let control = u16::from_be_bytes([stream.bytes[start], stream.bytes[start + 1]]) as usize;
    (group, start, start + 16 * (control + 1), start + length)
}

fn flip(rng: &mut Rng, bytes: &mut [u8]) {
    if !bytes.is_empty() {
        bytes[rng.below(bytes.len())] ^= 1 << rng.below(8);
    }
}

/// Lowers the byte length in the record header at bit `at`.
fn shorten(rng: &mut Rng, packet: &mut [u8], at: usize) {
    let bit = |i: usize| packet.get(i / 8).map_or(0, |byte| byte >> (7 - i % 8) & 1) as u32;
    let length = (at..at + 16).fold(0, |length, i| 2 * length + bit(i));
    overwrite(packet, at, 16, rng.below(length as usize + 1) as u32);
}

// Holding.

/// Holds the library, the original and the whole numbers against each other on an ordinary tile.
pub fn hold(decoder: &impl Decoder, stream: &[u8], original: &Planes) -> Result<Held, String> {
    let size = original.size;
    let mut slices: Slices = size.needed().map(|length| vec![1; length]);
    let decoded = decoder.decode_stream(stream, &mut slices);
    equal("answer", &decoded, &Decoded::by(Ok(original)))?;
    let (held, whole) = hold_whole(stream, original)?;
    for (i, name) in NAMES.into_iter().enumerate() {
        same(&format!("{name} of the library"), &slices[i], &whole[i])?;
    }
    Ok(held)
}

const NAMES: [&str; 3] = ["green", "red", "blue"];

/// The planes in whole numbers, held against the original's.
pub fn hold_whole(stream: &[u8], original: &Planes) -> Result<(Held, [Rows; 3]), String> {
    let mut held = Held::default();
    let whole = whole::planes(&Coefficients::of(stream, original.size), &mut held);
    let originals = [&original.green, &original.red, &original.blue];
    for (i, name) in NAMES.into_iter().enumerate() {
        same(&format!("{name} of the original"), originals[i], &whole[i])?;
    }
    within(&held, &whole)?;
    Ok((held, whole))
}

/// The numbers are those of the model.
fn same(name: &str, found: &[i32], whole: &Rows) -> Result<(), String> {
    let pairs = found.iter().zip(whole.iter().flatten()).enumerate();
    match pairs.into_iter().find(|(_, (&found, &whole))| found as i64 != whole) {
        None if found.len() == whole.iter().map(Vec::len).sum() => Ok(()),
        None => Err(format!("{name}: {} numbers", found.len())),
        Some((i, (found, whole))) => Err(format!("{name}[{i}]: {found}, in whole numbers {whole}")),
    }
}

/// Nothing left 32 bits or the bounds, every pass was T.800's, and the planes are small.
fn within(held: &Held, planes: &[Rows; 3]) -> Result<(), String> {
    if !held.all_within_32 {
        return Err("a number left signed 32 bits".to_string());
    }
    if !held.all_filters {
        return Err("a pass was not T.800's filter".to_string());
    }
    if let Some(number) = planes.iter().flatten().flatten().find(|number| number.abs() >= PLANES_BELOW) {
        return Err(format!("{number} in a plane"));
    }
    match (0..stages::COUNT).find(|&i| held.largest[i] > STAGES[i].1) {
        None => Ok(()),
        Some(i) => Err(format!("{}: {} is above its bound", STAGES[i].0, held.largest[i])),
    }
}

// Many tiles.

/// The counts of a run.
#[derive(Debug, Clone, Default)]
pub struct Tally {
    pub plain: usize,
    pub guarded: usize,
    pub whole: usize,
    pub damaged: usize,
    /// Damaged streams that were drawn and do not count: refused, or with a selector above 4.
    pub refused: usize,
    pub above: usize,
    pub stopped: usize,
    pub mismatches: usize,
    pub largest: [i64; stages::COUNT],
}

impl Tally {
    pub fn cases(&self) -> usize {
        self.whole + self.damaged
    }

    fn count(&mut self, planes: &Planes, damaged: bool) {
        let guarded = planes.size.guarded() as usize;
        self.guarded += guarded;
        self.plain += 1 - guarded;
        self.damaged += damaged as usize;
        self.whole += !damaged as usize;
        self.stopped += (planes.counts.stopped > 0) as usize;
    }

    pub fn print(&self) {
        let line = |what: &str, count: usize| println!("{what:<48}{count:>9}");
        line("cases: ordinary tiles", self.cases());
        line("  plain", self.plain);
        line("  guarded", self.guarded);
        line("  whole", self.whole);
        line("  damaged", self.damaged);
        line("  with stopped records", self.stopped);
        line("damaged ones that were drawn", self.damaged + self.refused + self.above);
        line("  of these refused", self.refused);
        line("  of these with a selector above 4", self.above);
        line("mismatches", self.mismatches);
        println!("\n{:<30}{:>16}{:>16}", "largest magnitude", "seen", "bound");
        for (largest, (name, bound)) in self.largest.iter().zip(STAGES) {
            println!("{name:<30}{:>16}{:>16}", thousands(*largest), thousands(bound));
        }
    }
}

/// The table, and the shortest stream that fails with what went wrong in it.
pub type Outcome = (Tally, Option<(Vec<u8>, String)>);

/// Draws tiles until so many are ordinary.
pub fn run(decoder: &impl Decoder, seed: u64, count: usize) -> Outcome {
    let mut seeds = Rng::new(seed);
    let mut tally = Tally::default();
    let mut failing: Option<(Vec<u8>, String)> = None;
    while tally.cases() < count {
        let mut rng = Rng::new(seeds.word());
        let mut stream = draw_ordinary(&mut rng);
        let damaged = rng.one_in(2);
        if damaged {
            damage(&mut rng, &mut stream);
        }
        let Some(planes) = ordinary(&mut tally, &stream.bytes, damaged) else { continue };
        match hold(decoder, &stream.bytes, &planes) {
            Ok(held) => tally.largest = std::array::from_fn(|i| tally.largest[i].max(held.largest[i])),
            Err(what) => {
                tally.mismatches += 1;
                if failing.as_ref().is_none_or(|(shortest, _)| stream.bytes.len() < shortest.len()) {
                    failing = Some((stream.bytes, what));
                }
            }
        }
    }
    (tally, failing)
}

/// The original's planes if the tile is ordinary; the tally counts it or why it is not.
fn ordinary(tally: &mut Tally, stream: &[u8], damaged: bool) -> Option<Planes> {
    let answer = oracle::decode(stream, [usize::MAX; 4]);
    assert!(damaged || answer.is_ok(), "a whole tile is accepted");
    let Ok(planes) = answer else {
        tally.refused += 1;
        return None;
    };
    if oracle::greatest_selector(stream) > GREATEST_SELECTOR {
        assert!(damaged, "a whole tile has low selectors");
        tally.above += 1;
        return None;
    }
    tally.count(&planes, damaged);
    Some(planes)
}

#[cfg(test)]
mod tests {
    use super::*;
    use crate::ours::mock::{Mistaken, Mock};

    #[test]
    fn all_sorts_are_drawn() {
        let (tally, failing) = run(&Mock, 1, 1500);
        assert_eq!(failing, None);
        let counts = [tally.plain, tally.guarded, tally.whole, tally.damaged, tally.stopped];
        assert!(counts.iter().all(|&count| count > 200), "{counts:?}");
        assert!(tally.refused > 5 && tally.above > 5, "{} {}", tally.refused, tally.above);
        assert_eq!(tally.largest[..2], [8_388_599, 16_777_199]);
    }

    #[test]
    fn a_mistake_is_found() {
        let (tally, failing) = run(&Mistaken(|_, slices, _| slices[2][3] ^= 1), 1, 20);
        assert_eq!(tally.mismatches, 20);
        assert!(failing.is_some_and(|(_, what)| what.starts_with("blue of the library[3]: ")));
    }

    /// With selectors of 15 the numbers leave 32 bits, and that is told.
    #[test]
    fn what_is_not_ordinary_fails() {
        let size = Size { width: 32, half: 16 };
        let stream = assemble(&draw_parts(&mut Rng::new(1), size, &Recipe::ordinary(1e5, [15, 15]))).bytes;
        let planes = oracle::decode(&stream, size.needed()).unwrap();
        let what = hold(&Mock, &stream, &planes).unwrap_err();
        assert!(what.starts_with("green of the original[0]: "), "{what}");
    }
}
