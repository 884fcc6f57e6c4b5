//! Draws the records of packets: coded coefficients with chosen widths and selectors, and records
//! that stop early, broken or spent.

use crate::bits::BitWriter;
use crate::encoder::{least_width, write_row, Group, Value, MAX_WIDTH};
use crate::packets::{Record, UNIT};
use crate::rng::Rng;
use crate::size::Shape;
use crate::used::{reads, Read};

/// What the records of a stream are like.
#[derive(Debug, Clone)]
pub struct Recipe {
    /// The mean magnitude of the values.
    pub mean: f64,
    /// The least and the greatest selector.
    pub selectors: [u32; 2],
    /// One record in so many is out of the ordinary; 0 means none.
    pub odd: usize,
    /// What such a record is like.
    pub styles: &'static [Style],
    /// One packet in so many of a guarded stream has one record fewer.
    pub fewer: usize,
    /// Widths now and then greater than needed.
    pub loose: bool,
    /// No spare units, no further packets and no bytes after the stream.
    pub plain_layout: bool,
}

impl Recipe {
    pub fn draw(rng: &mut Rng) -> Self {
        Recipe {
            mean: rng.pick(&[0.0, 0.1, 0.3, 1.0, 4.0, 30.0, 1000.0, 100_000.0]),
            selectors: [0, rng.pick(&[0, 0, 2, 4, 8, 15])],
            odd: rng.pick(&[0, 2, 4, 12]),
            styles: rng.pick(&[&Style::ODD as &[Style], &Style::AT_END, &Style::WITHIN]),
            fewer: rng.pick(&[1, 2, 6]),
            loose: rng.one_in(2),
            plain_layout: rng.one_in(2),
        }
    }

    /// Ordinary records alone, in the plain layout.
    pub fn ordinary(mean: f64, selectors: [u32; 2]) -> Self {
        Recipe {
            mean,
            selectors,
            odd: 0,
            styles: &Style::ODD,
            fewer: u32::MAX as usize,
            loose: false,
            plain_layout: true,
        }
    }
}

/// A value with a Laplace-like distribution.
pub fn draw_value(rng: &mut Rng, mean: f64) -> Value {
    if mean == 0.0 {
        return Value::default();
    }
    let u = (-(1.0 - rng.unit()).ln() * mean) as u32;
    Value { u: u.min((1 << MAX_WIDTH) - 1), negative: rng.one_in(2) }
}

fn draw_group(rng: &mut Rng, mean: f64) -> Group {
    std::array::from_fn(|_| draw_value(rng, mean))
}

/// The widths of a row's groups: the least, or greater now and then.
fn draw_widths(rng: &mut Rng, groups: &[Group], loose: bool) -> Vec<u32> {
    let slack = |rng: &mut Rng| if loose && rng.one_in(6) { rng.within(1, 4) as u32 } else { 0 };
    groups.iter().map(|g| (least_width(g) + slack(rng)).min(MAX_WIDTH)).collect()
}

/// The groups of a row and their widths.
fn draw_row(rng: &mut Rng, shape: Shape, recipe: &Recipe) -> (Vec<Group>, Vec<u32>) {
    let groups: Vec<Group> = (0..shape.groups()).map(|_| draw_group(rng, recipe.mean)).collect();
    let widths = draw_widths(rng, &groups, recipe.loose);
    (groups, widths)
}

/// The payload of a record; `wide` sets one width above 19.
fn coded(rng: &mut Rng, shape: Shape, selectors: &[u32; 3], recipe: &Recipe, wide: bool) -> Vec<u8> {
    let mut bits = BitWriter::default();
    let wide_row = if wide { rng.below(shape.rows()) } else { usize::MAX };
    for row in 0..shape.rows() {
        let (groups, mut widths) = draw_row(rng, shape, recipe);
        if row == wide_row {
            let g = rng.below(groups.len());
            widths[g] = MAX_WIDTH + rng.within(1, 60) as u32;
        }
        write_row(&mut bits, &groups, &widths, selectors[row / shape.m]);
    }
    bits.finish()
}

/// The payload of a record that meets a width above 19 at the end of its allowance: what tells the
/// width, with the signs after it, ends at most as many bits before the end as rows are left, or if
/// `past` some bits after it.
fn coded_to_end(rng: &mut Rng, shape: Shape, selectors: &[u32; 3], recipe: &Recipe, past: bool) -> Vec<u8> {
    let mut bits = BitWriter::default();
    let wide_row = rng.below(shape.rows());
    for row in 0..wide_row {
        let (groups, widths) = draw_row(rng, shape, recipe);
        write_row(&mut bits, &groups, &widths, selectors[row / shape.m]);
    }
    let (groups, widths) = draw_row(rng, shape, recipe);
    let g = if rng.one_in(2) { 0 } else { rng.below(groups.len()) };
    let with_width = |width: u32| {
        let (mut bits, mut widths) = (bits.clone(), widths.clone());
        widths[g] = width;
        write_row(&mut bits, &groups, &widths, selectors[wide_row / shape.m]);
        bits
    };

    let (left, over) = if past { (0, rng.within(1, 8)) } else { (rng.below(shape.rows() - wide_row), 0) };
    let least = MAX_WIDTH + 1 + over as u32;
    let end = with_width(least).written() + left - over;
    let allowance = end.next_multiple_of(8 * UNIT);
    let mut bits = with_width(least + (allowance - end) as u32);
    bits.put(rng.word() as u32, left as u32);
    let mut payload = bits.finish();
    payload.truncate(allowance / 8);
    payload
}

/// The payload of a record that runs out: cut to whole units, fewer than it takes. What fits into
/// one is drawn anew with large values, and kept if it still fits.
fn coded_past_end(rng: &mut Rng, shape: Shape, selectors: &[u32; 3], recipe: &Recipe) -> Vec<u8> {
    let mut payload = coded(rng, shape, selectors, recipe, false);
    if payload.len() <= UNIT {
        payload = coded(rng, shape, selectors, &Recipe { mean: 1e5, ..recipe.clone() }, false);
    }
    let units = payload.len().div_ceil(UNIT);
    payload.truncate(UNIT * rng.within(1, units.max(2) - 1));
    payload
}

/// The means of rows that have all kinds of reads.
const MEANS: [f64; 8] = [0.03, 0.1, 0.3, 1.0, 4.0, 30.0, 1000.0, 1e5];

/// How often a record is drawn until it has a read where it is asked for, if it is not large.
const TRIES: usize = 48;
const LARGE: usize = 2000;

/// The payload of a record of which a read is cut by the end of the allowance: one of a kind that is
/// drawn, at its start or within it, as the case may be; or of a record that takes all of its allowance
/// and no more. What has none after some draws is cut anywhere.
fn coded_to_read(rng: &mut Rng, shape: Shape, selectors: &[u32; 3], recipe: &Recipe) -> Vec<u8> {
    let wanted = Read::ALL.get(rng.below(Read::ALL.len() + 1));
    let within = rng.one_in(2);
    let mut payload = Vec::new();
    for _ in 0..if shape.numbers() > LARGE { 1 } else { TRIES } {
        payload = coded_unevenly(rng, shape, selectors, recipe);
        let reads = reads(&payload, *selectors, shape);
        let taken = reads.last().map_or(0, |last| last.at + last.bits);
        let Some(&wanted) = wanted else {
            if taken > 0 && taken.is_multiple_of(8 * UNIT) {
                return payload;
            }
            continue;
        };
        let ends = reads.iter().filter(|r| r.read == wanted && r.bits > 0).filter_map(|r| {
            let end = (r.at + (within && !wanted.is_single()) as usize).next_multiple_of(8 * UNIT);
            let cut = if within { end < r.at + r.bits } else { end == r.at };
            (cut && end > 0).then_some(end)
        });
        let ends: Vec<usize> = ends.collect();
        if !ends.is_empty() {
            payload.truncate(rng.pick(&ends) / 8);
            return payload;
        }
    }
    payload.truncate(UNIT * rng.within(1, payload.len().div_ceil(UNIT).max(1)));
    payload
}

/// The payload of a record whose rows have means of their own.
fn coded_unevenly(rng: &mut Rng, shape: Shape, selectors: &[u32; 3], recipe: &Recipe) -> Vec<u8> {
    let mut bits = BitWriter::default();
    for row in 0..shape.rows() {
        let recipe = Recipe { mean: rng.pick(&MEANS), ..recipe.clone() };
        let (groups, widths) = draw_row(rng, shape, &recipe);
        write_row(&mut bits, &groups, &widths, selectors[row / shape.m]);
    }
    bits.finish()
}

/// Draws one record.
pub fn draw_record(rng: &mut Rng, shape: Shape, recipe: &Recipe) -> Record {
    let style = if recipe.odd > 0 && rng.one_in(recipe.odd) { rng.pick(recipe.styles) } else { Style::Coded };
    draw_styled(rng, shape, recipe, style)
}

/// How a record's payload is made.
#[derive(Debug, Clone, Copy, PartialEq, Eq)]
pub enum Style {
    Coded,
    /// Byte length 0.
    Empty,
    /// Random bytes.
    Noise,
    /// A width above 19 in one row.
    Wide,
    /// Coded, then cut short, so that it runs out if the cut passes a 16-byte unit.
    Cut,
    /// One byte over and over.
    Same,
    /// A width above 19 so near the end of the allowance that a later row mostly runs past it.
    Brink,
    /// Coded with more bits than its allowance, unless it has few columns and one row.
    Spent,
    /// A width above 19 whose unary, or a sign after it, runs past the allowance.
    Past,
    /// Coded, the allowance ending at the start of a read or within it, each kind in turn, or with the
    /// last read.
    Within,
}

impl Style {
    /// Those out of the ordinary.
    pub const ODD: [Style; 5] = [Style::Empty, Style::Noise, Style::Wide, Style::Cut, Style::Same];
    /// Those at the end of their allowance, and the one that has none.
    pub const AT_END: [Style; 4] = [Style::Brink, Style::Spent, Style::Past, Style::Empty];
    /// Those whose allowance ends within each kind of read, and broken ones with bits left.
    pub const WITHIN: [Style; 4] = [Style::Within, Style::Within, Style::Within, Style::Wide];
    pub const ALL: [Style; 10] = [
        Style::Coded,
        Style::Empty,
        Style::Noise,
        Style::Wide,
        Style::Cut,
        Style::Same,
        Style::Brink,
        Style::Spent,
        Style::Past,
        Style::Within,
    ];
}

/// Draws one record of the style; a payload that no byte length can tell is cut.
pub fn draw_styled(rng: &mut Rng, shape: Shape, recipe: &Recipe, style: Style) -> Record {
    let [least, greatest] = recipe.selectors;
    let selectors = std::array::from_fn(|_| least + rng.below((greatest - least) as usize + 1) as u32);
    let mut payload = match style {
        Style::Coded => coded(rng, shape, &selectors, recipe, false),
        Style::Empty => Vec::new(),
        Style::Noise => {
            let count = rng.within(1, 1 + shape.numbers().min(4000));
            rng.bytes(count)
        }
        Style::Wide => coded(rng, shape, &selectors, recipe, true),
        Style::Cut => {
            let mut payload = coded(rng, shape, &selectors, recipe, false);
            payload.truncate(rng.below(payload.len() + 1));
            payload
        }
        Style::Same => vec![rng.pick(&[0x00, 0xff, 0x55, 0xaa]); rng.within(1, 50)],
        Style::Brink => coded_to_end(rng, shape, &selectors, recipe, false),
        Style::Spent => coded_past_end(rng, shape, &selectors, recipe),
        Style::Past => coded_to_end(rng, shape, &selectors, recipe, true),
        Style::Within => coded_to_read(rng, shape, &selectors, recipe),
    };
    payload.truncate(65_535);
    Record { selectors, payload }
}

#[cfg(test)]
mod tests {
    use super::*;
    use crate::oracle::{packet_courses, Course};
    use crate::packets::{packet, Room};

    /// The shapes of the five groups: kinds 1 and 3, m of 1, 2, 4 and 8.
    fn shapes(width: usize) -> [Shape; 5] {
        let size = crate::size::Size { width, half: 8 };
        std::array::from_fn(|group| size.shape(group))
    }

    /// The courses of records of a style with so many bytes of ones after them.
    fn courses(rng: &mut Rng, shape: Shape, style: Style, ones: usize) -> Vec<Course> {
        let mut courses = Vec::new();
        for mean in [0.0, 0.3, 4.0, 1000.0] {
            let recipe = Recipe { loose: true, ..Recipe::ordinary(mean, [0, 15]) };
            let mut records: Vec<Record> = (0..50).map(|_| draw_styled(rng, shape, &recipe, style)).collect();
            records.iter_mut().for_each(|r| r.payload.extend(vec![0xff; ones]));
            let packet = packet(shape.kind, &records, Room::default());
            courses.extend(packet_courses(&packet, shape).unwrap());
        }
        courses
    }

    #[test]
    fn records_at_the_brink_are_broken_and_turn() {
        let mut rng = Rng::new(1);
        for shape in [16, 64, 256].into_iter().flat_map(shapes) {
            let courses = courses(&mut rng, shape, Style::Brink, 0);
            assert!(courses.iter().all(|c| c.first() == 1));
            let turned = courses.iter().filter(|c| c.turned()).count();
            let whole = courses.iter().filter(|c| c.last() == 1).count();
            assert!(whole > 0 && (turned > 50 || shape.rows() == 1), "{shape:?}: {turned} {whole}");
        }
    }

    /// A width past the allowance counts only with a unit more, in which its unary ends.
    #[test]
    fn records_past_the_allowance_are_spent() {
        let mut rng = Rng::new(2);
        for shape in [16, 64, 256].into_iter().flat_map(shapes) {
            assert!(courses(&mut rng, shape, Style::Past, 0).iter().all(|c| c.first() == 2));
            assert!(courses(&mut rng, shape, Style::Past, UNIT).iter().all(|c| c.first() == 1));
            let spent = courses(&mut rng, shape, Style::Spent, 0).iter().filter(|c| c.first() == 2).count();
            assert!(spent > 150 || shape.numbers() <= 4, "{shape:?}: {spent}");
        }
    }

    #[test]
    fn empty_records_are_neither() {
        for shape in shapes(64) {
            let courses = courses(&mut Rng::new(3), shape, Style::Empty, 0);
            assert!(courses.iter().all(|c| (c.first(), c.last()) == (0, 0)));
        }
    }
}
