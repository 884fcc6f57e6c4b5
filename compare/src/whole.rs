//! Document 01's 'Synthesis' on whole numbers: nothing is ever cut, and every number on the way is
//! shown to a watcher.

use crate::oracle;
use crate::recovery::sources;
use crate::size::Size;
use crate::stages::{self, Part, Stage};
use crate::streams::TILE_PACKETS;
use crate::watch::{Place, Watch};

pub type Rows = Vec<Vec<i64>>;

/// The coefficients of a tile's 13 packets.
#[derive(Debug, Clone)]
pub struct Coefficients {
    pub size: Size,
    /// By group and index, each packet's record after record.
    pub packets: [Vec<Vec<i32>>; 5],
    /// What band 0's sums start from: 0 in a tile, another number where the tile stands for the
    /// right end of a wider one.
    pub start: i64,
}

impl Coefficients {
    /// Zeros.
    pub fn new(size: Size) -> Self {
        let numbers = |group| (size.n() + 1) * size.shape(group).numbers();
        let packets = std::array::from_fn(|group| vec![vec![0; numbers(group)]; TILE_PACKETS[group]]);
        Coefficients { size, packets, start: 0 }
    }

    /// The coefficients of an accepted stream.
    pub fn of(stream: &[u8], size: Size) -> Self {
        Coefficients { size, packets: oracle::tile_coefficients(stream, size), start: 0 }
    }

    /// Where a row of a component starts in its packet.
    pub fn place(&self, group: usize, component: usize, row: usize) -> usize {
        let shape = self.size.shape(group);
        ((row / shape.m * shape.kind + component) * shape.m + row % shape.m) * shape.columns
    }

    fn row(&self, group: usize, index: usize, component: usize, row: usize, w: &mut impl Watch) -> Vec<i64> {
        let at = self.place(group, component, row);
        let numbers = &self.packets[group][index][at..at + self.size.shape(group).columns];
        let shown = |(x, &c)| shown(w, stages::COEFFICIENT, (row, x), c as i64);
        numbers.iter().enumerate().map(shown).collect()
    }
}

/// Shows a number and hands it on.
fn shown(w: &mut impl Watch, stage: Stage, place: Place, number: i64) -> i64 {
    w.number(stage, place, number);
    number
}

/// Adds from left to right; each partial sum is shown, and the sum, if it has a place there.
fn sum<const N: usize>(w: &mut impl Watch, stage: Stage, place: Option<Place>, numbers: [i64; N]) -> i64 {
    let mut all = 0;
    for number in numbers {
        all += number;
        w.on_the_way(stage, all);
    }
    place.map_or(all, |place| shown(w, stage, place, all))
}

/// Half, a quarter: `number` without its last bits, floored.
fn shift(w: &mut impl Watch, stage: Stage, number: i64, bits: u32) -> i64 {
    let outcome = number >> bits;
    w.on_the_way(stage, outcome);
    outcome
}

/// A band before it is lifted: level 0 for band 0's sums, then hl, lh and hh of levels 1 to 3.
#[derive(Debug, Clone, Copy, PartialEq, Eq)]
pub struct Site {
    pub index: usize,
    pub level: usize,
    pub band: usize,
}

/// What may change the rows of a band before they are lifted.
pub type Change<'a> = &'a mut dyn FnMut(Site, &mut Rows);

/// Green, red and blue.
pub fn planes(c: &Coefficients, w: &mut impl Watch) -> [Rows; 3] {
    planes_changed(c, w, &mut |_, _| {})
}

/// The same with bands that are changed, for numbers that no coefficients give.
pub fn planes_changed(c: &Coefficients, w: &mut impl Watch, change: Change) -> [Rows; 3] {
    [green_changed(c, w, change), colour_changed(c, 1, w, change), colour_changed(c, 2, w, change)]
}

/// The red (1) or the blue plane (2).
pub fn colour(c: &Coefficients, index: usize, w: &mut impl Watch) -> Rows {
    colour_changed(c, index, w, &mut |_, _| {})
}

fn colour_changed(c: &Coefficients, index: usize, w: &mut impl Watch, change: Change) -> Rows {
    let plane = levels(c, index, w, change);
    for (y, row) in plane.iter().enumerate() {
        row.iter().enumerate().for_each(|(x, &number)| w.number(stages::COLOUR, (y, x), number));
    }
    plane
}

/// Band 0 and the three levels of an index.
fn levels(c: &Coefficients, index: usize, w: &mut impl Watch, change: Change) -> Rows {
    let mut ll = band_0(c, index, w);
    change(Site { index, level: 0, band: 0 }, &mut ll);
    (1..=3).fold(ll, |ll, level| one_level(c, index, level, ll, w, change))
}

fn band_0(c: &Coefficients, index: usize, w: &mut impl Watch) -> Rows {
    let first = c.size.guarded() as usize;
    let summed = |y| {
        let steps = c.row(0, index, 0, y, w);
        let mut so_far = c.start;
        let mut step = |(x, number)| {
            so_far += low_16(number);
            shown(w, stages::BAND_0, (y, x), so_far)
        };
        steps.into_iter().enumerate().map(&mut step).collect()
    };
    (first..c.size.n()).map(summed).collect()
}

/// The low 16 bits, sign-extended.
fn low_16(number: i64) -> i64 {
    (number + 32_768).rem_euclid(65_536) - 32_768
}

/// 2v, plus v's sign if v is even, in odd mode if v is odd.
fn e(v: i64, odd_mode: bool, place: Place, w: &mut impl Watch) -> i64 {
    let doubled = 2 * v;
    w.on_the_way(stages::E, doubled);
    let sign = if (v % 2 != 0) == odd_mode { v.signum() } else { 0 };
    shown(w, stages::E, place, doubled + sign)
}

fn one_level(
    c: &Coefficients,
    index: usize,
    level: usize,
    ll: Rows,
    w: &mut impl Watch,
    change: Change,
) -> Rows {
    let (h, guarded) = (ll.len(), c.size.guarded());
    let odd_mode = level == 3 && index > 0;
    let mut band = |band: usize, rows: usize| -> Rows {
        let mut row = |y| {
            let (component, row, is_e) = sources(guarded, level, h, y)[band];
            let mut numbers = c.row(level, index, component, row, w);
            if is_e {
                numbers.iter_mut().enumerate().for_each(|(x, v)| *v = e(*v, odd_mode, (row, x), w));
            }
            numbers
        };
        let mut numbers = (0..rows).map(&mut row).collect();
        change(Site { index, level, band }, &mut numbers);
        numbers
    };
    let highs = h + (guarded && level == 1) as usize;
    let (hl, lh, hh) = (band(0, h), band(1, highs), band(2, highs));
    let lead = (guarded && level < 3) as usize;
    let lo = vertical(&ll, &lh, lead, level, Part::Lo, w);
    let hi = vertical(&hl, &hh, lead, level, Part::Hi, w);
    let across = |(y, (low, high)): (usize, (&Vec<i64>, &Vec<i64>))| {
        lift(low, high, 0, level, Part::Outcome, |x| (y, x), w)
    };
    lo.iter().zip(&hi).enumerate().map(across).collect()
}

/// Columns for rows.
fn turned(rows: &Rows) -> Rows {
    (0..rows[0].len()).map(|x| rows.iter().map(|row| row[x]).collect()).collect()
}

fn vertical(low: &Rows, high: &Rows, lead: usize, level: usize, part: Part, w: &mut impl Watch) -> Rows {
    let (low, high) = (turned(low), turned(high));
    let down =
        |(x, (low, high)): (usize, (&Vec<i64>, &Vec<i64>))| lift(low, high, lead, level, part, |y| (y, x), w);
    turned(&low.iter().zip(&high).enumerate().map(down).collect())
}

/// One lift; `lead` is 1 if the high band leads, and an index beyond the edge is the edge's own.
/// The inner sums of the passes across have places, those of the passes down do not.
fn lift(
    low: &[i64],
    high: &[i64],
    lead: usize,
    level: usize,
    part: Part,
    place: impl Fn(usize) -> Place,
    w: &mut impl Watch,
) -> Vec<i64> {
    let [highs, evens, outcome] = [Part::Highs, Part::Evens, part].map(|p| stages::of_level(level, p));
    let of_sum = |at| (part == Part::Outcome).then(|| place(at));
    let mut out = vec![0; low.len() + high.len()];
    let mut results = Vec::with_capacity(low.len());
    for (y, low) in low.iter().enumerate() {
        let at = 2 * y + lead;
        let two = [high[(y + lead).saturating_sub(1)], high[(y + lead).min(high.len() - 1)]];
        let inner = sum(w, highs, of_sum(at), [two[0], two[1], 2]);
        let quarter = shift(w, highs, inner, 2);
        out[at] = shown(w, outcome, place(at), low - quarter);
        results.push(out[at]);
    }
    for (y, high) in high.iter().enumerate() {
        let at = 2 * y + 1 - lead;
        let two = [results[y.saturating_sub(lead)], results[(y + 1 - lead).min(results.len() - 1)]];
        let inner = sum(w, evens, of_sum(at), two);
        let half = shift(w, evens, inner, 1);
        out[at] = shown(w, outcome, place(at), high + half);
    }
    w.pass(low, high, lead, &out);
    out
}

/// The full green plane.
pub fn green(c: &Coefficients, w: &mut impl Watch) -> Rows {
    green_changed(c, w, &mut |_, _| {})
}

fn green_changed(c: &Coefficients, w: &mut impl Watch, change: Change) -> Rows {
    let l = levels(c, 0, w, change);
    let (top, skipped) = if c.size.guarded() { (2, 6) } else { (4, 4) };
    let detail = |y| c.row(4, 0, 0, if y < top { y } else { y + skipped }, w);
    let d: Rows = (0..l.len()).map(detail).collect();
    let o: Rows = (0..l.len()).map(|y| odd_columns(&l[y], &d[y.saturating_sub(1)], &d[y], y, w)).collect();
    let below = |y: usize| &o[(y + 1).min(o.len() - 1)];
    (0..l.len()).map(|y| all_columns(&d[y], &o[y], below(y), y, w)).collect()
}

/// o of a row, from the averages and the details above and here.
fn odd_columns(l: &[i64], above: &[i64], here: &[i64], y: usize, w: &mut impl Watch) -> Vec<i64> {
    let last = l.len() - 1;
    let mut o = |x: usize| {
        let next = (x + 1).min(last);
        let four = [above[x], above[next], here[x], here[next]];
        let details = sum(w, stages::FOUR_DETAILS, Some((y, x)), four);
        let p = shift(w, stages::FOUR_DETAILS, details, 2);
        let doubled = shown(w, stages::DOUBLED, (y, x), 2 * l[x]);
        let less = shown(w, stages::DOUBLED_LESS_P, (y, x), doubled - p);
        shown(w, stages::O, (y, 2 * x + 1), less >> 1)
    };
    (0..=last).map(&mut o).collect()
}

/// A row of green: even columns from its details and from o here and below, odd columns o.
fn all_columns(d: &[i64], here: &[i64], below: &[i64], y: usize, w: &mut impl Watch) -> Vec<i64> {
    let mut row = Vec::with_capacity(2 * d.len());
    for x in 0..d.len() {
        let place = (y, 2 * x);
        let term = if x == 0 {
            let two = sum(w, stages::FOUR_O, Some(place), [here[0], below[0]]);
            shift(w, stages::FOUR_O, two, 1)
        } else {
            let four = [here[x - 1], here[x], below[x - 1], below[x]];
            let all = sum(w, stages::FOUR_O, Some(place), four);
            shift(w, stages::FOUR_O, all, 2)
        };
        row.push(shown(w, stages::EVEN, place, d[x] + term));
        row.push(here[x]);
    }
    row
}

#[cfg(test)]
mod tests {
    use super::*;
    use crate::records::Recipe;
    use crate::rng::Rng;
    use crate::streams::{assemble, draw_parts};
    use crate::watch::Held;

    /// Document 01's points on the line for lifts, E and the final green.
    #[test]
    fn points() {
        let mut held = Held::default();
        let mut lift =
            |low: &[i64], high: &[i64], lead| lift(low, high, lead, 1, Part::Lo, |y| (y, 0), &mut held);
        assert_eq!(lift(&[10, 20], &[3, -5], 0), [8, 17, 20, 15]);
        assert_eq!(lift(&[8], &[3, 11], 1), [7, 4, 15]);
        assert!(held.all_filters && held.all_within_32);
        let mut wrong = Held::default();
        wrong.pass(&[10, 20], &[3, -5], 0, &[8, 17, 20, 16]);
        assert!(!wrong.all_filters);
        let mut e = |v, odd| e(v, odd, (0, 0), &mut held);
        assert_eq!([e(2, false), e(-2, false), e(1, true), e(1, false)], [5, -5, 3, 2]);
        let o = odd_columns(&[10], &[4], &[4], 0, &mut held);
        assert_eq!(all_columns(&[4], &o, &o, 0, &mut held), [12, 8]);
        assert_eq!([32_767, 32_768, -32_769, 65_536].map(low_16), [32_767, -32_768, 32_767, 0]);
    }

    /// Planes of whole numbers as the original has planes, if they fit.
    fn flat(rows: &Rows) -> Option<Vec<i32>> {
        rows.iter().flatten().map(|&number| i32::try_from(number).ok()).collect()
    }

    /// Small coefficients: the model's planes are the original's, at every height.
    #[test]
    fn small_tiles_are_the_original_s() {
        let mut rng = Rng::new(7);
        for height in (16..120).step_by(2) {
            let size = Size { width: 16 * rng.within(1, 5), half: height / 2 };
            let stream = assemble(&draw_parts(&mut rng, size, &Recipe::ordinary(40.0, [0, 4]))).bytes;
            let found = oracle::decode(&stream, size.needed()).unwrap();
            let mut held = Held::default();
            let planes = planes(&Coefficients::of(&stream, size), &mut held);
            let flat = planes.each_ref().map(flat);
            assert_eq!(flat, [Some(found.green), Some(found.red), Some(found.blue)]);
            assert!(held.all_filters && held.all_within_32);
        }
    }

    /// Selectors of 15 leave 32 bits, and the whole planes are then not the original's.
    #[test]
    fn what_leaves_is_seen() {
        let size = Size { width: 32, half: 16 };
        let stream = assemble(&draw_parts(&mut Rng::new(1), size, &Recipe::ordinary(1e5, [15, 15]))).bytes;
        let found = oracle::decode(&stream, size.needed()).unwrap();
        let mut held = Held::default();
        let planes = planes(&Coefficients::of(&stream, size), &mut held);
        assert!(!held.all_within_32 && held.all_filters);
        assert!(planes.iter().zip([found.green, found.red, found.blue]).all(|(p, f)| flat(p) != Some(f)));
    }
}
