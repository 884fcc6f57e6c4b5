//! Document 01's 'Recovery': the coefficients of a tile from its coded size and its planes, all sums
//! wrapping, and the first of them that no stream can hold (document 02, job 2, number 25). compare/
//! takes this file too.

use std::fmt;

/// Rows of numbers, or of the places that numbers come from.
type Rows<T> = Vec<Vec<T>>;

/// The greatest magnitude of a coefficient.
const MOST: u32 = 524_287;

/// A plane of a tile.
#[derive(Debug, Clone, Copy, PartialEq, Eq, PartialOrd, Ord)]
pub enum Colour {
    Green,
    Red,
    Blue,
}

/// What makes a number one that no stream can hold.
#[derive(Debug, Clone, Copy, PartialEq, Eq)]
#[non_exhaustive]
pub enum Cause {
    /// A coefficient above 524,287 in magnitude.
    Coefficient(i32),
    /// A step along a row of band 0 that leaves signed 16 bits.
    Step(i32),
    /// A number at the top or at the bottom that is no value of E.
    Edge(i32),
}

/// A row or a column of a plane at which a number stands, and the first and the last of those that it
/// is computed from.
#[derive(Debug, Clone, Copy, PartialEq, Eq)]
#[non_exhaustive]
pub struct Span {
    pub at: usize,
    pub first: usize,
    pub last: usize,
}

/// The first number that no stream can hold: by plane, then by row, then by column.
#[derive(Debug, Clone, Copy, PartialEq, Eq)]
#[non_exhaustive]
pub struct Fault {
    pub colour: Colour,
    pub row: Span,
    pub column: Span,
    pub cause: Cause,
}

impl fmt::Display for Fault {
    fn fmt(&self, f: &mut fmt::Formatter) -> fmt::Result {
        let Fault { colour, row, column, cause } = self;
        let colour = ["green", "red", "blue"][*colour as usize];
        write!(f, "{colour}, row {}, column {} (computed from ", row.at, column.at)?;
        write!(f, "rows {} to {}, columns {} to {}): ", row.first, row.last, column.first, column.last)?;
        match cause {
            Cause::Coefficient(number) => write!(f, "a coefficient of {number}, above 524,287 in magnitude"),
            Cause::Step(number) => write!(f, "a step of {number}, which leaves 16 bits"),
            Cause::Edge(number) => write!(f, "an edge value of {number}, which is no value of E"),
        }
    }
}

/// Where a row of coefficients stands: group and index of its packet, component, and row.
#[derive(Debug, Clone, Copy, PartialEq, Eq)]
pub struct Place {
    pub group: usize,
    pub index: usize,
    pub component: usize,
    pub row: usize,
}

/// Hands on each row of coefficients that goes in, and gives the first fault among their numbers; of a
/// number that is no value of E the row has 0, and of a step that is too long its low 16 bits. The
/// coded height is 16 at least, and the planes, green, red and blue, have all their numbers.
pub fn recover(
    planes: [&[i32]; 3],
    (width, height): (usize, usize),
    mut row: impl FnMut(Place, &[i32]),
) -> Option<Fault> {
    let guarded = !height.is_multiple_of(16);
    let rows = 8 * height.div_ceil(16) - if guarded { 4 } else { 0 };
    let cut = |numbers: &[i32], columns: usize| -> Rows<i32> {
        numbers[..rows * columns].chunks(columns).map(<[i32]>::to_vec).collect()
    };
    let mut faults = Faults::default();
    let (averages, details) = green_undone(&cut(planes[0], width));
    faults.colour = Colour::Green;
    levels_undone(averages, 0, guarded, &mut faults, &mut row);
    let (top, skipped) = if guarded { (2, 6) } else { (4, 4) };
    for (y, (numbers, spans)) in details.rows().enumerate() {
        let place = if y < top { y } else { y + skipped };
        faults.coefficients(numbers, spans, &details.columns);
        row(Place { group: 4, index: 0, component: 0, row: place }, numbers);
    }
    for (index, colour) in [(1, Colour::Red), (2, Colour::Blue)] {
        faults.colour = colour;
        levels_undone(Plane::new(cut(planes[index], width / 2)), index, guarded, &mut faults, &mut row);
    }
    faults.first
}

/// Numbers in rows, and the spans of these rows and columns.
struct Plane {
    numbers: Rows<i32>,
    rows: Vec<Span>,
    columns: Vec<Span>,
}

impl Plane {
    /// A plane that stands as it is.
    fn new(numbers: Rows<i32>) -> Plane {
        let spans = |count: usize| (0..count).map(|at| Span { at, first: at, last: at }).collect();
        let (rows, columns) = (spans(numbers.len()), spans(numbers[0].len()));
        Plane { numbers, rows, columns }
    }

    fn rows(&self) -> impl Iterator<Item = (&[i32], Span)> {
        self.numbers.iter().map(Vec::as_slice).zip(self.rows.iter().copied())
    }
}

/// The first fault so far.
struct Faults {
    colour: Colour,
    first: Option<Fault>,
}

impl Default for Faults {
    fn default() -> Self {
        Faults { colour: Colour::Green, first: None }
    }
}

impl Faults {
    fn note(&mut self, row: Span, column: Span, cause: Cause) {
        let order = |fault: &Fault| (fault.colour, fault.row.at, fault.column.at);
        let fault = Fault { colour: self.colour, row, column, cause };
        if self.first.is_none_or(|first| order(&fault) < order(&first)) {
            self.first = Some(fault);
        }
    }

    fn coefficients(&mut self, numbers: &[i32], row: Span, columns: &[Span]) {
        for (&number, &column) in numbers.iter().zip(columns) {
            if number.unsigned_abs() > MOST {
                self.note(row, column, Cause::Coefficient(number));
            }
        }
    }

    /// The steps of a row of band 0, whose low 16 bits are given back.
    fn steps(&mut self, ll: &[i32], row: Span, columns: &[Span]) -> Vec<i32> {
        let before = std::iter::once((0, columns[0])).chain(ll.iter().copied().zip(columns.iter().copied()));
        let mut step = |((&number, &column), (before, other)): ((&i32, &Span), (i32, Span))| {
            let step = number.wrapping_sub(before);
            if i16::try_from(step).is_err() {
                self.note(row, column.with(other), Cause::Step(step));
            }
            step as i16 as i32
        };
        ll.iter().zip(columns).zip(before).map(&mut step).collect()
    }

    /// E's numbers in a row of edge values, 0 for those that E does not give.
    fn edges(&mut self, numbers: &[i32], odd_mode: bool, row: Span, columns: &[Span]) -> Vec<i32> {
        let mut back = |(&number, &column): (&i32, &Span)| {
            let v = number / 2;
            if edge_value(v, odd_mode) != number as i64 {
                self.note(row, column, Cause::Edge(number));
                return 0;
            }
            v
        };
        numbers.iter().zip(columns).map(&mut back).collect()
    }
}

/// E: 2v, plus v's sign if v is even, in odd mode if v is odd.
pub fn edge_value(v: i32, odd_mode: bool) -> i64 {
    let sign = if (v % 2 != 0) == odd_mode { v.signum() } else { 0 };
    2 * v as i64 + sign as i64
}

/// What a lift is undone on: numbers, or the places that they come from.
trait Lifted: Copy {
    /// Less what was added: half the sum of two, or the only one there is.
    fn less_half(self, one: Self, other: Self) -> Self;
    fn less(self, only: Self) -> Self;
    /// Plus what was taken off: a quarter of two and 2.
    fn plus_quarter(self, one: Self, other: Self) -> Self;
}

impl Lifted for i32 {
    fn less_half(self, one: i32, other: i32) -> i32 {
        self.wrapping_sub(one.wrapping_add(other) >> 1)
    }

    fn less(self, only: i32) -> i32 {
        self.wrapping_sub(only)
    }

    fn plus_quarter(self, one: i32, other: i32) -> i32 {
        self.wrapping_add(one.wrapping_add(other).wrapping_add(2) >> 2)
    }
}

impl Span {
    /// The same place, come from another one too.
    fn with(self, other: Span) -> Span {
        Span { first: self.first.min(other.first), last: self.last.max(other.last), ..self }
    }
}

impl Lifted for Span {
    fn less_half(self, one: Span, other: Span) -> Span {
        self.with(one).with(other)
    }

    fn less(self, only: Span) -> Span {
        self.with(only)
    }

    fn plus_quarter(self, one: Span, other: Span) -> Span {
        self.with(one).with(other)
    }
}

/// Undoes one lift of a line: its lows and its highs; `lead` is 1 if the high band leads.
fn unlift<T: Lifted>(line: &[T], lead: usize) -> (Vec<T>, Vec<T>) {
    let every_other = |from: usize| line.iter().skip(from).step_by(2).copied().collect::<Vec<T>>();
    let (lows, highs) = (every_other(lead), every_other(1 - lead));
    let last = lows.len() - 1;
    let high = |(y, high): (usize, &T)| match lead {
        0 => high.less_half(lows[y], lows[(y + 1).min(last)]),
        _ if y == 0 => high.less(lows[0]),
        _ if y > last => high.less(lows[last]),
        _ => high.less_half(lows[y - 1], lows[y]),
    };
    let highs: Vec<T> = highs.iter().enumerate().map(high).collect();
    let last = highs.len() - 1;
    let low = |(y, low): (usize, &T)| {
        low.plus_quarter(highs[(y + lead).saturating_sub(1)], highs[(y + lead).min(last)])
    };
    let lows = lows.iter().enumerate().map(low).collect();
    (lows, highs)
}

/// Columns for rows.
fn turned(rows: &Rows<i32>) -> Rows<i32> {
    (0..rows[0].len()).map(|x| rows.iter().map(|row| row[x]).collect()).collect()
}

fn unlift_columns(rows: &Rows<i32>, lead: usize) -> (Rows<i32>, Rows<i32>) {
    let (low, high) = turned(rows).iter().map(|column| unlift(column, lead)).unzip();
    (turned(&low), turned(&high))
}

/// A row of a group: component, row, and whether E acts on it.
pub type Source = (usize, usize, bool);

/// Document 01's table: the rows that stand in row y of hl, lh and hh, where ll has h rows.
pub fn sources(guarded: bool, level: usize, h: usize, y: usize) -> [Source; 3] {
    let s = |component, row| (component, row, false);
    let e_of = |component, row| (component, row, true);
    let e = level - 1;
    match (guarded, level) {
        (false, 1) if y + 1 == h => [s(0, y), s(0, h), s(1, h)],
        (false, 1) => [s(0, y), s(1, y + 1), s(2, y + 1)],
        (false, _) if y < e => [s(0, y), s(0, y + e), e_of(1, y)],
        (false, _) if y >= h - e => [s(0, y + e), s(0, y + 2 * e), e_of(1, y + e)],
        (false, _) => [s(0, y + e), s(1, y + e), s(2, y + e)],
        (true, 1) if y == h => [s(0, y), s(0, h + 1), s(1, h + 1)],
        (true, 1) => [s(0, y + 1), s(1, y + 1), s(2, y + 1)],
        (true, 2) if y == 0 => [s(0, 2), s(0, 0), e_of(0, 1)],
        (true, 2) => [s(0, y + 2), s(1, y + 1), s(2, y + 1)],
        (true, _) if y == 0 => [s(0, 0), s(0, 1), e_of(0, 2)],
        (true, _) if y + 1 == h => [s(0, y + 3), s(0, h + 3), e_of(0, h + 4)],
        (true, _) => [s(0, y + 3), s(1, y + 3), s(2, y + 3)],
    }
}

/// Undoes levels 3 to 1 of an index, and band 0's sums.
fn levels_undone(
    outcome: Plane,
    index: usize,
    guarded: bool,
    faults: &mut Faults,
    row: &mut impl FnMut(Place, &[i32]),
) {
    let undo = |out: Plane, level| level_undone(out, level, index, guarded, faults, row);
    let ll = [3, 2, 1].into_iter().fold(outcome, undo);
    for (y, (numbers, spans)) in ll.rows().enumerate() {
        let steps = faults.steps(numbers, spans, &ll.columns);
        row(Place { group: 0, index, component: 0, row: y + guarded as usize }, &steps);
    }
}

/// Undoes a level: each row of hl, lh and hh to its place, and the ll.
fn level_undone(
    outcome: Plane,
    level: usize,
    index: usize,
    guarded: bool,
    faults: &mut Faults,
    row: &mut impl FnMut(Place, &[i32]),
) -> Plane {
    let lead = (guarded && level < 3) as usize;
    let (lo, hi) = outcome.numbers.iter().map(|row| unlift(row, 0)).unzip();
    let ((ll, lh), (hl, hh)) = (unlift_columns(&lo, lead), unlift_columns(&hi, lead));
    let (low_rows, high_rows) = unlift(&outcome.rows, lead);
    let (low_columns, high_columns) = unlift(&outcome.columns, 0);
    let bands =
        [(&hl, &low_rows, &high_columns), (&lh, &high_rows, &low_columns), (&hh, &high_rows, &high_columns)];
    for (band, (numbers, rows, columns)) in bands.into_iter().enumerate() {
        for (y, (numbers, &span)) in numbers.iter().zip(rows).enumerate() {
            let (component, to, is_e) = sources(guarded, level, ll.len(), y)[band];
            let place = Place { group: level, index, component, row: to };
            let coefficients = match is_e {
                true => faults.edges(numbers, level == 3 && index > 0, span, columns),
                false => numbers.clone(),
            };
            faults.coefficients(&coefficients, span, columns);
            row(place, &coefficients);
        }
    }
    Plane { numbers: ll, rows: low_rows, columns: low_columns }
}

/// The averages l and the details d of the full green.
fn green_undone(green: &Rows<i32>) -> (Plane, Plane) {
    let last = green.len() - 1;
    let o: Rows<i32> = green.iter().map(|row| row.iter().skip(1).step_by(2).copied().collect()).collect();
    let d: Rows<i32> = (0..=last).map(|y| details(&green[y], &o[y], &o[(y + 1).min(last)])).collect();
    let l = (0..=last).map(|y| averages(&o[y], &d[y.saturating_sub(1)], &d[y])).collect();
    let columns = green[0].len() - 1;
    let spans =
        |count: usize, span: fn(usize, usize) -> Span, last| (0..count).map(|k| span(k, last)).collect();
    // d needs o here and below, left and right of it; l needs d here and above, of its own column and the next.
    let d_row = |at: usize, last: usize| Span { at, first: at, last: (at + 1).min(last) };
    let d_column = |x: usize, last: usize| Span {
        at: 2 * x,
        first: (2 * x).saturating_sub(1),
        last: (2 * x + 1).min(last),
    };
    let l_row = |at: usize, last: usize| Span { at, first: at.saturating_sub(1), last: (at + 1).min(last) };
    let l_column = |x: usize, last: usize| Span {
        at: 2 * x + 1,
        first: (2 * x).saturating_sub(1),
        last: (2 * x + 3).min(last),
    };
    let l = Plane {
        numbers: l,
        rows: spans(last + 1, l_row, last),
        columns: spans(o[0].len(), l_column, columns),
    };
    let d = Plane {
        numbers: d,
        rows: spans(last + 1, d_row, last),
        columns: spans(o[0].len(), d_column, columns),
    };
    (l, d)
}

/// The even columns of a row, each less its term in o.
fn details(green: &[i32], here: &[i32], below: &[i32]) -> Vec<i32> {
    let term = |x: usize| match x {
        0 => here[0].wrapping_add(below[0]) >> 1,
        _ => sum([here[x - 1], here[x], below[x - 1], below[x]]) >> 2,
    };
    (0..here.len()).map(|x| green[2 * x].wrapping_sub(term(x))).collect()
}

/// o of a row, each plus half of its p rounded up.
fn averages(o: &[i32], above: &[i32], here: &[i32]) -> Vec<i32> {
    let p = |x: usize, next: usize| sum([above[x], above[next], here[x], here[next]]) >> 2;
    let half_up = |x: usize| (p(x, (x + 1).min(o.len() - 1)) + 1) >> 1;
    (0..o.len()).map(|x| o[x].wrapping_add(half_up(x))).collect()
}

fn sum(numbers: [i32; 4]) -> i32 {
    numbers.into_iter().fold(0, i32::wrapping_add)
}

#[cfg(test)]
mod tests {
    use super::*;

    /// Rows of numbers that differ from their neighbours.
    fn noise(rows: usize, columns: usize) -> Rows<i32> {
        let number = |k: usize| (k as u32).wrapping_mul(2_654_435_761).wrapping_add(7) as i32 >> 12;
        (0..rows).map(|y| (0..columns).map(|x| number(y * columns + x)).collect()).collect()
    }

    fn ll_of(plane: Plane, guarded: bool) -> Plane {
        let mut faults = Faults::default();
        let undo = |plane, level| level_undone(plane, level, 0, guarded, &mut faults, &mut |_, _| {});
        [3, 2, 1].into_iter().fold(plane, undo)
    }

    /// A number changes only where its place lies in the span, and somewhere it does.
    fn holds(before: &Plane, after: &Plane, (y, x): (usize, usize)) {
        let within = |span: &Span, at: usize| (span.first..=span.last).contains(&at);
        let mut changed = 0;
        for (i, row) in before.numbers.iter().enumerate() {
            for (j, number) in row.iter().enumerate() {
                if *number != after.numbers[i][j] {
                    changed += 1;
                    assert!(within(&before.rows[i], y) && within(&before.columns[j], x));
                }
                assert!(within(&before.rows[i], before.rows[i].at));
                assert!(within(&before.columns[j], before.columns[j].at));
            }
        }
        assert!(changed > 0);
    }

    #[test]
    fn spans_hold_all_that_a_number_comes_from() {
        for (rows, guarded) in [(32, false), (44, true)] {
            let numbers = noise(rows, 64);
            let (before, (l, d)) = (ll_of(Plane::new(numbers.clone()), guarded), green_undone(&numbers));
            for place in [(0, 0), (1, 63), (rows - 1, 1), (rows / 2, 30), (rows / 2 + 1, 31), (rows - 1, 63)]
            {
                let mut other = numbers.clone();
                other[place.0][place.1] += 1 << 18;
                holds(&before, &ll_of(Plane::new(other.clone()), guarded), place);
                let (other_l, other_d) = green_undone(&other);
                holds(&l, &other_l, place);
                holds(&d, &other_d, place);
                let (l, other_l) = (green_undone(&numbers).0, green_undone(&other).0);
                holds(&ll_of(l, guarded), &ll_of(other_l, guarded), place);
            }
        }
    }

    /// Document 01's points: E(2) = 5, E(-2) = -5, in odd mode E(1) = 3; and lifts undone.
    #[test]
    fn points() {
        let e = [(2, false), (-2, false), (1, true), (1, false)].map(|(v, odd)| edge_value(v, odd));
        assert_eq!(e, [5, -5, 3, 2]);
        assert_eq!(unlift(&[8, 17, 20, 15], 0), (vec![10, 20], vec![3, -5]));
        assert_eq!(unlift(&[7, 4, 15], 1), (vec![8], vec![3, 11]));
        assert_eq!(unlift(&[2_147_483_647, 0], 0), (vec![-2_147_483_648], vec![1]));
        let (l, d) = green_undone(&vec![vec![12, 8]]);
        assert_eq!((l.numbers, d.numbers), (vec![vec![10]], vec![vec![4]]));
    }
}
