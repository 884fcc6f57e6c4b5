//! From planes to coefficients: document 01's recovery, for heights that are a multiple of 16.

use super::picture::{Planes, Rows};

/// The coefficients of a tile.
pub struct Tile {
    pub planes: [Plane; 3],
    /// Group 4.
    pub detail: Rows,
}

/// The coefficients of one plane: band 0, and s0, s1, s2 of levels 1 to 3.
pub struct Plane {
    pub band0: Rows,
    pub levels: [[Rows; 3]; 3],
}

/// Detail rows before those that are skipped, and how many are skipped there and at the end.
const SKIP: usize = 4;

pub fn analyse(planes: &Planes) -> Tile {
    let (average, detail) = undo_green(&planes.green);
    let skipped = vec![vec![0; average[0].len()]; SKIP];
    let detail = [&detail[..SKIP], &skipped, &detail[SKIP..], &skipped].concat();
    let planes = [(&average, false), (&planes.red, true), (&planes.blue, true)];
    Tile { planes: planes.map(|(rows, odd)| undo_plane(rows, odd)), detail }
}

/// The averages l and the detail d of a green plane.
fn undo_green(green: &Rows) -> (Rows, Rows) {
    let last = green.len() - 1;
    let o: Rows = green.iter().map(|row| row.iter().skip(1).step_by(2).copied().collect()).collect();
    let d: Rows = (0..=last).map(|y| details(&green[y], &o[y], &o[(y + 1).min(last)])).collect();
    let l = (0..=last).map(|y| averages(&o[y], &d[y], &d[y.saturating_sub(1)])).collect();
    (l, d)
}

/// Even columns less a quarter of the odd columns around them.
fn details(green: &[i32], o: &[i32], below: &[i32]) -> Vec<i32> {
    let near = |x: usize| [o[x], below[x], o[x.saturating_sub(1)], below[x.saturating_sub(1)]];
    (0..o.len()).map(|x| green[2 * x] - (near(x).iter().sum::<i32>() >> 2)).collect()
}

/// Odd columns plus half of p rounded up, p being a quarter of the details around them.
fn averages(o: &[i32], d: &[i32], above: &[i32]) -> Vec<i32> {
    let next = |x: usize| (x + 1).min(o.len() - 1);
    let p = |x: usize| (d[x] + above[x] + d[next(x)] + above[next(x)]) >> 2;
    (0..o.len()).map(|x| o[x] + ((p(x) + 1) >> 1)).collect()
}

fn undo_plane(rows: &Rows, odd: bool) -> Plane {
    let (ll, level3) = undo_level(rows, 2, odd);
    let (ll, level2) = undo_level(&ll, 1, false);
    let (ll, level1) = undo_level(&ll, 0, false);
    let mut band0: Rows = ll.iter().map(|row| steps(row)).collect();
    band0.push(vec![0; ll[0].len()]);
    Plane { band0, levels: [level1, level2, level3] }
}

/// Differences along a row, from 0.
fn steps(row: &[i32]) -> Vec<i32> {
    let before = std::iter::once(&0).chain(row);
    row.iter().zip(before).map(|(value, before)| value - before).collect()
}

/// The ll of a level and its subbands, with `edge` rows at the top and the bottom in other places.
fn undo_level(rows: &Rows, edge: usize, odd: bool) -> (Rows, [Rows; 3]) {
    let (lo, hi) = split_rows(rows);
    let (ll, lh) = split_columns(&lo);
    let (hl, hh) = split_columns(&hi);
    let subbands = if edge == 0 { place_level1(&hl, &lh, &hh) } else { place(&hl, &lh, &hh, edge, odd) };
    (ll, subbands)
}

fn empty_subbands(rows: usize, columns: usize) -> [Rows; 3] {
    std::array::from_fn(|_| vec![vec![0; columns]; rows])
}

/// Each row to its place in the table's line 'plain 1'.
fn place_level1(hl: &Rows, lh: &Rows, hh: &Rows) -> [Rows; 3] {
    let h = hl.len();
    let mut s = empty_subbands(h + 1, hl[0].len());
    s[0][..h].clone_from_slice(hl);
    s[1][1..h].clone_from_slice(&lh[..h - 1]);
    s[2][1..h].clone_from_slice(&hh[..h - 1]);
    s[0][h] = lh[h - 1].clone();
    s[1][h] = hh[h - 1].clone();
    s
}

/// Each row to its place in the table's line 'plain 2, 3'.
fn place(hl: &Rows, lh: &Rows, hh: &Rows, e: usize, odd: bool) -> [Rows; 3] {
    let h = hl.len();
    let mut s = empty_subbands(h + 2 * e, hl[0].len());
    for (subband, band) in s.iter_mut().zip([hl, lh, hh]) {
        subband[2 * e..h].clone_from_slice(&band[e..h - e]);
    }
    for k in 0..e {
        for (y, first) in [(k, k), (h - e + k, h + k)] {
            s[0][first] = hl[y].clone();
            s[0][first + e] = lh[y].clone();
            s[1][first] = hh[y].iter().map(|&value| nearest(value, odd)).collect();
        }
    }
    s
}

/// Document 01's E.
fn edge_value(v: i32, odd: bool) -> i32 {
    2 * v + if (v % 2 != 0) == odd { v.signum() } else { 0 }
}

/// The v whose E is nearest to the value; not every value is one of E's.
fn nearest(value: i32, odd: bool) -> i32 {
    let half = value / 2;
    let distance = |v: &i32| (edge_value(*v, odd) - value).abs();
    [half, half - 1, half + 1].into_iter().min_by_key(distance).unwrap()
}

/// Undoes one lift of a line: its lows and its highs.
fn split(line: &[i32]) -> (Vec<i32>, Vec<i32>) {
    let half = line.len() / 2;
    let even = |i: usize| line[2 * i.min(half - 1)];
    let high: Vec<i32> = (0..half).map(|i| line[2 * i + 1] - ((even(i) + even(i + 1)) >> 1)).collect();
    let low = (0..half).map(|i| even(i) + ((high[i.saturating_sub(1)] + high[i] + 2) >> 2)).collect();
    (low, high)
}

fn split_rows(rows: &Rows) -> (Rows, Rows) {
    rows.iter().map(|row| split(row)).unzip()
}

fn split_columns(rows: &Rows) -> (Rows, Rows) {
    let (low, high) = split_rows(&turn(rows));
    (turn(&low), turn(&high))
}

/// Rows become columns.
fn turn(rows: &Rows) -> Rows {
    (0..rows[0].len()).map(|x| rows.iter().map(|row| row[x]).collect()).collect()
}
