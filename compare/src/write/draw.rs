//! Draws calls of the writer: planes of coefficients that a stream can hold, numbers on either side of
//! each refusal's line, damaged planes, pictures, odd sizes, and slices that are short or longer.

use super::Case;
use crate::packets::UNIT;
use crate::recovery::{edge_value, sources};
use crate::rng::Rng;
use crate::size::{Shape, Size};
use crate::streams::TILE_PACKETS;
use crate::watch::Watch;
use crate::whole::{self, Coefficients, Rows, Site};
use crate::writing::{self, Call};
use crate::written::MOST_BYTES;

/// The greatest magnitude of a coefficient.
pub const MOST: i64 = 524_287;

pub fn draw_case(rng: &mut Rng) -> Case {
    match rng.below(400) {
        0..=159 => {
            let size = draw_size(rng);
            let planes = planes_of(&draw_coefficients(rng, size, 19));
            lend(rng, size, planes)
        }
        160..=249 => draw_on_line(rng),
        250..=289 => draw_damaged(rng),
        290..=319 => draw_picture(rng),
        320..=339 => draw_simple(rng),
        340..=369 => draw_sides(rng),
        370..=397 => draw_short(rng),
        _ => draw_long_record(rng),
    }
}

// Sizes and slices.

fn draw_size(rng: &mut Rng) -> Size {
    let (width, height) = match rng.below(24) {
        0 if rng.one_in(40) => rng.pick(&[(65_520, 16), (65_520, 18), (16, 32_752), (16, 32_766)]),
        0 => (16 * rng.within(8, 64), rng.pick(&[16, 18, 30, 32, 34])),
        1 => (16, rng.pick(&[400, 510, 1000, 1002])),
        2..=11 => (16 * rng.within(1, 4), rng.pick(&[16, 18, 26, 30, 32, 34, 48, 50])),
        12..=16 => (16 * rng.within(1, 6), 16 * rng.within(1, 6)),
        _ => (16 * rng.within(1, 6), 2 * rng.within(8, 50)),
    };
    Size { width, half: height / 2 }
}

/// The length of the stream of planes that are accepted, else as much as small tiles take.
pub fn length_of(size: Size, planes: &[Vec<i32>; 3]) -> usize {
    let [green, red, blue] = planes.each_ref().map(Vec::as_slice);
    let sides = (size.width, size.height());
    let call = Call { planes: [green, red, blue], sides, work: usize::MAX, stream: usize::MAX };
    let outcome = writing::write(&call);
    if outcome.refusal == 0 {
        outcome.stream.len()
    } else {
        2000
    }
}

/// Slices that are long enough, some with elements past what is needed; one in six of the stream's is
/// too short, mostly by a byte.
fn lend(rng: &mut Rng, size: Size, mut planes: [Vec<i32>; 3]) -> Case {
    let length = length_of(size, &planes);
    let stream = match rng.below(12) {
        0 => length - 1,
        1 => rng.below(length),
        2..=5 => length,
        _ => length + rng.within(1, 3 * UNIT),
    };
    for plane in &mut planes {
        let spare = rng.pick(&[0, 0, 1, 9]);
        plane.extend((0..spare).map(|_| rng.word() as i32));
    }
    let work = size.needed()[3] + rng.pick(&[0, 0, 1, 33]);
    Case { sides: (size.width, size.height()), planes, work, stream }
}

// Planes of coefficients.

/// What nobody looks at.
struct Unwatched;

impl Watch for Unwatched {
    fn number(&mut self, _: crate::stages::Stage, _: crate::watch::Place, _: i64) {}
}

fn flat(rows: Rows) -> Vec<i32> {
    let fits = |number: i64| i32::try_from(number).expect("coefficients of 19 bits never leave 32 bits");
    rows.into_iter().flatten().map(fits).collect()
}

/// The planes that document 01's synthesis makes of coefficients.
pub fn planes_of(c: &Coefficients) -> [Vec<i32>; 3] {
    whole::planes(c, &mut Unwatched).map(flat)
}

/// Coefficients up to so many bits, row by row of a density and a number of bits of their own, some
/// packets and many rows all zero.
pub fn draw_coefficients(rng: &mut Rng, size: Size, most_bits: usize) -> Coefficients {
    let mut c = Coefficients::new(size);
    for group in 0..5 {
        for packet in &mut c.packets[group] {
            let (bits, every) = (rng.within(0, most_bits), rng.pick(&[1, 1, 3, 40]));
            if rng.one_in(6) {
                continue;
            }
            for row in packet.chunks_mut(size.shape(group).columns) {
                let bits = rng.pick(&[bits, bits, bits / 2, 0]);
                row.iter_mut().for_each(|number| *number = draw_number(rng, bits, every));
            }
        }
    }
    c
}

fn draw_number(rng: &mut Rng, bits: usize, every: usize) -> i32 {
    let magnitude = if rng.one_in(every) { rng.below(1 << bits) as i32 } else { 0 };
    match rng.below(20) {
        0 if magnitude > 0 => (1 << bits) - 1,
        0..=9 => magnitude,
        _ => -magnitude,
    }
}

// Numbers on the line of 25.

/// Small coefficients with one number on a line: a coefficient, a step of band 0 or an edge value.
fn draw_on_line(rng: &mut Rng) -> Case {
    let size = draw_size(rng);
    let c = draw_coefficients(rng, size, 6);
    let site = Site { index: rng.below(3), level: rng.below(5), band: rng.below(3) };
    let (rows, columns) = extent(size, site);
    let place = (draw_row(rng, rows), rng.below(columns));
    let number = match (site.level, edge_mode(size, site, place.0)) {
        (0, _) => draw_step(rng),
        (_, None) => draw_large(rng),
        (_, Some(odd_mode)) => draw_edge(rng, odd_mode),
    };
    let planes = planes_with(&c, site, place, number);
    lend(rng, size, planes)
}

fn draw_step(rng: &mut Rng) -> i64 {
    let far = rng.within(1, 1 << 26) as i64;
    rng.pick(&[32_767, 32_767, 32_768, -32_768, -32_768, -32_769, far, -far])
}

fn draw_large(rng: &mut Rng) -> i64 {
    let far = rng.within(1, 1 << 24) as i64;
    let magnitude = rng.pick(&[MOST - 1, MOST, MOST, MOST + 1, MOST + 1, MOST + 2, far]);
    rng.pick(&[magnitude, -magnitude])
}

fn draw_edge(rng: &mut Rng, odd_mode: bool) -> i64 {
    let value = edge_value(draw_large(rng) as i32, odd_mode);
    match rng.below(3) {
        0 => value,
        1 => value + rng.pick(&[-2, -1, 1, 2]),
        _ => rng.below(49) as i64 - 24,
    }
}

/// A row near an edge, or any.
fn draw_row(rng: &mut Rng, rows: usize) -> usize {
    let any = rng.below(rows);
    rng.pick(&[0, 0, 1.min(rows - 1), rows - 1, rows - 1, rows.saturating_sub(2), any])
}

/// Rows of ll at a level.
fn height(size: Size, level: usize) -> usize {
    match (size.guarded(), level) {
        (false, _) => size.n() << (level - 1),
        (true, 1) => size.n() - 1,
        (true, 2) => 2 * size.n() - 1,
        (true, _) => 4 * size.n() - 2,
    }
}

/// The rows and columns at a site; level 4 stands for the details.
pub fn extent(size: Size, site: Site) -> (usize, usize) {
    let longer = site.band > 0 && size.guarded() && site.level == 1;
    match site.level {
        0 => (height(size, 1), size.width / 16),
        4 => (size.rows(), size.width / 2),
        level => (height(size, level) + longer as usize, size.shape(level).columns),
    }
}

/// For a row that goes in as E whether that is in odd mode.
pub fn edge_mode(size: Size, site: Site, y: usize) -> Option<bool> {
    let level = Some(site.level).filter(|level| (1..4).contains(level))?;
    let is_e = sources(size.guarded(), level, height(size, level), y)[site.band].2;
    is_e.then_some(level == 3 && site.index > 0)
}

/// The planes of coefficients with another number at a place of a site: in a band as it is lifted, the
/// step to a number of band 0, or a detail.
pub fn planes_with(c: &Coefficients, site: Site, (y, x): (usize, usize), number: i64) -> [Vec<i32>; 3] {
    let mut c = c.clone();
    if site.level == 4 {
        let (top, skipped) = if c.size.guarded() { (2, 6) } else { (4, 4) };
        let at = c.place(4, 0, if y < top { y } else { y + skipped }) + x;
        c.packets[4][0][at] = number as i32;
    }
    let put = &mut |here: Site, rows: &mut Rows| match here.level {
        0 if (here.index, site.level) == (site.index, 0) => put_step(&mut rows[y], x, number),
        _ if here == site => rows[y][x] = number,
        _ => {}
    };
    whole::planes_changed(&c, &mut Unwatched, put).map(flat)
}

/// Moves a row of band 0 from a column on, so that this is the step there.
fn put_step(row: &mut [i64], x: usize, step: i64) {
    let before = if x == 0 { 0 } else { row[x - 1] };
    let change = before + step - row[x];
    row[x..].iter_mut().for_each(|number| *number += change);
}

// Other planes.

/// Planes of which one number is another.
fn draw_damaged(rng: &mut Rng) -> Case {
    let size = draw_size(rng);
    let mut planes = planes_of(&draw_coefficients(rng, size, 12));
    let plane = &mut planes[rng.below(3)];
    let at = rng.below(plane.len());
    let number = &mut plane[at];
    *number = match rng.below(6) {
        0 => i32::MIN,
        1 => i32::MAX,
        2 | 3 => *number ^ 1 << rng.below(32),
        _ => number.wrapping_add(rng.pick(&[-1, 1])),
    };
    lend(rng, size, planes)
}

/// Codes of 12 bits between rows that are constant along the row, eight at the top and eight at the
/// bottom.
pub fn picture(rng: &mut Rng, size: Size) -> [Vec<i32>; 3] {
    picture_of(rng, size, |rng| rng.within(0, 4095) as i32 - 2048)
}

/// The same of other numbers.
pub fn picture_of(rng: &mut Rng, size: Size, code: fn(&mut Rng) -> i32) -> [Vec<i32>; 3] {
    let (rows, margin) = (size.rows(), 8);
    [size.width, size.width / 2, size.width / 2].map(|columns| {
        let mut row = |y: usize| {
            let level = code(rng);
            let inner = (margin..rows.saturating_sub(margin)).contains(&y);
            let mut number = |_| if inner { code(rng) } else { level };
            (0..columns).map(&mut number).collect::<Vec<i32>>()
        };
        (0..rows).flat_map(&mut row).collect()
    })
}

fn draw_picture(rng: &mut Rng) -> Case {
    let half = rng.within(8, 60);
    let size = Size { width: 16 * rng.within(1, 6), half: rng.pick(&[half, half.next_multiple_of(8)]) };
    let planes = picture(rng, size);
    lend(rng, size, planes)
}

/// Zeros, one number for all, a single spike, or noise, up to the ends of 32 bits.
fn draw_simple(rng: &mut Rng) -> Case {
    let size = draw_size(rng);
    let [green, red, blue, _] = size.needed();
    let mut planes = [green, red, blue].map(|numbers| vec![0; numbers]);
    let bits = rng.within(0, 31);
    for plane in &mut planes {
        let length = plane.len();
        match rng.below(4) {
            0 => {}
            1 => plane.fill((rng.word() as i32) >> bits),
            2 => plane[rng.below(length)] = (rng.word() as i32) >> bits,
            _ => plane.iter_mut().for_each(|number| *number = (rng.word() as i32) >> bits),
        }
    }
    lend(rng, size, planes)
}

/// Sizes that no header holds, that are too large, too high or too low, with slices of any length.
fn draw_sides(rng: &mut Rng) -> Case {
    let any = rng.word() as usize;
    let widths = [0, 1, 8, 15, 16, 17, 24, 32, 8192, 8208, 65_519, 65_520, 65_535, 65_536, usize::MAX, any];
    let heights = [
        0,
        1,
        2,
        8,
        14,
        15,
        16,
        17,
        18,
        32_752,
        32_766,
        32_767,
        32_768,
        32_770,
        65_536,
        131_068,
        131_070,
        131_071,
        131_072,
        usize::MAX,
        any,
    ];
    let sides = match rng.below(6) {
        0 => (16, rng.pick(&[32_766, 32_768, 32_770])),
        1 | 2 => (16 * rng.within(1, 3), rng.pick(&[2, 8, 12, 14, 16])),
        3 => (rng.pick(&[8176, 8192, 8208]), rng.pick(&[32_752, 32_754, 32_768, 65_534])),
        _ => (rng.pick(&widths), rng.pick(&heights)),
    };
    let size = Size { width: sides.0, half: sides.1 / 2 };
    let fits = (1..65_536).contains(&sides.0) && (1..65_536).contains(&size.half);
    let needed = if fits { size.needed() } else { [64, 32, 32, 256] };
    let lent = if needed[3] < 2_000_000 { needed } else { [64; 4] };
    let short = rng.pick(&[0, 0, 0, 1]);
    let planes = [0, 1, 2].map(|i| vec![0; lent[i].saturating_sub(short)]);
    Case { sides, planes, work: lent[3], stream: rng.pick(&[0, 100, 4000]) }
}

/// One of the slices a number short, or empty, over good planes or not.
fn draw_short(rng: &mut Rng) -> Case {
    let mut case = if rng.one_in(2) { draw_damaged(rng) } else { draw_picture(rng) };
    let size = Size { width: case.sides.0, half: case.sides.1 / 2 };
    let [green, red, blue, work] = size.needed();
    let shorter = |rng: &mut Rng, length: usize| rng.pick(&[length - 1, length - 1, 0]);
    match rng.below(5) {
        4 => case.stream = shorter(rng, case.stream.max(1)),
        3 => case.work = shorter(rng, work),
        plane => case.planes[plane].truncate(shorter(rng, [green, red, blue][plane])),
    }
    case
}

// Records on the line of 26.

/// A tile with a record of 65,535 or 65,536 bytes, in group 3 or 4.
fn draw_long_record(rng: &mut Rng) -> Case {
    let bytes = MOST_BYTES + rng.below(2);
    let (group, width) = rng.pick(&[(3, 8752), (4, 6576)]);
    let size = Size { width, half: rng.pick(&[16, 16, 17, 23]) };
    let bits = 8 * bytes - rng.pick(&[0, 0, 7]);
    let planes = planes_of(&long_record(rng, size, group, bits));
    lend(rng, size, planes)
}

/// Coefficients whose record 1 of a packet of a group takes so many bits: all values of 19 bits, of
/// which as many are 0 as bits are too many, each saving its sign.
pub fn long_record(rng: &mut Rng, size: Size, group: usize, bits: usize) -> Coefficients {
    let mut c = Coefficients::new(size);
    let shape = size.shape(group);
    let index = rng.below(TILE_PACKETS[group]);
    let record = &mut c.packets[group][index][shape.numbers()..2 * shape.numbers()];
    for number in record.iter_mut() {
        let magnitude = (1 << 18) + rng.below(1 << 18) as i32;
        *number = rng.pick(&[magnitude, -magnitude]);
    }
    let surplus = writing::bits(shape, record).written() - bits;
    for k in 0..surplus {
        record[value_at(shape, k)] = 0;
    }
    assert_eq!(writing::bits(shape, record).written(), bits);
    c
}

/// A value that is not the first of its four, by its number.
fn value_at(shape: Shape, k: usize) -> usize {
    let (group, value) = (k / 3, 1 + k % 3);
    assert!(4 * group + value < shape.numbers() && shape.columns.is_multiple_of(4));
    4 * group + value
}
