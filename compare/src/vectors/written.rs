//! Calls of the writer, with what the model says of them.

use super::{size, Vectors, KINDS};
use crate::rng::Rng;
use crate::size::Size;
use crate::whole::{Coefficients, Site};
use crate::write::draw::{
    draw_coefficients, edge_mode, extent, length_of, picture, planes_of, planes_with, MOST,
};
use crate::write::Case;

/// Plain and guarded, from the smallest on.
const SIZES: [(usize, usize); 8] =
    [(16, 16), (16, 18), (16, 30), (16, 32), (32, 16), (32, 34), (48, 16), (32, 48)];

/// Elements lent past those that are needed.
const SPARE: usize = 3;

pub fn written(out: &mut Vectors, rng: &mut Rng) {
    for (width, height) in SIZES {
        let size = size(width, height);
        put(out, &lend(size, planes_of(&Coefficients::new(size))));
        for bits in [3, 10, 19] {
            put(out, &lend(size, planes_of(&draw_coefficients(rng, size, bits))));
        }
    }
    for (width, height) in [(16, 64), (32, 50)] {
        put(out, &lend(size(width, height), picture(rng, size(width, height))));
    }
    for (width, height) in [(16, 16), (32, 18)] {
        put_lines(out, rng, size(width, height));
    }
    put_edges(out, rng);
    put_lengths(out, rng);
    put_sides(out);
}

/// A case with slices that are longer than they must be.
fn lend(size: Size, mut planes: [Vec<i32>; 3]) -> Case {
    let stream = length_of(size, &planes) + SPARE;
    planes.iter_mut().for_each(|plane| plane.extend([i32::MIN; SPARE]));
    Case { sides: (size.width, size.height()), planes, work: size.needed()[3] + SPARE, stream }
}

/// The words of a case: its input's length, the coded size, the lent numbers in green, red, blue and
/// work, the lent bytes, the number of the refusal, the stream's length, and the zeros in work.
fn words(case: &Case) -> ([usize; 11], Vec<u8>) {
    let expected = case.expected();
    let [green, red, blue] = case.planes.each_ref().map(Vec::len);
    let (input, (width, height)) = (4 * (green + red + blue), case.sides);
    let (refusal, length) = (expected.refusal as usize, expected.stream.len());
    let words =
        [input, width, height, green, red, blue, case.work, case.stream, refusal, length, expected.zeroed];
    (words, expected.stream)
}

fn put(out: &mut Vectors, case: &Case) {
    let (words, stream) = words(case);
    out.case(&words);
    case.planes.iter().for_each(|plane| out.numbers(plane));
    out.bytes(&stream);
}

/// One case in the format of the vectors.
pub fn written_case(case: &Case) -> Vec<u8> {
    let kind = 1 + KINDS.iter().position(|(name, _)| *name == "written").unwrap_or(0);
    let mut out = Vectors { kind, cases: 0, bytes: Vec::new() };
    put(&mut out, case);
    out.bytes
}

/// One number on either side of a line at a site of each level, and in the details.
fn put_lines(out: &mut Vectors, rng: &mut Rng, size: Size) {
    let c = draw_coefficients(rng, size, 4);
    for level in 0..=4 {
        let site =
            Site { index: if level == 4 { 0 } else { level % 3 }, level, band: [0, 0, 1, 2, 0][level] };
        let (rows, columns) = extent(size, site);
        let place = (rows - 1, rng.below(columns));
        let numbers = match (level, edge_mode(size, site, place.0)) {
            (0, _) => [32_767, 32_768, -32_768, -32_769],
            (_, None) => [MOST, MOST + 1, -MOST, -MOST - 1],
            // E of the last number that goes in and of the first that does not.
            (_, Some(odd_mode)) => [2 * MOST + odd_mode as i64, 2 * MOST + 3 - odd_mode as i64, -6, -7],
        };
        numbers.into_iter().for_each(|number| put(out, &lend(size, planes_with(&c, site, place, number))));
    }
}

/// Small edge values, of which E gives about one in two, in both modes.
fn put_edges(out: &mut Vectors, rng: &mut Rng) {
    for (height, level, index) in [(16, 3, 0), (16, 3, 2), (18, 2, 1), (18, 3, 1)] {
        let size = size(16, height);
        let c = draw_coefficients(rng, size, 2);
        let site = Site { index, level, band: 2 };
        for number in -5..=5 {
            let place = (0, rng.below(extent(size, site).1));
            put(out, &lend(size, planes_with(&c, site, place, number)));
        }
    }
}

/// Slices as long as they must be, and each of them one element short, the stream's last of all; then
/// short ones over planes that 25 refuses.
fn put_lengths(out: &mut Vectors, rng: &mut Rng) {
    for (width, height) in [(16, 16), (16, 18)] {
        let size = size(width, height);
        let exact = trimmed(lend(size, planes_of(&draw_coefficients(rng, size, 8))));
        let mut refused = exact.clone();
        refused.planes[1][0] = 1 << 30;
        for case in [exact, refused] {
            put(out, &case);
            for slice in 0..5 {
                let mut short = case.clone();
                match slice {
                    4 => short.stream -= 1,
                    3 => short.work -= 1,
                    plane => drop(short.planes[plane].pop()),
                }
                put(out, &short);
            }
        }
    }
}

fn trimmed(mut case: Case) -> Case {
    case.planes.iter_mut().for_each(|plane| plane.truncate(plane.len() - SPARE));
    Case { work: case.work - SPARE, stream: case.stream - SPARE, ..case }
}

/// Sizes that are refused, beside near ones that are not by the same number.
fn put_sides(out: &mut Vectors) {
    let sides = [
        (0, 16),
        (8, 16),
        (17, 16),
        (65_520, 16),
        (65_535, 16),
        (65_536, 16),
        (16, 0),
        (16, 14),
        (16, 15),
        (16, 17),
        (16, 32_766),
        (16, 32_768),
        (16, 131_070),
        (16, 131_072),
        (8192, 32_768),
        (8208, 32_768),
        (65_520, 131_070),
    ];
    for sides in sides {
        put(out, &Case { sides, planes: [vec![0; 128], vec![0; 64], vec![0; 64]], work: 512, stream: 544 });
    }
}
