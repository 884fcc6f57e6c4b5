//! Tiles with selectors up to 4 and extreme coefficients, whose planes come from the synthesis on
//! whole numbers.

use super::{size, Vectors};
use crate::largest::{best_of, Find};
use crate::oracle;
use crate::ordinary::{damage_payloads, draw_extreme, hold_whole, GREATEST_SELECTOR};
use crate::rng::Rng;
use crate::size::Size;
use crate::stages::{self, Stage};
use crate::written;
use std::sync::OnceLock;

pub fn put_ordinary(out: &mut Vectors, rng: &mut Rng) {
    static BEST: OnceLock<Vec<Vec<u8>>> = OnceLock::new();
    BEST.get_or_init(best_tiles).iter().for_each(|stream| put_tile(out, stream));
    let sizes = [(16, 16), (16, 18), (32, 32), (32, 34), (64, 16), (48, 30), (128, 16)];
    for (width, height) in sizes {
        for selector in [Some(GREATEST_SELECTOR), None] {
            put_tile(out, &draw_extreme(rng, size(width, height), selector).bytes);
        }
    }
    for (width, height) in [(16, 16), (32, 18), (16, 34)] {
        let mut stream = draw_extreme(rng, size(width, height), None);
        damage_payloads(rng, &mut stream, 20);
        put_tile(out, &stream.bytes);
    }
}

/// The best of a search in narrow tiles, for the sum of four o and for both columns of green.
fn best_tiles() -> Vec<Vec<u8>> {
    let goals = [
        (16, 16, stages::FOUR_O, false),
        (16, 18, stages::FOUR_O, true),
        (32, 32, stages::EVEN, true),
        (32, 34, stages::O, false),
        (48, 16, stages::FOUR_O, true),
        (48, 18, stages::EVEN, false),
        (64, 16, stages::O, true),
        (64, 18, stages::FOUR_O, false),
    ];
    goals
        .into_iter()
        .map(|(width, height, stage, below)| best_tile(size(width, height), stage, below))
        .collect()
}

/// A tile with the largest number of a stage of green, and of red on one side of 0 and of blue on
/// the other.
fn best_tile(size: Size, stage: Stage, below: bool) -> Vec<u8> {
    let find = |index, stage, below| -> Find { best_of(size, index, stage, below).expect("a find") };
    let mut tile = find(0, stage, below).tile();
    let [red, blue] = [false, true].map(|below| find(1, stages::COLOUR, below).tile());
    for group in 0..4 {
        tile.packets[group][1] = red.packets[group][1].clone();
        tile.packets[group][2] = blue.packets[group][1].clone();
    }
    written::coded(&tile, GREATEST_SELECTOR).bytes
}

/// A case with the planes in whole numbers, which are the original's.
fn put_tile(out: &mut Vectors, stream: &[u8]) {
    let original = oracle::decode(stream, [usize::MAX; 4]).expect("the tile is accepted");
    assert!(oracle::greatest_selector(stream) <= GREATEST_SELECTOR);
    let (_, planes) = hold_whole(stream, &original).expect("whole numbers are the original's");
    out.tile_head(stream, &original);
    planes.iter().flatten().for_each(|row| out.numbers(&row.iter().map(|&n| n as i32).collect::<Vec<_>>()));
}
