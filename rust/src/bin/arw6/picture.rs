//! The picture of a tile, laid out as the sensor has it.
//!
//! Two sensor rows make one row y of the planes. In columns 2x and 2x + 1 the upper one, 2y, has
//! red and a green, the lower one, 2y + 1, a green and blue. Row y of the green plane holds both
//! greens, the lower one at 2x and the upper one at 2x + 1. The planes of red and blue hold half of
//! what red and blue differ from the mean of the two greens.

use crate::png::Png;
use arw6::{Decoded, TilePlanes};
use std::io::{Result, Write};

/// The code that stands for 0 in a plane, and the greatest code.
const BIAS: i64 = 2048;
const GREATEST: i64 = 4095;

/// Writes the sensor rows of the coded height that the planes have.
pub fn write(tile: &TilePlanes, file: &mut impl Write) -> Result<()> {
    let Decoded { width, height, rows, .. } = tile.decoded;
    let rows = 2 * rows.min(height / 2);
    let mut png = Png::start(file, width, rows)?;
    let mut pixels = vec![0; 3 * width];
    for row in 0..rows {
        paint(tile, rows, row, &mut pixels);
        png.row(&pixels)?;
    }
    png.finish()
}

/// The pixels of one sensor row: green as it is or as the mean of its neighbours, red and blue by
/// their differences from it.
fn paint(tile: &TilePlanes, rows: usize, row: usize, pixels: &mut [u8]) {
    let half = tile.decoded.width / 2;
    let colours = row / 2 * half;
    let (red, blue) = (&tile.red[colours..colours + half], &tile.blue[colours..colours + half]);
    for (column, pixel) in pixels.chunks_mut(3).enumerate() {
        let green = green(tile, rows, row, column);
        let off = |colour: &[i32]| shade(green + 2 * colour[column / 2] as i64);
        pixel.copy_from_slice(&[off(red), shade(green), off(blue)]);
    }
}

/// Whether the sensor has green there.
fn is_green(row: usize, column: usize) -> bool {
    row % 2 != column % 2
}

fn green(tile: &TilePlanes, rows: usize, row: usize, column: usize) -> i64 {
    let at = |row: usize, column: usize| tile.green[row / 2 * tile.decoded.width + column] as i64;
    if is_green(row, column) {
        return at(row, column);
    }
    let (mut sum, mut count) = (0, 0);
    let mut add = |row: usize, column: usize| {
        sum += at(row, column);
        count += 1;
    };
    if row > 0 {
        add(row - 1, column);
    }
    if row + 1 < rows {
        add(row + 1, column);
    }
    if column > 0 {
        add(row, column - 1);
    }
    if column + 1 < tile.decoded.width {
        add(row, column + 1);
    }
    sum.div_euclid(count)
}

/// A code of 12 bits as one of 8.
fn shade(number: i64) -> u8 {
    ((number + BIAS).clamp(0, GREATEST) >> 4) as u8
}
