//! A test rig's joint: draws the planes of a frame with a joint of a known gap and lip, and reads both
//! off a green plane again. `arw6 write` makes a frame of what is drawn, and `arw6 planes` planes of the
//! frame.
//!
//!     joint draw DIR GAP LIP     green.npy, red.npy and blue.npy
//!     joint read GREEN.npy       the gap and the lip, in rows of the sensor

#[path = "../src/bin/arw6/npy.rs"]
#[allow(dead_code)]
mod npy;

use std::fs::{self, File};
use std::path::Path;
use std::process::ExitCode;

/// Columns and rows of the green plane; two rows of the sensor stand in one of them.
pub const COLUMNS: usize = 320;
pub const ROWS: usize = 120;

/// Rows at the top and at the bottom that are constant along the row, which any picture between needs.
pub const MARGIN: usize = 8;

/// The camera's codes of the plates, of the dark gap and of the lit lip, and the code of 0 in a plane.
const UPPER: i32 = 2500;
const LOWER: i32 = 2250;
const DARK: i32 = 420;
const LIT: i32 = 3300;
const BIAS: i32 = 2048;

/// The most by which concrete differs from its plate.
const GRAIN: i32 = 60;

/// Rows of the sensor from the first one to the gap, at the left; the joint falls by a row in 20 columns.
const TOP: usize = 80;
const FALL: usize = 20;

/// Planes of green, red and blue; red and blue have half the columns.
pub fn draw(gap: usize, lip: usize) -> [Vec<i32>; 3] {
    let mut grain = grain();
    // Odd columns of green hold the upper of two rows of the sensor, even ones the lower.
    let green = |y: usize, x: usize| code(2 * y + 1 - x % 2, x / 2 * 2, gap, lip) - BIAS;
    let tint = |y: usize, x: usize| code(2 * y, 2 * x, gap, lip) / 40;
    let mut plane = |columns: usize, number: &dyn Fn(usize, usize) -> i32| {
        let mut row = |y: usize| -> Vec<i32> {
            match (MARGIN..ROWS - MARGIN).contains(&y) {
                true => (0..columns).map(|x| number(y, x) + grain()).collect(),
                false => vec![number(y, 0); columns],
            }
        };
        (0..ROWS).flat_map(&mut row).collect()
    };
    [plane(COLUMNS, &green), plane(COLUMNS / 2, &tint), plane(COLUMNS / 2, &|y, x| -tint(y, x))]
}

/// The code at a row and a column of the sensor.
fn code(row: usize, column: usize, gap: usize, lip: usize) -> i32 {
    let top = TOP + column / FALL;
    match row {
        _ if row < top => UPPER,
        _ if row < top + gap => DARK,
        _ if row < top + gap + lip => LIT,
        _ => LOWER,
    }
}

/// Numbers around 0, the same on every machine.
fn grain() -> impl FnMut() -> i32 {
    let mut state: u32 = 1;
    move || {
        state = state.wrapping_mul(1_664_525).wrapping_add(1_013_904_223);
        (state >> 8) as i32 % (2 * GRAIN + 1) - GRAIN
    }
}

/// The gap and the lip off a green plane: the dark and the lit rows of the sensor down each pair of
/// columns, which must be the same in all of them.
pub fn read(green: &[i32], columns: usize) -> Result<(usize, usize), String> {
    let pair = |x: usize| {
        let codes: Vec<i32> =
            green.chunks(columns).flat_map(|row| [row[2 * x + 1], row[2 * x]]).map(|n| n + BIAS).collect();
        let dark = codes.iter().filter(|&&code| code < (DARK + LOWER) / 2).count();
        let lit = codes.iter().filter(|&&code| code > (LIT + UPPER) / 2).count();
        (dark, lit)
    };
    let first = pair(0);
    match (1..columns / 2).find(|&x| pair(x) != first) {
        None => Ok(first),
        Some(x) => {
            Err(format!("gap and lip are {first:?} at the left, and {:?} at column {}", pair(x), 2 * x))
        }
    }
}

/// Draws the three planes into a folder.
pub fn draw_into(folder: &Path, gap: usize, lip: usize) -> Result<(), String> {
    if TOP + COLUMNS / FALL + gap + lip >= 2 * (ROWS - MARGIN) {
        return Err("gap and lip are too large for the picture".to_string());
    }
    fs::create_dir_all(folder).map_err(|error| error.to_string())?;
    let names = [("green", COLUMNS), ("red", COLUMNS / 2), ("blue", COLUMNS / 2)];
    for (plane, (name, columns)) in draw(gap, lip).iter().zip(names) {
        let file = File::create(folder.join(format!("{name}.npy")));
        let written = file.and_then(|mut file| npy::write(plane, columns, &mut file));
        written.map_err(|error| error.to_string())?;
    }
    Ok(())
}

/// The gap and the lip off the green plane in a file.
pub fn read_from(path: &Path) -> Result<(usize, usize), String> {
    let bytes = fs::read(path).map_err(|error| error.to_string())?;
    let green = npy::read(&bytes)?;
    read(&green.numbers, green.columns)
}

fn main() -> ExitCode {
    let words: Vec<String> = std::env::args().skip(1).collect();
    let words: Vec<&str> = words.iter().map(String::as_str).collect();
    let number = |word: &str| word.parse::<usize>().map_err(|_| format!("{word} is no number of rows"));
    let done = match words[..] {
        ["draw", folder, gap, lip] => {
            number(gap).and_then(|gap| draw_into(Path::new(folder), gap, number(lip)?))
        }
        ["read", green] => read_from(Path::new(green)).map(|(gap, lip)| println!("gap {gap} lip {lip}")),
        _ => Err("joint draw DIR GAP LIP, or joint read GREEN.npy".to_string()),
    };
    match done {
        Ok(()) => ExitCode::SUCCESS,
        Err(what) => {
            eprintln!("joint: {what}");
            ExitCode::FAILURE
        }
    }
}
