//! `arw6 write`: a frame file, or a bare stream, that decodes to exactly the planes that are given.

use crate::batch::Outcome;
use crate::failure::{Failure, Kind};
use crate::json::{file as file_fields, number, object};
use crate::names::shown;
use crate::npy::{self, Array};
use crate::{input, names};
use arw6::{find_fault, write_stream, Colour, Error, Lengths, Refusal};
use std::fs::{self, File};
use std::io::{ErrorKind, Result as IoResult, Write};
use std::path::{Path, PathBuf};

/// Where the stream starts in the strip, and the place of the table's first entry.
const STREAM: usize = 512;
const ENTRY: usize = 8;

/// How planes are written.
#[derive(Clone, Copy)]
pub struct Options {
    /// The coded height, if it is not twice the planes' rows.
    pub height: Option<usize>,
    /// The stream alone.
    pub bare: bool,
    /// A file that is there already is replaced.
    pub force: bool,
    /// The result as JSON.
    pub json: bool,
}

/// A failure, and the file that it is about.
type Failed = (PathBuf, Failure);

/// Writes the planes, green, red and blue, to a file, or nothing.
pub fn run(inputs: &[PathBuf], target: &Path, options: Options) -> Outcome {
    match written(inputs, target, options) {
        Ok(out) => Outcome { out, ..Outcome::default() },
        Err((path, failure)) => Outcome::failed(&path, failure, options.json),
    }
}

fn written(inputs: &[PathBuf], target: &Path, options: Options) -> Result<String, Failed> {
    let planes = inputs.iter().map(|path| read(path)).collect::<Result<Vec<Array>, Failed>>()?;
    let [green, red, blue] = &planes[..] else {
        return Err(unreadable(target, "green, red and blue are three files"));
    };
    let height = options.height.unwrap_or(2 * green.rows);
    measure(inputs, [green, red, blue], height)?;
    let [greens, reds, blues] = [green, red, blue].map(|plane| &plane.numbers[..]);
    let stream = write_stream(greens, reds, blues, green.columns, height)
        .map_err(|error| refused(inputs, &planes, height, error))?;
    let length = stream.len();
    let bytes = if options.bare { stream } else { frame_file(&stream, green.columns, height) };
    save(target, &bytes, options.force)
        .map_err(|text| (target.to_path_buf(), Failure::new(Kind::Unwritten, text)))?;
    let (width, rows) = (green.columns, green.rows);
    if !options.json {
        return Ok(format!("{}: {width}x{height}, rows {rows}, stream of {length} bytes\n", shown(target)));
    }
    let sizes = [("width", width), ("height", height), ("rows", rows), ("length", length)];
    let fields = sizes.map(|(name, size)| (name, number(size)));
    Ok(object(&[file_fields(target), fields.to_vec()].concat()) + "\n")
}

fn unreadable(path: &Path, text: impl Into<String>) -> Failed {
    (path.to_path_buf(), Failure::new(Kind::Unreadable, text))
}

fn read(path: &Path) -> Result<Array, Failed> {
    let bytes = input::read(path).map_err(|failure| (path.to_path_buf(), failure))?;
    npy::read(&bytes).map_err(|text| unreadable(path, text))
}

/// The planes have the shapes that the coded height asks for.
fn measure(inputs: &[PathBuf], planes: [&Array; 3], height: usize) -> Result<(), Failed> {
    let (green, width) = (planes[0], planes[0].columns);
    let lengths =
        Lengths::of_size(width, height).map_err(|refusal| size_refused(inputs, width, height, refusal))?;
    if lengths.rows != green.rows {
        let text = format!(
            "has {} rows, and a coded height of {height} has {}; --height says another one",
            green.rows, lengths.rows
        );
        return Err(unreadable(&inputs[0], text));
    }
    for (path, plane) in inputs.iter().zip(planes).skip(1) {
        if (plane.rows, plane.columns) != (green.rows, width / 2) {
            let text = format!(
                "has {} rows by {}, and beside this green it takes {} by {}",
                plane.rows,
                plane.columns,
                green.rows,
                width / 2
            );
            return Err(unreadable(path, text));
        }
    }
    Ok(())
}

/// A size that no header holds is told by its rule.
fn size_refused(inputs: &[PathBuf], width: usize, height: usize, refusal: Refusal) -> Failed {
    let rule = "widths are multiples of 16 up to 65,520, coded heights even ones up to 131,070";
    let text = match refusal.number() {
        2 => format!("{refusal} (no header has a width of {width} and a height of {height}: {rule})"),
        _ => format!("{refusal} ({width} by {height})"),
    };
    (inputs[0].clone(), Failure::new(Kind::Refused(refusal.number()), text))
}

/// Refusal 25 comes with the first number at fault, and with the file that has it.
fn refused(inputs: &[PathBuf], planes: &[Array], height: usize, error: Error) -> Failed {
    let Error::Refused(refusal) = error else {
        return (inputs[0].clone(), Failure::new(Kind::Memory, error.to_string()));
    };
    let kind = Kind::Refused(refusal.number());
    let fault = match planes {
        [green, red, blue] if refusal.number() == 25 => {
            find_fault(&green.numbers, &red.numbers, &blue.numbers, green.columns, height)
        }
        _ => None,
    };
    let Some(fault) = fault else { return (inputs[0].clone(), Failure::new(kind, refusal.to_string())) };
    let file = match fault.colour {
        Colour::Green => 0,
        Colour::Red => 1,
        Colour::Blue => 2,
    };
    let advice = "'arw6 write --help' tells of the margin";
    (inputs[file].clone(), Failure::new(kind, format!("{refusal}; first in {fault} ({advice})")))
}

/// A frame file of one tile: the frame's sides, then a strip with a table of one entry.
fn frame_file(stream: &[u8], width: usize, height: usize) -> Vec<u8> {
    let mut strip = vec![0; STREAM];
    let mut put = |at: usize, word: usize| strip[at..at + 4].copy_from_slice(&(word as u32).to_le_bytes());
    put(0, 1);
    for (i, word) in [STREAM, 0, 0, 0, width, height].into_iter().enumerate() {
        put(ENTRY + 4 * i, word);
    }
    let sides = [width, height].map(|side| (side as u32).to_le_bytes());
    [&sides[0][..], &sides[1], &strip, stream].concat()
}

/// Writes a file under a hidden name beside its own, and renames it when it is whole.
fn save(target: &Path, bytes: &[u8], force: bool) -> Result<(), String> {
    match target.symlink_metadata() {
        Ok(_) if !force => return Err("is there already; --force replaces it".to_string()),
        Ok(there) if !there.is_file() => return Err("is no file, and is not replaced".to_string()),
        Err(error) if error.kind() != ErrorKind::NotFound => return Err(error.to_string()),
        _ => {}
    }
    let name = target.file_name().ok_or("is no name of a file")?;
    let mut hidden = std::ffi::OsString::from(".");
    hidden.push(names::with_ending(name, ".partial"));
    let partial = target.with_file_name(hidden);
    let saved = fill(&partial, bytes).and_then(|()| fs::rename(&partial, target));
    if saved.is_err() {
        let _ = fs::remove_file(&partial);
    }
    saved.map_err(|error| error.to_string())
}

fn fill(path: &Path, bytes: &[u8]) -> IoResult<()> {
    let mut file = File::create(path)?;
    file.write_all(bytes)?;
    file.sync_all()
}
