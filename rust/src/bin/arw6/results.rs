//! What the commands' results have in common: damage, failures, and the fields of their JSON.

use crate::batch::Outcome;
use crate::failure::{Failure, Kind};
use crate::input::Frame;
use crate::json::{file, number, object, text};
use crate::names::shown;
use arw6::{Decoded, TileStream};
use std::path::Path;

/// Names and values of a JSON object.
pub type Fields = Vec<(&'static str, String)>;

/// Broken records, tile by tile. Spent ones are ordinary.
#[derive(Default)]
pub struct Damage(Vec<(usize, usize)>);

impl Damage {
    pub fn add(&mut self, tile: usize, broken: usize) {
        if broken > 0 {
            self.0.push((tile, broken));
        }
    }

    fn words(&self) -> String {
        let tiles: Vec<String> = self.0.iter().map(|(k, broken)| format!("tile {k}: {broken}")).collect();
        format!("broken records ({}); the picture is damaged there", tiles.join(", "))
    }
}

impl Outcome {
    /// The outcome of a file that failed as a whole.
    pub fn failed(path: &Path, failure: Failure, as_json: bool) -> Outcome {
        let mut outcome = Outcome::default();
        if as_json {
            outcome.out = object(&[file(path), failure_fields(&failure)].concat()) + "\n";
        }
        outcome.fail(path, &failure);
        outcome
    }

    /// Counts a failure; the first of a file is noted, in one line. What was read from standard input
    /// cannot be read a second time.
    pub fn fail(&mut self, path: &Path, failure: &Failure) {
        if !self.bad {
            self.notes.push(format!("{}: {}", shown(path), failure.text));
        }
        self.bad = true;
        self.short_of_memory |= failure.kind == Kind::Memory && path.as_os_str() != "-";
    }

    /// Notes damage, if there is any, in one line.
    pub fn warn(&mut self, path: &Path, damage: &Damage) {
        if !damage.0.is_empty() {
            self.damaged = true;
            self.notes.push(format!("warning: {}: {}", shown(path), damage.words()));
        }
    }
}

pub fn frame_fields(path: &Path, frame: &Frame) -> Fields {
    let size = object(&[("width", number(frame.width)), ("height", number(frame.height))]);
    [file(path), vec![("frame", size)]].concat()
}

pub fn tile_fields(k: usize, tile: &TileStream) -> Fields {
    vec![
        ("tile", number(k)),
        ("offset", number(tile.offset)),
        ("length", number(tile.length)),
        ("x", number(tile.x)),
        ("y", number(tile.y)),
        ("width", number(tile.width)),
        ("height", number(tile.height)),
    ]
}

/// What is counted over the records of a tile.
pub struct Counts {
    pub broken: usize,
    pub spent: usize,
    /// What they took from their allowances.
    pub bits: u64,
}

pub fn count_fields(counts: Counts) -> Fields {
    vec![
        ("stopped", number(counts.broken + counts.spent)),
        ("broken", number(counts.broken)),
        ("spent", number(counts.spent)),
        ("bits", number(counts.bits)),
    ]
}

pub fn decoded_fields(decoded: &Decoded) -> Fields {
    let Decoded { rows, broken, spent, bits, .. } = *decoded;
    [vec![("rows", number(rows))], count_fields(Counts { broken, spent, bits })].concat()
}

/// Broken and spent records as a line has them.
pub fn stopped_words(decoded: &Decoded) -> String {
    format!("broken {} spent {}", decoded.broken, decoded.spent)
}

pub fn failure_fields(failure: &Failure) -> Fields {
    let mut fields = vec![("error", text(&failure.text))];
    if let Kind::Refused(refusal) = failure.kind {
        fields.push(("refusal", number(refusal)));
    }
    fields
}
