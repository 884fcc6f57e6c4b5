//! `arw6 records`: how long each record is, and how many bits of it were read.

use crate::batch::Outcome;
use crate::failure::Failure;
use crate::input::Frame;
use crate::json::{list, number, object, text};
use crate::results::{count_fields, failure_fields, frame_fields, tile_fields, Counts, Damage, Fields};
use arw6::{records, Record, RecordState};
use std::path::Path;

/// The names of a line's fields.
const HEAD: &str = "tile packet record bytes allowance bits state\n";

/// The records of each tile, or why they could not be read.
type Tiles = Vec<Result<Vec<Record>, Failure>>;

/// Lists the records of all tiles.
pub fn run(path: &Path, frame: &Frame, as_json: bool) -> Outcome {
    let read = |(k, tile)| records(frame.stream(tile)).map_err(|error| Failure::decoding(k, error));
    let tiles: Tiles = frame.tiles.iter().enumerate().map(read).collect();
    let out = if as_json { as_object(path, frame, &tiles) } else { as_lines(&tiles) };
    let mut outcome = Outcome { out, ..Outcome::default() };
    let mut damage = Damage::default();
    for (k, records) in tiles.iter().enumerate() {
        match records {
            Ok(records) => damage.add(k, counts(records).broken),
            Err(failure) => outcome.fail(path, failure),
        }
    }
    outcome.warn(path, &damage);
    outcome
}

fn counts(records: &[Record]) -> Counts {
    let count = |state| records.iter().filter(|record| record.state == state).count();
    Counts {
        broken: count(RecordState::Broken),
        spent: count(RecordState::Spent),
        bits: records.iter().map(|record| record.bits).sum(),
    }
}

/// The names of the fields, then a line for each record; one line for a tile that has none to tell.
fn as_lines(tiles: &Tiles) -> String {
    let mut lines = HEAD.to_string();
    for (k, records) in tiles.iter().enumerate() {
        match records {
            Ok(records) => records.iter().for_each(|record| lines += &line(k, record)),
            Err(failure) => lines += &format!("{k} {}\n", failure.word()),
        }
    }
    lines
}

fn line(k: usize, record: &Record) -> String {
    let Record { packet, record, bytes, allowance, bits, state, .. } = record;
    format!("{k} {packet} {record} {bytes} {allowance} {bits} {state}\n")
}

fn as_object(path: &Path, frame: &Frame, tiles: &Tiles) -> String {
    let fields = |records: &Result<Vec<Record>, Failure>| -> Fields {
        match records {
            Ok(records) => {
                let objects: Vec<String> = records.iter().map(record_object).collect();
                [count_fields(counts(records)), vec![("records", list(&objects))]].concat()
            }
            Err(failure) => failure_fields(failure),
        }
    };
    let tile = |(k, (tile, records))| object(&[tile_fields(k, tile), fields(records)].concat());
    let tiles: Vec<String> = frame.tiles.iter().zip(tiles).enumerate().map(tile).collect();
    object(&[frame_fields(path, frame), vec![("tiles", list(&tiles))]].concat()) + "\n"
}

fn record_object(record: &Record) -> String {
    object(&[
        ("packet", number(record.packet)),
        ("record", number(record.record)),
        ("bytes", number(record.bytes)),
        ("allowance", number(record.allowance)),
        ("bits", number(record.bits)),
        ("state", text(&record.state.to_string())),
    ])
}
