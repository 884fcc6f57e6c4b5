//! `arw6 tiles`: where the tiles are, and whether each decodes.

use crate::batch::Outcome;
use crate::failure::Failure;
use crate::input::Frame;
use crate::json::{list, object};
use crate::results::{
    decoded_fields, failure_fields, frame_fields, stopped_words, tile_fields, Damage, Fields,
};
use arw6::{Buffers, Decoded, TileStream};
use std::path::Path;

/// What became of each tile.
type Tiles<'a> = Vec<(&'a TileStream, Result<Decoded, Failure>)>;

/// Decodes each tile, and lists them.
pub fn run(path: &Path, frame: &Frame, as_json: bool, buffers: &mut Buffers) -> Outcome {
    let mut decode = |k: usize, tile| match buffers.decode(frame.stream(tile)) {
        Ok(planes) => Ok(planes.decoded),
        Err(error) => Err(Failure::decoding(k, error)),
    };
    let tiles: Tiles = frame.tiles.iter().enumerate().map(|(k, tile)| (tile, decode(k, tile))).collect();
    let out = if as_json { as_object(path, frame, &tiles) } else { as_lines(&tiles) };
    let mut outcome = Outcome { out, ..Outcome::default() };
    let mut damage = Damage::default();
    for (k, (_, decoded)) in tiles.iter().enumerate() {
        match decoded {
            Ok(decoded) => damage.add(k, decoded.broken),
            Err(failure) => outcome.fail(path, failure),
        }
    }
    outcome.warn(path, &damage);
    outcome
}

/// The count, then a line for each tile: its six fields and what became of it.
fn as_lines(tiles: &Tiles) -> String {
    let mut lines = format!("tiles {}\n", tiles.len());
    for (tile, decoded) in tiles {
        let TileStream { offset, length, x, y, width, height, .. } = tile;
        let end = match decoded {
            Ok(decoded) => stopped_words(decoded),
            Err(failure) => failure.word(),
        };
        lines += &format!("{offset} {length} {x} {y} {width} {height} {end}\n");
    }
    lines
}

fn as_object(path: &Path, frame: &Frame, tiles: &Tiles) -> String {
    let fields = |decoded: &Result<Decoded, Failure>| -> Fields {
        match decoded {
            Ok(decoded) => decoded_fields(decoded),
            Err(failure) => failure_fields(failure),
        }
    };
    let tile = |(k, (tile, decoded)): (usize, &(&TileStream, _))| {
        object(&[tile_fields(k, tile), fields(decoded)].concat())
    };
    let tiles: Vec<String> = tiles.iter().enumerate().map(tile).collect();
    object(&[frame_fields(path, frame), vec![("tiles", list(&tiles))]].concat()) + "\n"
}
