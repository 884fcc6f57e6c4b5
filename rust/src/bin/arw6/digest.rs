//! `arw6 digest`: a line for each tile.

use crate::batch::Outcome;
use crate::failure::Failure;
use crate::input::Frame;
use crate::json::{file, number, object, text};
use crate::line::{hex, Line, DEFINITION};
use crate::results::{decoded_fields, Damage};
use arw6::{Buffers, Decoded};
use std::path::Path;

/// The line of one tile.
pub fn line_of(
    path: &Path,
    frame: &Frame,
    k: usize,
    buffers: &mut Buffers,
) -> Result<(Line, Decoded), Failure> {
    let planes =
        buffers.decode(frame.stream(&frame.tiles[k])).map_err(|error| Failure::decoding(k, error))?;
    let decoded = planes.decoded;
    let line = Line {
        digest: planes.digest(),
        tile: k,
        tiles: frame.tiles.len(),
        width: decoded.width,
        height: decoded.height,
        stopped: decoded.stopped,
        path: path.to_path_buf(),
    };
    Ok((line, decoded))
}

/// The lines of all tiles of a file, or none.
pub fn run(path: &Path, frame: &Frame, as_json: bool, buffers: &mut Buffers) -> Result<Outcome, Failure> {
    let mut outcome = Outcome::default();
    let mut damage = Damage::default();
    for k in 0..frame.tiles.len() {
        let (line, decoded) = line_of(path, frame, k, buffers)?;
        damage.add(k, decoded.broken);
        outcome.out += &if as_json { as_object(&line, &decoded) } else { line.text() };
        outcome.out += "\n";
    }
    outcome.warn(path, &damage);
    Ok(outcome)
}

fn as_object(line: &Line, decoded: &Decoded) -> String {
    let fields = vec![
        ("tile", number(line.tile)),
        ("tiles", number(line.tiles)),
        ("definition", text(DEFINITION)),
        ("digest", text(&hex(&line.digest))),
        ("width", number(line.width)),
        ("height", number(line.height)),
    ];
    object(&[file(&line.path), fields, decoded_fields(decoded)].concat())
}
