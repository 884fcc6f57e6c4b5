//! `arw6 planes`: a folder for each frame, with the exact numbers and a picture of each tile.

use crate::batch::Outcome;
use crate::failure::{Failure, Kind};
use crate::folder::Folder;
use crate::input::Frame;
use crate::json::{list, number, object, path as path_fields, text};
use crate::line::{hex, DEFINITION};
use crate::names::shown;
use crate::results::{decoded_fields, frame_fields, stopped_words, tile_fields, Damage};
use crate::{npy, picture};
use arw6::{Buffers, Decoded, TilePlanes, TileStream};
use std::io::Write;
use std::path::{Path, PathBuf};

/// How planes are written.
#[derive(Clone, Copy)]
pub struct Options {
    /// A folder that is there already is replaced.
    pub force: bool,
    /// A picture of each tile is written too.
    pub picture: bool,
    /// Results as JSON.
    pub json: bool,
}

/// What is said of the tiles: objects of JSON, and lines.
#[derive(Default)]
struct Said {
    objects: Vec<String>,
    lines: String,
}

/// Writes all tiles of a frame, or nothing.
pub fn run(
    path: &Path,
    frame: &Frame,
    target: PathBuf,
    options: Options,
    buffers: &mut Buffers,
) -> Result<Outcome, Failure> {
    let unwritten = |text| Failure::new(Kind::Unwritten, text);
    let folder = Folder::start(target.clone(), options.force, is_ours).map_err(unwritten)?;
    let (mut said, mut damage) = (Said::default(), Damage::default());
    for (k, tile) in frame.tiles.iter().enumerate() {
        let planes = buffers.decode(frame.stream(tile)).map_err(|error| Failure::decoding(k, error))?;
        write(&folder, k, &planes, options.picture).map_err(unwritten)?;
        damage.add(k, planes.decoded.broken);
        said.tile(k, tile, &planes);
    }
    let tiles = [frame_fields(path, frame), vec![("tiles", list(&said.objects))]].concat();
    folder.write("tiles.json", |file| writeln!(file, "{}", object(&tiles))).map_err(unwritten)?;
    folder.keep().map_err(unwritten)?;
    let out = match options.json {
        true => object(&[tiles, path_fields(["folder", "folder_bytes"], &target)].concat()) + "\n",
        false => format!("{}\n{}", shown(&target), said.lines),
    };
    let mut outcome = Outcome { out, ..Outcome::default() };
    outcome.warn(path, &damage);
    Ok(outcome)
}

/// The planes of a tile with their colours and columns.
fn colours<'a>(planes: &TilePlanes<'a>) -> [(&'static str, &'a [i32], usize); 3] {
    let (width, half) = (planes.decoded.width, planes.decoded.width / 2);
    [("green", planes.green, width), ("red", planes.red, half), ("blue", planes.blue, half)]
}

fn write(folder: &Folder, k: usize, planes: &TilePlanes, picture: bool) -> Result<(), String> {
    for (colour, numbers, columns) in colours(planes) {
        folder.write(&format!("tile{k}.{colour}.npy"), |file| npy::write(numbers, columns, file))?;
    }
    if picture {
        folder.write(&format!("tile{k}.png"), |file| picture::write(planes, file))?;
    }
    Ok(())
}

/// Whether a file of that name is one that is written here.
fn is_ours(name: &str) -> bool {
    let Some(rest) = name.strip_prefix("tile") else { return false };
    let end = rest.trim_start_matches(|letter: char| letter.is_ascii_digit());
    let numbered = end.len() < rest.len();
    rest == "s.json" || numbered && [".green.npy", ".red.npy", ".blue.npy", ".png"].contains(&end)
}

impl Said {
    fn tile(&mut self, k: usize, tile: &TileStream, planes: &TilePlanes) {
        let mut fields = [tile_fields(k, tile), decoded_fields(&planes.decoded)].concat();
        fields.push(("definition", text(DEFINITION)));
        fields.push(("digest", text(&hex(&planes.digest()))));
        let Decoded { width, height, rows, .. } = planes.decoded;
        let mut line = format!("  tile {k} at {},{}: {width}x{height}, rows {rows}", tile.x, tile.y);
        for (colour, numbers, _) in colours(planes) {
            let (least, greatest) = range(numbers);
            line += &format!(", {colour} {least} to {greatest}");
            let ends = [("least", number(least)), ("greatest", number(greatest))];
            fields.push((colour, object(&ends)));
        }
        self.lines += &format!("{line}, {}\n", stopped_words(&planes.decoded));
        self.objects.push(object(&fields));
    }
}

fn range(numbers: &[i32]) -> (i32, i32) {
    numbers.iter().fold((i32::MAX, i32::MIN), |(least, greatest), &n| (least.min(n), greatest.max(n)))
}

#[cfg(test)]
mod tests {
    use super::is_ours;

    #[test]
    fn names_of_ours() {
        assert!(["tiles.json", "tile0.green.npy", "tile15.blue.npy", "tile1.png"].iter().all(|n| is_ours(n)));
        let others =
            ["tile", "tiles", "tile.png", "tile0.green.npy.bak", "tileX.png", "a/tile0.png", "green.npy"];
        assert!(!others.iter().any(|n| is_ours(n)));
    }
}
