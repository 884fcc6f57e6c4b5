//! `arw6 digest --check`: whether the tiles named in a list still have their lines.

use crate::batch::Outcome;
use crate::digest::line_of;
use crate::failure::{Failure, Kind};
use crate::input::Frame;
use crate::json::{file, number, object, text};
use crate::line::Line;
use crate::names::shown;
use crate::results::Damage;
use arw6::Buffers;
use std::path::{Path, PathBuf};

/// Lines of a list that name the same file, one after the other.
pub struct Group {
    path: PathBuf,
    lines: Vec<Line>,
}

/// The lines of a list in groups. Text that is no line is noted with its number.
pub fn groups(list: &Path, bytes: &[u8], notes: &mut Vec<String>) -> Vec<Group> {
    let mut groups: Vec<Group> = Vec::new();
    let bytes = bytes.strip_suffix(b"\n").unwrap_or(bytes);
    for (i, text) in bytes.split(|&byte| byte == b'\n').enumerate() {
        let Some(line) = std::str::from_utf8(text).ok().and_then(Line::parse) else {
            notes.push(format!("{}: line {} is no line of a digest", shown(list), i + 1));
            continue;
        };
        match groups.last_mut() {
            Some(group) if group.path == line.path => group.lines.push(line),
            _ => groups.push(Group { path: line.path.clone(), lines: vec![line] }),
        }
    }
    groups
}

/// How the lines are answered.
pub struct Answers {
    /// Lines that are OK are not told.
    pub quiet: bool,
    pub json: bool,
}

/// Checks the lines of one file: each is made anew, and must come out the same.
pub fn run(group: &Group, size: Option<(usize, usize)>, answers: &Answers, buffers: &mut Buffers) -> Outcome {
    let mut outcome = Outcome::default();
    let mut damage = Damage::default();
    let frame = Frame::read(&group.path, size);
    if let Err(failure) = &frame {
        outcome.fail(&group.path, failure);
    }
    for line in &group.lines {
        let verdict = match &frame {
            Ok(frame) => check(line, frame, buffers, &mut damage).unwrap_or_else(|failure| {
                outcome.fail(&group.path, &failure);
                word(&failure)
            }),
            Err(failure) => word(failure),
        };
        outcome.wrong += (verdict != OK) as usize;
        if verdict != OK || !answers.quiet {
            outcome.out += &answers.text(line, &verdict);
        }
    }
    outcome.bad |= outcome.wrong > 0;
    outcome.warn(&group.path, &damage);
    outcome
}

const OK: &str = "OK";

/// Whether the file's tile has this line.
fn check(line: &Line, frame: &Frame, buffers: &mut Buffers, damage: &mut Damage) -> Result<String, Failure> {
    let mut same = false;
    if line.tile < frame.tiles.len() {
        let (found, decoded) = line_of(&line.path, frame, line.tile, buffers)?;
        damage.add(line.tile, decoded.broken);
        same = found == *line;
    }
    Ok(if same { OK } else { "FAILED" }.to_string())
}

/// The word for a tile that could not be decoded.
fn word(failure: &Failure) -> String {
    match failure.kind {
        Kind::Missing => "missing".to_string(),
        Kind::Refused(number) => format!("refused {number}"),
        _ => "unreadable".to_string(),
    }
}

impl Answers {
    fn text(&self, line: &Line, verdict: &str) -> String {
        if self.json {
            let fields = vec![("tile", number(line.tile)), ("result", text(verdict))];
            return object(&[file(&line.path), fields].concat()) + "\n";
        }
        format!("{}: tile {}: {verdict}\n", shown(&line.path), line.tile)
    }
}
