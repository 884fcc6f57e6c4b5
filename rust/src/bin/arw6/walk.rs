//! The files that a job runs on.

use crate::names::shown;
use std::collections::BTreeMap;
use std::fs;
use std::path::{Path, PathBuf};

/// A file, and its place below the folder that planes are written to.
pub struct Input {
    pub path: PathBuf,
    pub place: PathBuf,
}

/// The files of a job; what cannot be gone through is noted.
pub struct Walk {
    pub inputs: Vec<Input>,
    pub notes: Vec<String>,
    /// The endings of names that are taken in folders.
    endings: &'static [&'static str],
}

impl Walk {
    /// The files as given, in folders those with the endings in the order of their names.
    pub fn new(given: &[PathBuf], recurse: bool, endings: &'static [&'static str]) -> Walk {
        let mut walk = Walk { inputs: Vec::new(), notes: Vec::new(), endings };
        for path in given {
            if recurse && path.is_dir() {
                walk.given_folder(path);
            } else {
                let place = if path.as_os_str() == "-" {
                    "stdin".as_ref()
                } else {
                    path.file_name().unwrap_or_default()
                };
                walk.inputs.push(Input { path: path.clone(), place: place.into() });
            }
        }
        walk
    }

    fn given_folder(&mut self, path: &Path) {
        let before = (self.inputs.len(), self.notes.len());
        self.folder(path, Path::new(""));
        if (self.inputs.len(), self.notes.len()) == before {
            self.notes.push(format!("{}: no {} file below", shown(path), self.endings.join(" or ")));
        }
    }

    /// Hidden names are left out, and links to folders are not followed.
    fn folder(&mut self, folder: &Path, place: &Path) {
        let entries = fs::read_dir(folder).and_then(|entries| entries.collect::<Result<Vec<_>, _>>());
        let mut entries = match entries {
            Ok(entries) => entries,
            Err(error) => return self.notes.push(format!("{}: {error}", shown(folder))),
        };
        entries.sort_by_key(|entry| entry.file_name());
        for entry in entries {
            let (name, path) = (entry.file_name(), entry.path());
            if name.as_encoded_bytes().starts_with(b".") {
                continue;
            }
            if entry.file_type().is_ok_and(|kind| kind.is_dir()) {
                self.folder(&path, &place.join(name));
            } else if path.is_file() && self.is_wanted(&path) {
                self.inputs.push(Input { path, place: place.join(name) });
            }
        }
    }

    fn is_wanted(&self, path: &Path) -> bool {
        let ending = path.extension().unwrap_or_default();
        self.endings.iter().any(|wanted| ending.eq_ignore_ascii_case(&wanted[1..]))
    }

    /// Two files whose planes would stand in the same place.
    pub fn clash(&self) -> Option<(&Path, &Path)> {
        let mut places = BTreeMap::new();
        for input in &self.inputs {
            if let Some(other) = places.insert(&input.place, &input.path) {
                return Some((other, &input.path));
            }
        }
        None
    }
}
