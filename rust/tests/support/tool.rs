//! Runs the tool `arw6` as a program.

use std::ffi::OsStr;
use std::fs;
use std::path::{Path, PathBuf};
use std::process::{Command, Output};

pub const TOOL: &str = env!("CARGO_BIN_EXE_arw6");

pub const SAMPLE_FILE: &str = concat!(env!("CARGO_MANIFEST_DIR"), "/../samples/joint.frame");

/// Status, standard output and standard error.
pub type Outcome = (i32, String, String);

pub fn outcome(output: Output) -> Outcome {
    let text = |bytes| String::from_utf8(bytes).unwrap();
    (output.status.code().unwrap_or(-1), text(output.stdout), text(output.stderr))
}

pub fn run(words: &[&str]) -> Outcome {
    outcome(Command::new(TOOL).args(words).output().unwrap())
}

/// Runs a script of the shell, in which `$0` is the tool and `$1`.. are the words.
pub fn shell(script: &str, words: &[&str]) -> Outcome {
    outcome(Command::new("sh").args(["-c", script, TOOL]).args(words).output().unwrap())
}

/// An empty folder of the test's own.
pub fn folder(name: &str) -> PathBuf {
    let folder = Path::new(env!("CARGO_TARGET_TMPDIR")).join(name);
    let _ = fs::remove_dir_all(&folder);
    fs::create_dir_all(&folder).unwrap();
    folder
}

pub fn file(folder: &Path, name: impl AsRef<OsStr>, bytes: &[u8]) -> String {
    let path = folder.join(name.as_ref());
    fs::create_dir_all(path.parent().unwrap()).unwrap();
    fs::write(&path, bytes).unwrap();
    path.to_str().unwrap_or_default().to_string()
}

/// The names in a folder, hidden ones too, in order.
pub fn names(folder: impl AsRef<Path>) -> Vec<String> {
    let entries = fs::read_dir(folder).unwrap();
    let mut names: Vec<String> = entries.map(|e| e.unwrap().file_name().into_string().unwrap()).collect();
    names.sort();
    names
}

/// A path as a word.
pub fn word(path: &Path) -> &str {
    path.to_str().unwrap()
}

pub const NAMES: [&str; 9] = [
    "tile0.blue.npy",
    "tile0.green.npy",
    "tile0.png",
    "tile0.red.npy",
    "tile1.blue.npy",
    "tile1.green.npy",
    "tile1.png",
    "tile1.red.npy",
    "tiles.json",
];
