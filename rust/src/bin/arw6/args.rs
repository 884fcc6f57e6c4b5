//! The words of the command line.

use crate::help;
use std::ffi::{OsStr, OsString};
use std::os::unix::ffi::{OsStrExt, OsStringExt};
use std::path::PathBuf;

/// What the words ask for.
pub enum Request {
    Show(String),
    Run(Job),
}

pub enum Command {
    Tiles,
    Planes { folder: PathBuf, force: bool, picture: bool },
    Digest,
    Records,
    Check { quiet: bool },
    Write { file: PathBuf, height: Option<usize>, bare: bool, force: bool },
}

/// A command, the files that it runs on, and how.
pub struct Job {
    pub command: Command,
    /// Files, `-` for standard input, folders under `-r`, or with `--check` lists.
    pub inputs: Vec<PathBuf>,
    /// The frame's width and height, if the files are bare strips.
    pub frame: Option<(usize, usize)>,
    /// Results as JSON, one object a line.
    pub json: bool,
    /// Folders are gone through.
    pub recurse: bool,
    /// Damage makes the status 1.
    pub strict: bool,
    /// Files at once.
    pub threads: usize,
}

/// The options that take no value, and those that take one.
const FLAGS: [&str; 10] = [
    "--json",
    "--recursive",
    "--strict",
    "--force",
    "--no-picture",
    "--check",
    "--quiet",
    "--stream",
    "--help",
    "--version",
];
const VALUES: [&str; 4] = ["--frame", "--height", "--jobs", "--out"];

/// The options of the commands that take files of frames.
const COMMON: [&str; 5] = ["--frame", "--jobs", "--json", "--recursive", "--strict"];

/// The long name of a short option.
fn long_name(short: u8) -> Option<&'static str> {
    Some(match short {
        b'h' => "--help",
        b'V' => "--version",
        b'r' => "--recursive",
        b'j' => "--jobs",
        b'o' => "--out",
        b'q' => "--quiet",
        _ => return None,
    })
}

/// The words after a command: options by their long names, and the rest.
#[derive(Default)]
struct Words {
    flags: Vec<&'static str>,
    values: Vec<(&'static str, OsString)>,
    inputs: Vec<PathBuf>,
}

/// Takes the words apart, or says what is wrong with them.
pub fn parse(mut words: impl Iterator<Item = OsString>) -> Result<Request, String> {
    let first = words.next().ok_or("no command")?;
    let (common, own, help): (&[&str], &[&str], &str) = match first.to_str() {
        Some("tiles") => (&COMMON, &[], help::TILES),
        Some("planes") => (&COMMON, &["--out", "--force", "--no-picture"], help::PLANES),
        Some("digest") => (&COMMON, &["--check", "--quiet"], help::DIGEST),
        Some("records") => (&COMMON, &[], help::RECORDS),
        Some("write") => (&["--json"], &["--out", "--force", "--height", "--stream"], help::WRITE),
        Some("--help" | "-h" | "help") => return Ok(Request::Show(help::ALL.to_string())),
        Some("--version" | "-V") => return Ok(Request::Show(version())),
        _ => return Err(format!("unknown command {}", first.display())),
    };
    let words = Words::parse(words)?;
    if words.has("--help") {
        return Ok(Request::Show(help.to_string()));
    }
    if words.has("--version") {
        return Ok(Request::Show(version()));
    }
    words.only(&first, &[common, own].concat())?;
    words.job(&first).map(Request::Run)
}

fn version() -> String {
    format!("arw6 {}\n", env!("CARGO_PKG_VERSION"))
}

impl Words {
    fn parse(mut rest: impl Iterator<Item = OsString>) -> Result<Words, String> {
        let mut words = Words::default();
        while let Some(word) = rest.next() {
            match word.as_bytes() {
                b"--" => words.inputs.extend(rest.by_ref().map(PathBuf::from)),
                [b'-', b'-', ..] => words.long(&word, &mut rest)?,
                [b'-', _, ..] => words.short(&word, &mut rest)?,
                _ => words.inputs.push(word.into()),
            }
        }
        Ok(words)
    }

    /// `--name`, `--name value` or `--name=value`.
    fn long(&mut self, word: &OsStr, rest: &mut impl Iterator<Item = OsString>) -> Result<(), String> {
        let bytes = word.as_bytes();
        let (name, value) = match bytes.iter().position(|&byte| byte == b'=') {
            Some(at) => (&bytes[..at], Some(OsString::from_vec(bytes[at + 1..].to_vec()))),
            None => (bytes, None),
        };
        let known = |names: &[&'static str]| names.iter().copied().find(|known| known.as_bytes() == name);
        if let Some(flag) = known(&FLAGS) {
            match value {
                None => self.flags.push(flag),
                Some(_) => return Err(format!("{flag} takes no value")),
            }
        } else if let Some(option) = known(&VALUES) {
            let value = value.or_else(|| rest.next()).ok_or(format!("{option} lacks its value"))?;
            self.values.push((option, value));
        } else {
            return Err(format!("unknown option {}", word.display()));
        }
        Ok(())
    }

    /// Letters in a row, as `-r`, `-j 4`, `-j4` or `-rj4`.
    fn short(&mut self, word: &OsStr, rest: &mut impl Iterator<Item = OsString>) -> Result<(), String> {
        let mut letters = &word.as_bytes()[1..];
        while let [letter, others @ ..] = letters {
            let name = long_name(*letter).ok_or(format!("unknown option {}", word.display()))?;
            if VALUES.contains(&name) {
                let joined = Some(OsString::from_vec(others.to_vec())).filter(|value| !value.is_empty());
                let value = joined.or_else(|| rest.next()).ok_or(format!("{name} lacks its value"))?;
                self.values.push((name, value));
                return Ok(());
            }
            self.flags.push(name);
            letters = others;
        }
        Ok(())
    }

    fn has(&self, flag: &str) -> bool {
        self.flags.contains(&flag)
    }

    /// The last value of an option.
    fn value(&self, option: &str) -> Option<&OsStr> {
        self.values.iter().rev().find(|(name, _)| *name == option).map(|(_, value)| value.as_os_str())
    }

    /// An option of another command is bad usage.
    fn only(&self, command: &OsStr, allowed: &[&str]) -> Result<(), String> {
        let given = self.flags.iter().chain(self.values.iter().map(|(name, _)| name));
        for name in given {
            if !allowed.contains(name) {
                return Err(format!("{name} does not go with {}", command.display()));
            }
        }
        Ok(())
    }

    fn job(self, command: &OsStr) -> Result<Job, String> {
        if self.inputs.is_empty() {
            return Err("no file".to_string());
        }
        if self.inputs.iter().filter(|path| path.as_os_str() == "-").count() > 1 {
            return Err("standard input can be read once".to_string());
        }
        Ok(Job {
            command: self.command(command)?,
            frame: self.value("--frame").map(frame_size).transpose()?,
            threads: self.value("--jobs").map_or_else(|| Ok(cores()), jobs)?,
            json: self.has("--json"),
            recurse: self.has("--recursive"),
            strict: self.has("--strict"),
            inputs: self.inputs,
        })
    }

    fn command(&self, name: &OsStr) -> Result<Command, String> {
        Ok(match name.to_str() {
            Some("planes") => {
                let folder = self.value("--out").ok_or("planes needs --out DIR")?;
                if folder.is_empty() {
                    return Err("--out names no folder".to_string());
                }
                let (force, picture) = (self.has("--force"), !self.has("--no-picture"));
                Command::Planes { folder: folder.into(), force, picture }
            }
            Some("write") => {
                if self.inputs.len() != 3 {
                    return Err("write needs three files: green, red and blue".to_string());
                }
                let file =
                    self.value("--out").filter(|file| !file.is_empty()).ok_or("write needs --out FILE")?;
                let height = self.value("--height").map(coded_height).transpose()?;
                let (bare, force) = (self.has("--stream"), self.has("--force"));
                Command::Write { file: file.into(), height, bare, force }
            }
            Some("digest") if self.has("--check") => {
                if self.has("--recursive") {
                    return Err("--check takes lists, and -r takes folders of frames".to_string());
                }
                Command::Check { quiet: self.has("--quiet") }
            }
            Some("digest") if self.has("--quiet") => return Err("--quiet goes with --check".to_string()),
            Some("digest") => Command::Digest,
            Some("records") => Command::Records,
            _ => Command::Tiles,
        })
    }
}

/// Width and height of the form `640x480`.
fn frame_size(word: &OsStr) -> Result<(usize, usize), String> {
    let sides = word.to_str().and_then(|word| word.split_once('x'));
    let sides = sides.and_then(|(w, h)| Some((w.parse().ok()?, h.parse().ok()?)));
    sides.ok_or("--frame wants a width and a height, as in 640x480".to_string())
}

fn coded_height(word: &OsStr) -> Result<usize, String> {
    let height = word.to_str().and_then(|word| word.parse().ok());
    height.ok_or("--height wants a number of rows of the sensor".to_string())
}

fn jobs(word: &OsStr) -> Result<usize, String> {
    let count = word.to_str().and_then(|word| word.parse().ok()).filter(|&count| count > 0);
    count.ok_or("-j wants a number above 0".to_string())
}

fn cores() -> usize {
    std::thread::available_parallelism().map_or(1, |cores| cores.get())
}
