//! Finds the proved libraries, builds those that are missing or older than the crates, and links
//! them. The build scripts of rust/ and compare/ share it.

use std::path::{Path, PathBuf};
use std::process::{Command, Output};
use std::time::SystemTime;
use std::{env, fs, io};

/// The repository, as seen from the folder of either package.
const ROOT: &str = "..";

/// What the libraries are made from.
const SOURCES: [&str; 2] = ["../crates", "../crates.txt"];

/// The folder in which `rt` keeps what it makes of a crate.
const MADE: &str = "out";

/// Links libraries of the folder that `ARW6_LIB_DIR` names, taken as they are; else the repository's
/// own, which are built first where that is needed.
pub fn link(names: &[&str]) {
    println!("cargo::rerun-if-env-changed=ARW6_LIB_DIR");
    let linked = match env::var_os("ARW6_LIB_DIR").filter(|named| !named.is_empty()) {
        Some(folder) => link_from(&PathBuf::from(folder), names),
        None => link_own(names),
    };
    if let Err(what) = linked {
        println!("cargo::error={what}");
    }
}

fn link_own(names: &[&str]) -> Result<(), String> {
    let folder = Path::new(ROOT).join("target/staticlib");
    let sources = newest_source()?;
    for name in names {
        refresh(name, &archive(&folder, name), sources)?;
    }
    link_from(&folder, names)
}

fn link_from(folder: &Path, names: &[&str]) -> Result<(), String> {
    for name in names {
        let archive = archive(folder, name);
        println!("cargo::rerun-if-changed={}", archive.display());
        if !archive.is_file() {
            return Err(format!("{} is not there", archive.display()));
        }
        println!("cargo::rustc-link-lib=static={name}");
    }
    let folder = folder.canonicalize().map_err(|e| format!("{}: {e}", folder.display()))?;
    println!("cargo::rustc-link-search=native={}", folder.display());
    Ok(())
}

fn archive(folder: &Path, name: &str) -> PathBuf {
    folder.join(format!("lib{name}.a"))
}

/// The time of the last change to the crates. Cargo is told to look at them again.
fn newest_source() -> Result<SystemTime, String> {
    let mut times = Vec::new();
    for source in SOURCES {
        println!("cargo::rerun-if-changed={source}");
        times.push(newest(Path::new(source)).map_err(|e| format!("{source}: {e}"))?);
    }
    Ok(times.into_iter().max().expect("the sources are not none"))
}

/// The time of the last change to a file, or to a folder and what is below it, but for what `rt`
/// makes. A folder's own time shows names that came or went; a crate's also that `rt` was there, so
/// it doesn't count.
fn newest(path: &Path) -> io::Result<SystemTime> {
    let mut time = if path.join(MADE).is_dir() { SystemTime::UNIX_EPOCH } else { modified(path)? };
    if path.is_dir() {
        for entry in fs::read_dir(path)? {
            let entry = entry?;
            if entry.file_name() != MADE {
                time = time.max(newest(&entry.path())?);
            }
        }
    }
    Ok(time)
}

fn modified(path: &Path) -> io::Result<SystemTime> {
    fs::metadata(path)?.modified()
}

/// Builds a library that is missing or older than the crates. It then takes the time at which the
/// build began, whether or not `rt` wrote it anew: it is not built again for these crates, but is
/// for an edit made during the build.
fn refresh(name: &str, archive: &Path, sources: SystemTime) -> Result<(), String> {
    let state = match modified(archive) {
        Ok(time) if time >= sources => return Ok(()),
        Ok(_) => "older than the crates",
        Err(_) => "missing",
    };
    let began = SystemTime::now().max(sources);
    let made = crate_of(name);
    let folder = Path::new(ROOT).join("crates").join(&made);
    let built = Command::new("rt").arg("lib").current_dir(&folder).output();
    let output = built.map_err(|e| {
        format!(
            "lib{name}.a is {state} and `rt` cannot be run ({e}): install the Rattle toolchain, or \
             name a folder that has the library by ARW6_LIB_DIR"
        )
    })?;
    if !output.status.success() {
        return Err(format!("`rt lib` of {made} failed: {}", last_line(&output)));
    }
    copy(&folder.join(MADE).join(format!("lib{made}.a")), archive)
        .and_then(|()| set_modified(archive, began))
        .map_err(|e| format!("{}: {e}", archive.display()))
}

/// The crate that exports a library: one of its own name, or, where that is a library for other
/// crates, the one beside it.
fn crate_of(name: &str) -> String {
    let beside = format!("{name}_c");
    if Path::new(ROOT).join("crates").join(&beside).is_dir() { beside } else { name.to_string() }
}

fn copy(from: &Path, to: &Path) -> io::Result<()> {
    to.parent().map_or(Ok(()), fs::create_dir_all)?;
    fs::copy(from, to).map(|_| ())
}

fn set_modified(path: &Path, time: SystemTime) -> io::Result<()> {
    fs::File::options().append(true).open(path)?.set_modified(time)
}

fn last_line(output: &Output) -> String {
    let said = [&output.stdout[..], &output.stderr].concat();
    let said = String::from_utf8_lossy(&said);
    said.lines().rfind(|line| !line.trim().is_empty()).unwrap_or("no word why").to_string()
}
