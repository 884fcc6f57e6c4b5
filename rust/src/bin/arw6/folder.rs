//! A folder of files that appears whole or not at all.
//!
//! It is made under a hidden name beside its own and renamed when all files are written. What a run
//! that was killed left under a hidden name is removed by the next one that makes the same folder.

use crate::names::shown;
use std::ffi::OsString;
use std::fs::{self, File, OpenOptions, TryLockError};
use std::io::{BufWriter, Error, ErrorKind, Result as IoResult};
use std::path::{Path, PathBuf};

/// Tells the names of files that such a folder may hold; no other file is ever removed.
type Ours = fn(&str) -> bool;

/// A folder in the making.
pub struct Folder {
    target: PathBuf,
    /// Where it is made, and where an earlier folder of its name waits to be removed.
    partial: PathBuf,
    old: PathBuf,
    /// Whether a folder that is there already makes room.
    replace: bool,
    ours: Ours,
    kept: bool,
    /// Held while the folder is made, so that two runs do not make the same one.
    lock: File,
}

impl Folder {
    /// Starts the folder. One that is there already is refused, unless it is to be replaced.
    pub fn start(target: PathBuf, replace: bool, ours: Ours) -> Result<Folder, String> {
        let (partial, old) = (hidden(&target, ".partial"), hidden(&target, ".old"));
        if target.symlink_metadata().is_ok() {
            if !replace {
                return Err(format!("{} is there already; --force replaces it", shown(&target)));
            }
            names(&target, ours)?;
        }
        let parent = target.parent().unwrap_or(Path::new(""));
        fs::create_dir_all(parent).map_err(|error| said(parent, error))?;
        let lock = make(&partial)?;
        let folder = Folder { target, partial, old, replace, ours, kept: false, lock };
        empty(&folder.partial, ours)?;
        remove(&folder.old, ours)?;
        Ok(folder)
    }

    /// Writes one file of the folder, down to the disk.
    pub fn write(
        &self,
        name: &str,
        write: impl FnOnce(&mut BufWriter<File>) -> IoResult<()>,
    ) -> Result<(), String> {
        let said = |error| said(&self.target.join(name), error);
        let file = OpenOptions::new().write(true).create_new(true).open(self.partial.join(name));
        let mut buffer = BufWriter::with_capacity(1 << 16, file.map_err(said)?);
        write(&mut buffer).map_err(said)?;
        let file = buffer.into_inner().map_err(|error| said(error.into_error()))?;
        file.sync_all().map_err(said)
    }

    /// Gives the folder its name; an earlier folder of that name is gone then, if it is to be.
    pub fn keep(mut self) -> Result<(), String> {
        let said = |error| said(&self.target, error);
        self.lock.sync_all().map_err(said)?;
        if self.replace && self.target.symlink_metadata().is_ok() {
            names(&self.target, self.ours)?;
            fs::rename(&self.target, &self.old).map_err(said)?;
        }
        fs::rename(&self.partial, &self.target).map_err(said)?;
        self.kept = true;
        remove(&self.old, self.ours)
    }
}

impl Drop for Folder {
    /// Removes a folder that was not kept; why was told already.
    fn drop(&mut self) {
        if !self.kept {
            let _ = remove(&self.partial, self.ours);
        }
    }
}

fn said(path: &Path, error: Error) -> String {
    format!("{}: {error}", shown(path))
}

/// `.NAME.ending` beside a path of a name.
fn hidden(path: &Path, ending: &str) -> PathBuf {
    let mut name = OsString::from(".");
    name.push(path.file_name().unwrap_or_default());
    name.push(ending);
    path.with_file_name(name)
}

/// Makes the folder if it is not there, and locks it. Where the file system has no locks, none is
/// held.
fn make(path: &Path) -> Result<File, String> {
    match fs::create_dir(path) {
        Err(error) if error.kind() != ErrorKind::AlreadyExists => return Err(said(path, error)),
        _ => {}
    }
    let lock = File::open(path).map_err(|error| said(path, error))?;
    match lock.try_lock() {
        Err(TryLockError::WouldBlock) => Err(format!("{} is being written by another run", shown(path))),
        _ => Ok(lock),
    }
}

/// The names of a folder's files, if it is a folder and holds no others than ours.
fn names(path: &Path, ours: Ours) -> Result<Vec<OsString>, String> {
    if !path.symlink_metadata().map_err(|error| said(path, error))?.is_dir() {
        return Err(format!("{} is no folder, and is not replaced", shown(path)));
    }
    let mut names = Vec::new();
    for entry in fs::read_dir(path).map_err(|error| said(path, error))? {
        let entry = entry.map_err(|error| said(path, error))?;
        let file = entry.file_type().is_ok_and(|kind| kind.is_file());
        if !file || !entry.file_name().to_str().is_some_and(ours) {
            return Err(format!("{} was not written by arw6, and is not removed", shown(&entry.path())));
        }
        names.push(entry.file_name());
    }
    Ok(names)
}

fn empty(path: &Path, ours: Ours) -> Result<(), String> {
    for name in names(path, ours)? {
        fs::remove_file(path.join(name)).map_err(|error| said(path, error))?;
    }
    Ok(())
}

/// Removes a folder that holds our files alone, if it is there.
fn remove(path: &Path, ours: Ours) -> Result<(), String> {
    if path.symlink_metadata().is_err() {
        return Ok(());
    }
    empty(path, ours)?;
    fs::remove_dir(path).map_err(|error| said(path, error))
}
