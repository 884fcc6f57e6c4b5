//! The walk through a file's directories.

use super::ifd::{Directory, Field, Tiff, ENTRY};
use super::{ArwError, RawImage};
use crate::ffi;
use std::collections::{BTreeSet, VecDeque};

/// Directories that are looked at, at most. A camera's file has a handful.
pub const DIRECTORIES: usize = 1024;

/// Strips in which tiles are looked for, at most.
pub const STRIPS: usize = 64;

/// A walk through the directories, each of which is read once. It reads no more bytes of them and of
/// their values than the file has: those that do not overlap never need more.
pub struct Search<'a> {
    tiff: Tiff<'a>,
    /// Bytes that may still be read.
    pub(super) left: u64,
    /// Directories named so far, and those of them that are still to be read.
    pub(super) named: BTreeSet<u64>,
    queue: VecDeque<u64>,
    /// Offset, length, width and height of the strips looked at.
    pub(super) tried: Vec<[u64; 4]>,
    /// What is told if there is no raw image.
    error: ArwError,
}

impl<'a> Search<'a> {
    pub fn new(tiff: Tiff<'a>) -> Search<'a> {
        let (named, queue, tried) = Default::default();
        Search { tiff, left: tiff.length(), named, queue, tried, error: ArwError::NoRawImage }
    }

    pub fn run(&mut self) -> Result<RawImage<'a>, ArwError> {
        self.follow_next(4);
        while let Some(at) = self.queue.pop_front() {
            if let Some(image) = self.visit(at) {
                return Ok(image);
            }
        }
        Err(self.error)
    }

    /// Keeps the error of an outcome, if it outranks those before it.
    fn note<T>(&mut self, outcome: Result<T, ArwError>) -> Option<T> {
        if let Err(error) = &outcome {
            if error.rank() > self.error.rank() {
                self.error = *error;
            }
        }
        outcome.ok()
    }

    /// Takes the image of the directory at `at`, else puts those that it names in the queue.
    fn visit(&mut self, at: u64) -> Option<RawImage<'a>> {
        let entries = self.entries(at);
        let entries = self.note(entries)?;
        let directory = self.tiff.directory(at, entries);
        let directory = self.note(directory)?;
        let image = self.image(&directory);
        if let Some(image) = self.note(image) {
            return Some(image);
        }
        self.follow_next(at + 2 + ENTRY * entries);
        self.follow_subdirectories(&directory);
        None
    }

    /// The directory whose offset stands at `at` is read next.
    fn follow_next(&mut self, at: u64) {
        let next = self.tiff.offset(at);
        if let Some(next) = self.note(next).filter(|&next| self.claim(next)) {
            self.queue.push_front(next);
        }
    }

    /// The SubIFDs are read after those that are in the queue.
    fn follow_subdirectories(&mut self, directory: &Directory) {
        if directory.subdirectories.is_none() {
            return;
        }
        let field = self.values(directory.subdirectories);
        let Some(field) = self.note(field) else { return };
        for k in 0..field.count {
            let at = self.tiff.value(field, k);
            if let Some(at) = self.note(at).filter(|&at| self.claim(at)) {
                self.queue.push_back(at);
            }
        }
    }

    /// Counts a directory as named; false if it was, if there is no room left, or for 0, which is none.
    fn claim(&mut self, at: u64) -> bool {
        if at == 0 || self.named.contains(&at) {
            return false;
        }
        if self.named.len() == DIRECTORIES {
            self.note::<()>(Err(ArwError::Tangled));
            return false;
        }
        self.named.insert(at)
    }

    fn spend(&mut self, bytes: u64) -> Result<(), ArwError> {
        self.left = self.left.checked_sub(bytes).ok_or(ArwError::Tangled)?;
        Ok(())
    }

    /// How many entries the directory at `at` has, which may be read.
    fn entries(&mut self, at: u64) -> Result<u64, ArwError> {
        let entries = self.tiff.entries(at)?;
        self.spend(2 + ENTRY * entries).map(|()| entries)
    }

    /// A field that is there, whose values lie in the file and may be read.
    fn values(&mut self, field: Option<Field>) -> Result<Field, ArwError> {
        let field = field.ok_or(ArwError::NoRawImage)?;
        self.tiff.check(field)?;
        self.spend(field.outside()).map(|()| field)
    }

    /// The value of a field that has just one.
    fn value(&mut self, field: Option<Field>) -> Result<u64, ArwError> {
        let field = self.values(field)?;
        if field.count != 1 {
            return Err(ArwError::NoRawImage);
        }
        self.tiff.value(field, 0)
    }

    /// Where a directory's strip starts, and its length. Several strips are one if each starts where
    /// the one before it ends.
    fn strip(&mut self, directory: &Directory) -> Result<(u64, u64), ArwError> {
        let offsets = self.values(directory.strip_offsets)?;
        let lengths = self.values(directory.strip_lengths)?;
        if offsets.count == 0 || offsets.count != lengths.count {
            return Err(ArwError::NoRawImage);
        }
        let start = self.tiff.value(offsets, 0)?;
        let mut end = start;
        for k in 0..offsets.count {
            if self.tiff.value(offsets, k)? != end {
                return Err(ArwError::NoRawImage);
            }
            end = end.saturating_add(self.tiff.value(lengths, k)?);
        }
        Ok((start, end - start))
    }

    /// The image of a directory, if its strip has tiles.
    fn image(&mut self, directory: &Directory) -> Result<RawImage<'a>, ArwError> {
        let (width, height) = (self.value(directory.width)?, self.value(directory.height)?);
        let (offset, length) = self.strip(directory)?;
        let strip = self.tiff.part(offset, length)?;
        self.try_once([offset, length, width, height])?;
        let image =
            RawImage { width: width as usize, height: height as usize, strip, offset: offset as usize };
        match ffi::tile_count(strip, (image.width, image.height)) {
            0 => Err(ArwError::NoRawImage),
            _ => Ok(image),
        }
    }

    /// Counts a strip as looked at, which it is once.
    fn try_once(&mut self, strip: [u64; 4]) -> Result<(), ArwError> {
        if self.tried.contains(&strip) {
            return Err(ArwError::NoRawImage);
        }
        if self.tried.len() == STRIPS {
            return Err(ArwError::Tangled);
        }
        self.tried.push(strip);
        Ok(())
    }
}
