//! A plain reading of a TIFF's directories, without limits, to compare with.

use arw6::{find_streams, RawImage};

#[derive(Debug, Clone, Copy, PartialEq, Eq)]
pub struct Found {
    pub width: usize,
    pub height: usize,
    pub offset: usize,
    pub length: usize,
}

impl From<&RawImage<'_>> for Found {
    fn from(image: &RawImage) -> Found {
        let RawImage { width, height, offset, .. } = *image;
        Found { width, height, offset, length: image.strip.len() }
    }
}

/// The raw image, and how many bytes of directories and of values beside them were read.
pub fn find(file: &[u8]) -> (Option<Found>, usize) {
    let little = file.starts_with(b"II*\0");
    if !little && !file.starts_with(b"MM\0*") {
        return (None, 0);
    }
    let mut reading = Reading { file, little, read: 0 };
    let found = reading.find();
    (found, reading.read)
}

struct Reading<'a> {
    file: &'a [u8],
    little: bool,
    read: usize,
}

impl Reading<'_> {
    fn number(&self, at: usize, size: usize) -> Option<usize> {
        let mut bytes = self.file.get(at..at.checked_add(size)?)?.to_vec();
        if self.little {
            bytes.reverse();
        }
        Some(bytes.iter().fold(0, |number, &byte| number * 256 + byte as usize))
    }

    /// The list of directories grows while it is read: the next one stands after the one that names
    /// it, SubIFDs at the end.
    fn find(&mut self) -> Option<Found> {
        let (mut list, mut k) = (vec![self.number(4, 4)?], 0);
        while k < list.len() {
            let at = list[k];
            k += 1;
            let Some(count) = self.number(at, 2).filter(|count| at + 2 + 12 * count <= self.file.len())
            else {
                continue;
            };
            if at == 0 {
                continue;
            }
            self.read += 2 + 12 * count;
            if let Some(found) = self.image(at, count) {
                return Some(found);
            }
            let next = self.number(at + 2 + 12 * count, 4).filter(|next| !list.contains(next));
            next.into_iter().for_each(|next| list.insert(k, next));
            for sub in self.field(at, count, 330).unwrap_or_default().into_iter().flatten() {
                if !list.contains(&sub) {
                    list.push(sub);
                }
            }
        }
        None
    }

    /// The values of the first field with a tag and a type of whole numbers, if they lie in the file;
    /// one above 4 GiB is `None`.
    fn field(&mut self, at: usize, count: usize, tag: usize) -> Option<Vec<Option<usize>>> {
        let size = |entry: usize| match self.number(entry + 2, 2) {
            Some(3) => 2,
            Some(4 | 13) => 4,
            Some(16 | 18) => 8,
            _ => 0,
        };
        let mut entries = (0..count).map(|k| at + 2 + 12 * k);
        let entry = entries.find(|&entry| self.number(entry, 2) == Some(tag) && size(entry) > 0)?;
        let (size, values) = (size(entry), self.number(entry + 4, 4)?);
        let inside = size * values <= 4;
        let start = if inside { entry + 8 } else { self.number(entry + 8, 4)? };
        self.file.get(start..start + size * values)?;
        self.read += if inside { 0 } else { size * values };
        let value = |k: usize| self.number(start + size * k, size).filter(|&value| value < 1 << 32);
        Some((0..values).map(value).collect())
    }

    fn image(&mut self, at: usize, count: usize) -> Option<Found> {
        let [width, height, offsets, lengths] = [256, 257, 273, 279].map(|tag| self.field(at, count, tag));
        let ([width], [height]) = (&width?[..], &height?[..]) else { return None };
        let offsets: Vec<usize> = offsets?.into_iter().collect::<Option<_>>()?;
        let lengths: Vec<usize> = lengths?.into_iter().collect::<Option<_>>()?;
        let ends: Vec<usize> = offsets.iter().zip(&lengths).map(|(offset, length)| offset + length).collect();
        let (&offset, &end) = (offsets.first()?, ends.last()?);
        let whole = offsets.len() == lengths.len() && offsets[1..] == ends[..ends.len() - 1];
        let strip = self.file.get(offset..end).filter(|_| whole)?;
        let tiles = find_streams(strip, (*width)?, (*height)?);
        Some(Found { width: (*width)?, height: (*height)?, offset, length: end - offset })
            .filter(|_| !tiles.is_empty())
    }
}
