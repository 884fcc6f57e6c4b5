//! The directories (IFDs) of a TIFF and the numbers in their fields.

use super::ArwError;

/// The bytes of a directory's entry.
pub const ENTRY: u64 = 12;

/// The bytes of a TIFF, and whether its numbers are written with the highest byte first.
#[derive(Clone, Copy)]
pub struct Tiff<'a> {
    file: &'a [u8],
    big_endian: bool,
}

/// The values of a field: `count` numbers of `size` bytes each, from `at` on.
#[derive(Clone, Copy)]
pub struct Field {
    at: u64,
    size: u64,
    pub count: u64,
}

/// The fields of a directory that say where images are. One that is missing, or whose type is none
/// of whole numbers, is `None`; of several with one tag the first counts.
#[derive(Default)]
pub struct Directory {
    pub width: Option<Field>,
    pub height: Option<Field>,
    pub strip_offsets: Option<Field>,
    pub strip_lengths: Option<Field>,
    pub subdirectories: Option<Field>,
}

impl<'a> Tiff<'a> {
    pub fn open(file: &'a [u8]) -> Result<Tiff<'a>, ArwError> {
        match file {
            [b'I', b'I', 42, 0, ..] => Ok(Tiff { file, big_endian: false }),
            [b'M', b'M', 0, 42, ..] => Ok(Tiff { file, big_endian: true }),
            [b'I', b'I', 43, 0, ..] | [b'M', b'M', 0, 43, ..] => Err(ArwError::BigTiff),
            _ => Err(ArwError::NotTiff),
        }
    }

    /// How many bytes the file has.
    pub fn length(&self) -> u64 {
        self.file.len() as u64
    }

    /// The bytes from `at` on, `length` of them.
    pub fn part(&self, at: u64, length: u64) -> Result<&'a [u8], ArwError> {
        let needed = at.saturating_add(length);
        if needed > self.length() {
            return Err(ArwError::Truncated { needed, length: self.length() });
        }
        Ok(&self.file[at as usize..needed as usize])
    }

    /// The number of 2, 4 or 8 bytes at `at`.
    fn number(&self, at: u64, size: u64) -> Result<u64, ArwError> {
        #[cfg(test)]
        super::tests::NUMBERS.with(|numbers| numbers.set(numbers.get() + 1));
        let bytes = self.part(at, size)?;
        let push = |number: u64, byte: &u8| (number << 8) | u64::from(*byte);
        Ok(if self.big_endian { bytes.iter().fold(0, push) } else { bytes.iter().rfold(0, push) })
    }

    /// The offset at `at`: the first directory's in the header, the next one's after a directory.
    pub fn offset(&self, at: u64) -> Result<u64, ArwError> {
        self.number(at, 4)
    }

    /// How many entries the directory at `at` has, all of which lie in the file.
    pub fn entries(&self, at: u64) -> Result<u64, ArwError> {
        let count = self.number(at, 2)?;
        self.part(at + 2, ENTRY * count).map(|_| count)
    }

    /// The directory at `at`, with that many entries.
    pub fn directory(&self, at: u64, entries: u64) -> Result<Directory, ArwError> {
        let mut directory = Directory::default();
        for entry in (0..entries).map(|k| at + 2 + ENTRY * k) {
            let place = match self.number(entry, 2)? {
                256 => &mut directory.width,
                257 => &mut directory.height,
                273 => &mut directory.strip_offsets,
                279 => &mut directory.strip_lengths,
                330 => &mut directory.subdirectories,
                _ => continue,
            };
            if place.is_none() {
                *place = self.field(entry)?;
            }
        }
        Ok(directory)
    }

    /// The field of an entry: a type, a count, then the values themselves or where they are.
    fn field(&self, entry: u64) -> Result<Option<Field>, ArwError> {
        let size = match self.number(entry + 2, 2)? {
            3 => 2,
            4 | 13 => 4,
            16 | 18 => 8,
            _ => return Ok(None),
        };
        let count = self.number(entry + 4, 4)?;
        let mut field = Field { at: entry + 8, size, count };
        if field.outside() > 0 {
            field.at = self.number(field.at, 4)?;
        }
        Ok(Some(field))
    }

    /// Whether the values of a field lie in the file.
    pub fn check(&self, field: Field) -> Result<(), ArwError> {
        self.part(field.at, field.size * field.count).map(|_| ())
    }

    /// Value `k` of a field.
    pub fn value(&self, field: Field, k: u64) -> Result<u64, ArwError> {
        match self.number(field.at + field.size * k, field.size)? {
            value if value > u64::from(u32::MAX) => Err(ArwError::Above4GiB { value }),
            value => Ok(value),
        }
    }
}

impl Field {
    /// The bytes that the values take outside of the entry, in which up to four have room.
    pub fn outside(&self) -> u64 {
        match self.size * self.count {
            0..=4 => 0,
            length => length,
        }
    }
}
