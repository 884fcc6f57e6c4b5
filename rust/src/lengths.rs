//! How many numbers a caller lends for a stream.

use crate::{ffi, Refusal};
use std::ops::Range;

/// The bytes of a stream's header, and where its half height stands.
const HEADER: usize = 128;
const HALF_HEIGHT: Range<usize> = 10..12;

/// The coded size of a stream, the rows of its planes, and the numbers that the three planes and the
/// work slice take, at least.
#[derive(Debug, Clone, Copy, PartialEq, Eq)]
#[non_exhaustive]
pub struct Lengths {
    pub width: usize,
    pub height: usize,
    pub rows: usize,
    pub green: usize,
    pub red: usize,
    pub blue: usize,
    pub work: usize,
}

impl Lengths {
    /// The lengths for a stream, or its refusal 2 or 3, with which it has none.
    pub fn of(stream: &[u8]) -> Result<Lengths, Refusal> {
        let lengths = ffi::lengths(stream);
        match lengths.refusal {
            0 => Ok(Lengths {
                width: lengths.width as usize,
                height: lengths.height as usize,
                rows: lengths.rows as usize,
                green: lengths.green as usize,
                red: lengths.red as usize,
                blue: lengths.blue as usize,
                work: lengths.work as usize,
            }),
            number => Err(Refusal::new(number)),
        }
    }

    /// The lengths for a coded width and height, or refusal 2 where no valid header holds them, or 3.
    pub fn of_size(width: usize, height: usize) -> Result<Lengths, Refusal> {
        let header = u16::try_from(width).ok().zip(u16::try_from(height / 2).ok());
        match header.filter(|_| height.is_multiple_of(2)) {
            Some((width, half_height)) => Lengths::of(&header_of(width, half_height)),
            None => Err(Refusal::new(2)),
        }
    }
}

/// The coded width of a stream, also of one that is too large for planes (refusal 3): it is that of the
/// same header with the least height. Refusal 2 where that is not valid.
pub(crate) fn coded_width(stream: &[u8]) -> Result<usize, Refusal> {
    let mut header = *stream.first_chunk::<HEADER>().ok_or(Refusal::new(2))?;
    header[HALF_HEIGHT].copy_from_slice(&1u16.to_be_bytes());
    Lengths::of(&header).map(|lengths| lengths.width)
}

/// A valid stream header with a width and a half height, and nothing else.
fn header_of(width: u16, half_height: u16) -> [u8; HEADER] {
    let mut stream = [0; HEADER];
    stream[..4].copy_from_slice(b"A000");
    stream[8..10].copy_from_slice(&width.to_be_bytes());
    stream[HALF_HEIGHT].copy_from_slice(&half_height.to_be_bytes());
    stream[12..16].copy_from_slice(&[1, 0, 0x6c, 0]);
    stream
}

#[cfg(test)]
mod tests {
    use super::*;

    #[test]
    fn rows_of_plain_and_guarded_heights() {
        let rows = |height: usize| Lengths::of_size(16, height).unwrap().rows;
        assert_eq!([14, 16, 18, 26, 32].map(rows), [4, 8, 12, 12, 16]);
    }

    #[test]
    fn each_length() {
        let (width, height, rows) = (16, 26, 12);
        let lengths = Lengths { width, height, rows, green: 192, red: 96, blue: 96, work: 768 };
        assert_eq!(Lengths::of(&header_of(16, 13)), Ok(lengths));
        assert_eq!(Lengths::of_size(16, 26), Ok(lengths));
    }

    #[test]
    fn refusals_2_and_3() {
        let number = |stream: &[u8]| Lengths::of(stream).unwrap_err().number();
        assert_eq!(number(&header_of(16, 13)[..127]), 2);
        assert_eq!(number(&header_of(0, 13)), 2);
        assert_eq!(number(&header_of(65520, 65535)), 3);
        let sizes =
            [(0, 16), (8, 16), (16, 0), (16, 17), (65_536, 16), (16, 131_072), (1 << 40, 16), (16, 1 << 40)];
        let number = |(width, height)| Lengths::of_size(width, height).unwrap_err().number();
        assert!(sizes.into_iter().all(|size| number(size) == 2));
        assert_eq!(number((65_520, 131_070)), 3);
    }

    #[test]
    fn widths_of_streams() {
        for (width, half_height) in [(16, 1), (16, 13), (65_520, 2), (65_520, 65_535)] {
            assert_eq!(coded_width(&header_of(width, half_height)), Ok(width as usize));
        }
        for stream in [&header_of(0, 13)[..], &header_of(8, 13), &header_of(16, 13)[..127], &[]] {
            assert_eq!(coded_width(stream).unwrap_err().number(), 2);
        }
    }
}
