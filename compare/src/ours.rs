//! The project's decoder behind its C interface: the static library, or with the feature `mock`
//! the original in its place.

// The C interface as the crate in rust/ has it.
#[path = "../../rust/src/ffi.rs"]
#[cfg_attr(feature = "mock", allow(dead_code))]
mod ffi;
#[cfg(not(feature = "mock"))]
mod library;
#[cfg(any(test, feature = "mock"))]
pub mod mock;

#[cfg(not(feature = "mock"))]
pub use library::Library as Ours;
#[cfg(feature = "mock")]
pub use mock::Mock as Ours;

use crate::oracle::{Counts, Course, Planes};
use crate::size::{Shape, Size};
pub use ffi::{Decoded, Inspected, Lengths, Written};

/// The lent slices: green, red, blue and work.
pub type Slices = [Vec<i32>; 4];

/// What the comparison asks of a decoder.
pub trait Decoder {
    fn tile_count(&self, strip: &[u8], frame: (usize, usize)) -> usize;
    fn tile_field(&self, strip: &[u8], frame: (usize, usize), ordinal: usize, field: usize) -> usize;
    fn lengths(&self, stream: &[u8]) -> Lengths;
    fn decode_stream(&self, stream: &[u8], slices: &mut Slices) -> Decoded;
    /// One record of packet 0 to 12, its coefficients at the start of the band.
    fn record(&self, stream: &[u8], packet: usize, record: usize, band: &mut [i32]) -> Inspected;
}

/// What the comparison asks of a writer besides.
pub trait Writer: Decoder {
    /// The stream of planes green, red and blue under a coded width and height.
    fn write_stream(
        &self,
        planes: [&[i32]; 3],
        sides: (usize, usize),
        work: &mut [i32],
        stream: &mut [u8],
    ) -> Written;
}

impl Lengths {
    /// The lengths for a stream of a size, or with refusal 2 or 3.
    pub fn by(measured: Result<Size, u64>) -> Lengths {
        let size = match measured {
            Err(refusal) => return Lengths { refusal, ..Lengths::default() },
            Ok(size) => size,
        };
        let [green, red, blue, work] = size.needed().map(|needed| needed as u64);
        let (width, height, rows) = (size.width as u64, size.height() as u64, size.rows() as u64);
        Lengths { refusal: 0, width, height, rows, green, red, blue, work }
    }
}

impl Decoded {
    /// The answer for a stream of which the original says this.
    pub fn by(answer: Result<&Planes, &u64>) -> Decoded {
        let planes = match answer {
            Err(refusal) => return Decoded { refusal: *refusal, ..Decoded::default() },
            Ok(planes) => planes,
        };
        let (size, Counts { stopped, broken, spent, bits }) = (planes.size, planes.counts);
        let (width, height, rows) = (size.width as u64, size.height() as u64, size.rows() as u64);
        Decoded { refusal: 0, width, height, rows, stopped, broken, spent, bits }
    }
}

impl Inspected {
    /// The answer for a record that goes through this.
    pub fn by(course: &Course) -> Inspected {
        let Course { bytes, allowance, bits, .. } = *course;
        let first = |status: u8| (course.first() == status) as u64;
        Inspected { refusal: 0, bytes, allowance, bits, broken: first(1), spent: first(2) }
    }

    pub fn refused(refusal: u64) -> Inspected {
        Inspected { refusal, ..Inspected::default() }
    }
}

/// What the benchmark asks of it besides.
pub trait PacketDecoder: Decoder {
    /// The coefficients of a packet of so many records, and their counts; None where the packet, the
    /// shape and the band do not go together.
    fn packet(&self, packet: &[u8], shape: Shape, records: usize, band: &mut [i32]) -> Option<Counts>;
}
