//! The static libraries `libarw6.a` and `libcoefficients.a`.

use super::{ffi, Decoded, Decoder, Inspected, Lengths, PacketDecoder, Slices, Writer, Written};
use crate::oracle::Counts;
use crate::size::Shape;

/// The answer for a packet: whether it, the sizes and the band go together (1, else 0 in all
/// fields), and its counts.
#[repr(C)]
struct Packet {
    together: u64,
    broken: u64,
    spent: u64,
    bits: u64,
}

extern "C" {
    fn arw6_packet(
        packet: *const u8,
        packet_len: usize,
        m: usize,
        columns: usize,
        records: usize,
        band: *mut i32,
        band_len: usize,
    ) -> Packet;
}

/// The proved library.
pub struct Library;

impl Decoder for Library {
    fn tile_count(&self, strip: &[u8], frame: (usize, usize)) -> usize {
        ffi::tile_count(strip, frame)
    }

    fn tile_field(&self, strip: &[u8], frame: (usize, usize), ordinal: usize, field: usize) -> usize {
        ffi::tile_field(strip, frame, ordinal, field)
    }

    fn lengths(&self, stream: &[u8]) -> Lengths {
        ffi::lengths(stream)
    }

    fn decode_stream(&self, stream: &[u8], [green, red, blue, work]: &mut Slices) -> Decoded {
        ffi::decode_stream(stream, green, red, blue, work)
    }

    fn record(&self, stream: &[u8], packet: usize, record: usize, band: &mut [i32]) -> Inspected {
        ffi::record(stream, packet, record, band)
    }
}

impl Writer for Library {
    fn write_stream(
        &self,
        planes: [&[i32]; 3],
        sides: (usize, usize),
        work: &mut [i32],
        stream: &mut [u8],
    ) -> Written {
        ffi::write_stream(planes, sides, work, stream)
    }
}

impl PacketDecoder for Library {
    fn packet(&self, packet: &[u8], shape: Shape, records: usize, band: &mut [i32]) -> Option<Counts> {
        // SAFETY: each pointer and length are those of one slice, which share no byte.
        let Packet { together, broken, spent, bits } = unsafe {
            arw6_packet(
                packet.as_ptr(),
                packet.len(),
                shape.m,
                shape.columns,
                records,
                band.as_mut_ptr(),
                band.len(),
            )
        };
        (together == 1).then_some(Counts { stopped: broken + spent, broken, spent, bits })
    }
}
