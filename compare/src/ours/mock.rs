//! The original, the model of the writer and, for single records, the model of rows behind the library's
//! interface, so that the driver can be tested alone.

use super::{Decoded, Decoder, Inspected, Lengths, PacketDecoder, Slices, Writer, Written};
use crate::oracle::{self, Counts, Course};
use crate::size::Shape;
use crate::writing::{self, Call};

pub struct Mock;

impl Decoder for Mock {
    fn tile_count(&self, strip: &[u8], frame: (usize, usize)) -> usize {
        oracle::tiles(strip, frame).len()
    }

    fn tile_field(&self, strip: &[u8], frame: (usize, usize), ordinal: usize, field: usize) -> usize {
        let tiles = oracle::tiles(strip, frame);
        tiles.get(ordinal).and_then(|tile| tile.get(field)).copied().unwrap_or(0)
    }

    fn lengths(&self, stream: &[u8]) -> Lengths {
        Lengths::by(oracle::measure(stream))
    }

    fn decode_stream(&self, stream: &[u8], slices: &mut Slices) -> Decoded {
        let lent = std::array::from_fn(|i| slices[i].len());
        let answer = oracle::decode(stream, lent);
        if let Ok(planes) = &answer {
            write(planes, slices);
        }
        Decoded::by(answer.as_ref())
    }

    fn record(&self, stream: &[u8], packet: usize, record: usize, band: &mut [i32]) -> Inspected {
        let packets = match oracle::tile_packets(stream) {
            Err(refusal) => return Inspected::refused(refusal),
            Ok(packets) => packets,
        };
        let there = packets.get(packet).filter(|p| record < p.records());
        let Some(packet) = there else { return Inspected::default() };
        let (model, bytes) = (packet.model(record), packet.byte_length(record));
        if band.len() < model.coefficients.len() {
            return Inspected::refused(4);
        }
        band[..model.coefficients.len()].copy_from_slice(&model.coefficients);
        let (statuses, bits, allowance) = (model.statuses, model.bits, 128 * bytes.div_ceil(16));
        Inspected::by(&Course { statuses, bytes, allowance, bits })
    }
}

impl Writer for Mock {
    fn write_stream(
        &self,
        planes: [&[i32]; 3],
        sides: (usize, usize),
        work: &mut [i32],
        stream: &mut [u8],
    ) -> Written {
        let outcome = writing::write(&Call { planes, sides, work: work.len(), stream: stream.len() });
        work[..outcome.zeroed].fill(0);
        stream[..outcome.stream.len()].copy_from_slice(&outcome.stream);
        Written { refusal: outcome.refusal, length: outcome.stream.len() as u64 }
    }
}

impl PacketDecoder for Mock {
    fn packet(&self, packet: &[u8], shape: Shape, records: usize, band: &mut [i32]) -> Option<Counts> {
        let (coefficients, counts) = oracle::packet_coefficients(packet, shape, records).ok()?;
        if coefficients.len() != band.len() {
            return None;
        }
        band.copy_from_slice(&coefficients);
        Some(counts)
    }
}

/// Writes the planes to the start of the slices and clears the work slice as far as it is needed.
fn write(planes: &oracle::Planes, [green, red, blue, work]: &mut Slices) {
    for (slice, plane) in [(green, &planes.green), (red, &planes.red), (blue, &planes.blue)] {
        slice[..plane.len()].copy_from_slice(plane);
    }
    work[..planes.size.needed()[3]].fill(0);
}

/// One query of a single record: the stream, packet and record, the band after the answer, and the
/// answer.
#[cfg(test)]
pub type Told<'a> = (&'a [u8], usize, usize, &'a mut [i32], &'a mut Inspected);

/// What a decoder with a mistake makes of the right answers.
#[cfg(test)]
pub trait Mistake {
    fn tiles(&self, _strip: &[u8], _count: &mut usize) {}
    fn measured(&self, _lengths: &mut Lengths) {}
    fn decoded(&self, _stream: &[u8], _slices: &mut Slices, _decoded: &mut Decoded) {}
    fn told(&self, _told: Told) {}
}

#[cfg(test)]
impl<M: Mistake> Decoder for M {
    fn tile_count(&self, strip: &[u8], frame: (usize, usize)) -> usize {
        let mut count = Mock.tile_count(strip, frame);
        self.tiles(strip, &mut count);
        count
    }

    fn tile_field(&self, strip: &[u8], frame: (usize, usize), ordinal: usize, field: usize) -> usize {
        Mock.tile_field(strip, frame, ordinal, field)
    }

    fn lengths(&self, stream: &[u8]) -> Lengths {
        let mut lengths = Mock.lengths(stream);
        self.measured(&mut lengths);
        lengths
    }

    fn decode_stream(&self, stream: &[u8], slices: &mut Slices) -> Decoded {
        let mut decoded = Mock.decode_stream(stream, slices);
        self.decoded(stream, slices, &mut decoded);
        decoded
    }

    fn record(&self, stream: &[u8], packet: usize, record: usize, band: &mut [i32]) -> Inspected {
        let mut inspected = Mock.record(stream, packet, record, band);
        self.told((stream, packet, record, band, &mut inspected));
        inspected
    }
}

/// A decoder with one mistake in what it decodes.
#[cfg(test)]
pub struct Mistaken(pub fn(&[u8], &mut Slices, &mut Decoded));

#[cfg(test)]
impl Mistake for Mistaken {
    fn decoded(&self, stream: &[u8], slices: &mut Slices, decoded: &mut Decoded) {
        (self.0)(stream, slices, decoded);
    }
}

/// A decoder with one mistake in its lengths.
#[cfg(test)]
pub struct Mismeasured(pub fn(&mut Lengths));

#[cfg(test)]
impl Mistake for Mismeasured {
    fn measured(&self, lengths: &mut Lengths) {
        (self.0)(lengths);
    }
}

/// A decoder with one mistake in single records.
#[cfg(test)]
pub struct Misread(pub fn(Told));

#[cfg(test)]
impl Mistake for Misread {
    fn told(&self, told: Told) {
        (self.0)(told);
    }
}
