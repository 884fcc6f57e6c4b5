//! Document 01's answers, taken from the original.

use crate::original::{
    decode_component, decode_stream, find_streams, parse_directory, parse_packet, parse_stream_header,
    CoeffBits, DirEntry, Packet, Plane,
};
use crate::size::{Shape, Size};
use crate::used;
use crate::{Error, Result};

/// The six fields of a tile, in document 01's order.
pub type Tile = [usize; 6];

/// What decoding a record goes through.
#[derive(Debug, Clone, Default, PartialEq, Eq)]
pub struct Course {
    /// The status after each row; none where the byte length is 0.
    pub statuses: Vec<u8>,
    /// The byte length.
    pub bytes: u64,
    /// In bits: 128 for each 16 bytes begun.
    pub allowance: u64,
    /// Bits that were taken from the allowance.
    pub bits: u64,
}

impl Course {
    /// The first status that was not 0, else 0.
    pub fn first(&self) -> u8 {
        self.statuses.iter().copied().find(|&status| status != 0).unwrap_or(0)
    }

    /// The status at the end.
    pub fn last(&self) -> u8 {
        self.statuses.last().copied().unwrap_or(0)
    }

    /// Whether the opening read of a later row turned 1 into 2.
    pub fn turned(&self) -> bool {
        (self.first(), self.last()) == (1, 2)
    }

    /// Whether it is broken with rows after that one, and bits are left after all of them.
    pub fn left_over(&self) -> bool {
        let rows_after = self.statuses.iter().filter(|&&status| status == 1).count() > 1;
        self.last() == 1 && rows_after && self.bits < self.allowance
    }

    /// Whether it never stops and takes all of its allowance, which is not 0.
    pub fn exact(&self) -> bool {
        self.last() == 0 && self.bits == self.allowance && self.allowance > 0
    }
}

/// What the records of a packet or of a tile add up to: those that did not keep status 0, and bits.
#[derive(Debug, Clone, Copy, Default, PartialEq, Eq)]
pub struct Counts {
    /// Status at the end not 0.
    pub stopped: u64,
    /// First status 1: a width above 19.
    pub broken: u64,
    /// First status 2: past the allowance.
    pub spent: u64,
    /// Bits taken from the allowances.
    pub bits: u64,
}

impl Counts {
    pub fn of(courses: &[Course]) -> Counts {
        let count = |holds: fn(&Course) -> bool| courses.iter().filter(|c| holds(c)).count() as u64;
        Counts {
            stopped: count(|c| c.last() != 0),
            broken: count(|c| c.first() == 1),
            spent: count(|c| c.first() == 2),
            bits: courses.iter().map(|c| c.bits).sum(),
        }
    }
}

/// What an accepted stream decodes to.
#[derive(Debug, Clone, PartialEq, Eq)]
pub struct Planes {
    pub size: Size,
    pub counts: Counts,
    /// The courses of all records, packet after packet in the order of document 01's checks.
    pub courses: Vec<Course>,
    pub green: Vec<i32>,
    pub red: Vec<i32>,
    pub blue: Vec<i32>,
}

impl Planes {
    /// Broken records whose status at the end is 2.
    pub fn turned(&self) -> usize {
        self.courses.iter().filter(|c| c.turned()).count()
    }
}

/// The answer for a stream: its planes or the number of the refusal.
pub type Answer = std::result::Result<Planes, u64>;

/// The original's error texts and document 01's numbers, one to one.
pub const TEXTS: [(&str, u64); 21] = [
    ("invalid stream header", 2),
    ("directory beyond stream", 5),
    ("directory entry count", 6),
    ("packet beyond stream", 7),
    ("group size mismatch", 8),
    ("missing packet", 9),
    ("packet too short", 10),
    ("packet header beyond data", 11),
    ("packet header padding", 12),
    ("packet header tag", 13),
    ("packet type", 14),
    ("packet block count", 15),
    ("packet width marker", 16),
    ("packet size", 17),
    ("packet record beyond packet", 18),
    ("invalid packet type or group", 19),
    ("coded height", 20),
    ("packet row count", 21),
    ("packet record count", 22),
    ("detail packet with one component", 23),
    ("empty lifting band", 24),
];

/// The number of an error of `decode_stream`.
fn number(error: &Error) -> u64 {
    let text = error.0.strip_prefix("ARW6: ").unwrap_or(&error.0);
    match TEXTS.iter().find(|(known, _)| *known == text) {
        Some(&(_, number)) => number,
        None => panic!("the original refuses with a text that has no number: {text}"),
    }
}

/// The tiles of a strip; none is refusal 1.
pub fn tiles(strip: &[u8], frame: (usize, usize)) -> Vec<Tile> {
    let fields = |t: &crate::original::TileStream| [t.offset, t.length, t.x, t.y, t.width, t.height];
    find_streams(strip, frame.0, frame.1).iter().map(fields).collect()
}

/// The size in a valid header.
pub fn header_size(stream: &[u8]) -> Option<Size> {
    parse_stream_header(stream).map(|(width, half)| Size { width, half })
}

/// The size of a stream, or its refusal 2 or 3. Number 3 is document 01's own and comes after 2.
pub fn measure(stream: &[u8]) -> std::result::Result<Size, u64> {
    let size = header_size(stream).ok_or(2u64)?;
    if size.too_large() {
        return Err(3);
    }
    Ok(size)
}

/// The answer for a stream with lent slices of these lengths. Number 4 is document 01's own and
/// comes after 3.
pub fn decode(stream: &[u8], lent: [usize; 4]) -> Answer {
    let size = measure(stream)?;
    if size.needed().iter().zip(lent).any(|(&needed, lent)| lent < needed) {
        return Err(4);
    }
    let tile = decode_stream(stream, false).map_err(|e| number(&e))?;
    let courses = courses(stream).expect("the stream is accepted");
    let plane = |p: Plane, columns: usize| {
        assert_eq!((p.rows, p.cols), (size.rows(), columns), "rows R and columns of a plane");
        p.data
    };
    Ok(Planes {
        size,
        counts: Counts::of(&courses),
        courses,
        green: plane(tile.full_green, size.width),
        red: plane(tile.red, size.width / 2),
        blue: plane(tile.blue, size.width / 2),
    })
}

/// Groups and indices of the tile's packets, in the order of document 01's checks.
pub const ORDER: [(usize, usize); 13] =
    [(0, 0), (1, 0), (2, 0), (3, 0), (0, 1), (1, 1), (2, 1), (3, 1), (0, 2), (1, 2), (2, 2), (3, 2), (4, 0)];

/// One of the tile's packets, its headers parsed by the original.
pub struct TilePacket<'a> {
    packet: Packet<'a>,
    pub shape: Shape,
}

impl TilePacket<'_> {
    /// How many records it has.
    pub fn records(&self) -> usize {
        self.packet.records.len()
    }

    /// The byte length of a record that is there.
    pub fn byte_length(&self, i: usize) -> u64 {
        self.packet.records[i].byte_length as u64
    }

    /// The coefficients and the course of a record that is there.
    pub fn record(&self, i: usize) -> (Vec<i32>, Course) {
        let mut rows = vec![0; self.shape.numbers()];
        let course = decode_record(&self.packet, i, self.shape, &mut rows);
        (rows, course)
    }

    /// The same record as the model of documents 01 and 02 has it.
    pub fn model(&self, i: usize) -> used::Outcome {
        let record = &self.packet.records[i];
        let payload = self.packet.data.get(record.payload_offset..).unwrap_or(&[]);
        used::record(payload, record.byte_length, record.selectors.map(u32::from), self.shape)
    }
}

/// The tile's packets in the order of the checks, or the number that the stream is refused with, but
/// 3 and 4, which are not asked here. The original's parsers give 2, 5 to 8 and 10 to 18; the others
/// follow document 01 and so need no planes, however large. `check` holds them against `decode_stream`.
pub fn tile_packets(stream: &[u8]) -> std::result::Result<Vec<TilePacket<'_>>, u64> {
    let size = header_size(stream).ok_or(2u64)?;
    let directory = parse_directory(stream).map_err(|e| number(&e))?;
    ORDER.iter().map(|&place| tile_packet(stream, &directory, size, place)).collect()
}

fn tile_packet<'a>(
    stream: &'a [u8],
    directory: &[DirEntry],
    size: Size,
    (group, index): (usize, usize),
) -> std::result::Result<TilePacket<'a>, u64> {
    let entry = directory.iter().find(|e| (e.group, e.index) == (group, index)).ok_or(9u64)?;
    let packet = parse_packet(&stream[entry.start..entry.start + entry.length]).map_err(|e| number(&e))?;
    let (shape, count, expected) = (size.shape(group), packet.records.len(), size.n() + 1);
    let fewer = size.guarded() && count + 1 == expected;
    let checks = [
        (19, packet.kind > shape.kind),
        (20, size.height() > 32_767),
        (21, count != expected && !fewer),
        (22, count > stream.len() / 16 + 1),
        (23, packet.kind < shape.kind),
        (24, group == 1 && size.height() < 16),
    ];
    match checks.into_iter().find(|check| check.1) {
        Some((number, _)) => Err(number),
        None => Ok(TilePacket { packet, shape }),
    }
}

/// The courses of all records of the tile's 13 packets.
pub fn courses(stream: &[u8]) -> std::result::Result<Vec<Course>, u64> {
    let packets = tile_packets(stream)?;
    Ok(packets.iter().flat_map(|p| decode_records(&p.packet, p.shape).1).collect())
}

/// The courses of the records of a packet.
pub fn packet_courses(packet: &[u8], shape: Shape) -> Result<Vec<Course>> {
    Ok(decode_records(&parse_packet(packet)?, shape).1)
}

/// The coefficients of an accepted stream's 13 packets by group and index, record after record.
pub fn tile_coefficients(stream: &[u8], size: Size) -> [Vec<Vec<i32>>; 5] {
    let mut coefficients: [Vec<Vec<i32>>; 5] = Default::default();
    let packets = tile_packets(stream).expect("the stream is accepted");
    for (&(group, _), packet) in ORDER.iter().zip(&packets) {
        let (mut numbers, _) = decode_records(&packet.packet, packet.shape);
        numbers.resize((size.n() + 1) * packet.shape.numbers(), 0);
        coefficients[group].push(numbers);
    }
    coefficients
}

/// The greatest selector in the records of an accepted stream's 13 packets.
pub fn greatest_selector(stream: &[u8]) -> u32 {
    let packets = tile_packets(stream).expect("the stream is accepted");
    let greatest = |p: &TilePacket| {
        let selectors = p.packet.records.iter().flat_map(|r| &r.selectors[..p.packet.kind]);
        selectors.max().map_or(0, |&s| s as u32)
    };
    packets.iter().map(greatest).max().unwrap_or(0)
}

/// Decodes a packet record by record, as the original's `packet_planes` does: the coefficients
/// record after record, and the course of each.
fn decode_records(packet: &Packet, shape: Shape) -> (Vec<i32>, Vec<Course>) {
    let mut coefficients = vec![0; packet.records.len() * shape.numbers()];
    let bands = coefficients.chunks_mut(shape.numbers());
    let courses = bands.enumerate().map(|(i, rows)| decode_record(packet, i, shape, rows)).collect();
    (coefficients, courses)
}

/// Decodes one record into rows of zeros.
fn decode_record(packet: &Packet, i: usize, shape: Shape, rows: &mut [i32]) -> Course {
    let record = &packet.records[i];
    let allowance = 128 * record.byte_length.div_ceil(16) as u64;
    let mut course = Course { bytes: record.byte_length as u64, allowance, ..Course::default() };
    if record.byte_length == 0 {
        return course;
    }
    let mut bits = CoeffBits::new(packet.data, record.payload_offset, record.byte_length);
    for (i, row) in rows.chunks_mut(shape.columns).enumerate() {
        let selector = record.selectors[i / shape.m] as u32;
        decode_component(&mut bits, shape.groups(), selector, row);
        course.statuses.push(bits.status);
    }
    course.bits = allowance - left(&mut bits);
    course
}

/// How many single bits a reader still gives before its status turns to 2.
fn left(bits: &mut CoeffBits) -> u64 {
    let mut left = 0;
    while bits.status != 2 {
        bits.read(1);
        left += (bits.status != 2) as u64;
    }
    left
}

/// The coefficients of a packet of which `records` records are expected, 0 for those that are not
/// there, and the counts of its records.
pub fn packet_coefficients(packet: &[u8], shape: Shape, records: usize) -> Result<(Vec<i32>, Counts)> {
    let (mut coefficients, courses) = decode_records(&parse_packet(packet)?, shape);
    coefficients.resize(records * shape.numbers(), 0);
    Ok((coefficients, Counts::of(&courses)))
}

#[cfg(test)]
mod tests {
    use super::*;
    use crate::original::packet_planes;
    use crate::packets::Record;
    use crate::rng::Rng;
    use crate::streams::{draw_stream, TILE_PACKETS};
    use crate::written;

    /// Every error text of the original's source.
    fn texts_of_the_source() -> Vec<String> {
        let source = include_str!("original/sony_arw6.rs");
        let mut texts: Vec<String> = Vec::new();
        let code = source.lines().filter(|l| !l.trim_start().starts_with("//"));
        for line in code {
            for (i, part) in line.split('"').enumerate() {
                let is_text = i % 2 == 1 && part.starts_with(|c: char| c.is_ascii_lowercase());
                if is_text && !texts.iter().any(|t| t == part) {
                    texts.push(part.to_string());
                }
            }
        }
        texts
    }

    /// Texts that no stream brings about: shapes that the sizes already rule out, the plane limit,
    /// which number 3 comes before, and the wrapper `decode`.
    const UNREACHED: [&str; 20] = [
        "truncated header",
        "plane too large",
        "plane row count",
        "stream too short",
        "stream payload beyond strip",
        "packet geometry",
        "band-0 rows",
        "vertical lifting shapes",
        "horizontal lifting shapes",
        "lifting shapes",
        "lifting row counts",
        "subband widths",
        "subband rows",
        "green detail",
        "missing colour plane",
        "frame size",
        "output buffer",
        "strip too short",
        "no tile streams",
        "tile plane sizes",
    ];

    #[test]
    fn every_text_is_mapped_or_unreached() {
        let texts = texts_of_the_source();
        for text in &texts {
            let mapped = TEXTS.iter().any(|(t, _)| t == text);
            assert_ne!(mapped, UNREACHED.contains(&text.as_str()), "{text}");
        }
        assert!(TEXTS.iter().all(|(t, _)| texts.iter().any(|s| s == t)));
    }

    /// Without the added `pub(crate)` the file is the original, byte for byte (FNV-1a of 64 bits).
    #[test]
    fn the_original_is_unchanged() {
        let text = include_str!("original/sony_arw6.rs").replace("pub(crate) ", "");
        let mix = |hash: u64, byte: u8| (hash ^ byte as u64).wrapping_mul(0x100_0000_01b3);
        let hash = text.bytes().fold(0xcbf2_9ce4_8422_2325, mix);
        assert_eq!((text.len(), hash), (38700, 0x2d93_87a0_e2c6_f0d5));
    }

    #[test]
    fn numbers_are_one_to_one() {
        let mut numbers: Vec<u64> = TEXTS.iter().map(|&(_, n)| n).collect();
        numbers.sort();
        let expected: Vec<u64> = std::iter::once(2).chain(5..=24).collect();
        assert_eq!(numbers, expected);
    }

    /// Row `y` of component `c` in record-major order.
    fn row_of(coefficients: &[i32], shape: Shape, c: usize, y: usize) -> &[i32] {
        let at = ((y / shape.m * shape.kind + c) * shape.m + y % shape.m) * shape.columns;
        &coefficients[at..at + shape.columns]
    }

    #[test]
    fn records_agree_with_packet_planes() {
        let mut rng = Rng::new(2);
        for _ in 0..200 {
            let stream = draw_stream(&mut rng);
            let (size, bytes) = (stream.size, &stream.bytes);
            let directory = parse_directory(bytes).unwrap();
            for group in 0..5 {
                let planes =
                    packet_planes(bytes, &directory, size.width, size.height(), group, 0, false).unwrap();
                let (start, length) = stream.packets[group][0];
                let shape = size.shape(group);
                let packet = &bytes[start..start + length];
                let (found, _) = packet_coefficients(packet, shape, size.n() + 1).unwrap();
                for (c, plane) in planes.iter().enumerate() {
                    for (y, row) in plane.data.chunks(shape.columns).enumerate() {
                        assert_eq!(row_of(&found, shape, c, y), row);
                    }
                }
            }
        }
    }

    /// One unit for eight rows of eight columns: a row of zeros, 00; a width of 122, 10 and a unary
    /// that ends two bits before the end; those two bits, one for each of the next two rows; then
    /// the fifth row's opening read runs past.
    const TURNED: [u8; 16] = [0x20, 0, 0, 0, 0, 0, 0, 0, 0, 0, 0, 0, 0, 0, 0, 0b0000_0111];

    /// A packet with that record and an empty one.
    fn turned_packet() -> Vec<u8> {
        let header = [0, 1, 0, 0, 1, 0x40, 0x40, 0, 2, 0x10, 0, 0, 0, 0, 0, 0];
        let records = [0, 16, 0, 0, 0, 0, 0, 0, 0, 0, 0, 0, 0, 0, 0, 0];
        [header, records, TURNED].concat()
    }

    #[test]
    fn a_status_that_turns() {
        let size = Size { width: 16, half: 8 };
        let (packet, shape) = (turned_packet(), size.shape(4));
        let courses = packet_courses(&packet, shape).unwrap();
        let statuses = vec![0, 1, 1, 1, 2, 2, 2, 2];
        let turned = Course { statuses, bytes: 16, allowance: 128, bits: 128 };
        assert_eq!(courses, [turned, Course::default()]);
        let counts = Counts { stopped: 1, broken: 1, spent: 0, bits: 128 };
        assert_eq!(packet_coefficients(&packet, shape, 2), Ok((vec![0; 128], counts)));

        let empty = |group: usize| vec![vec![Record::default(); 2]; TILE_PACKETS[group]];
        let mut records = std::array::from_fn(empty);
        records[4][0][0].payload = TURNED.to_vec();
        let stream = written::stream(size, &records);
        let (start, length) = stream.packets[4][0];
        assert_eq!(stream.bytes[start..start + length], packet);
        let planes = decode(&stream.bytes, size.needed()).unwrap();
        assert_eq!((planes.counts, planes.turned()), (counts, 1));
    }

    #[test]
    fn stopped_records_are_broken_or_spent() {
        let mut rng = Rng::new(3);
        let mut kinds = [0; 2];
        for _ in 0..300 {
            let stream = draw_stream(&mut rng);
            let Ok(planes) = decode(&stream.bytes, stream.size.needed()) else { continue };
            let Counts { stopped, broken, spent, bits } = planes.counts;
            assert_eq!(stopped, broken + spent);
            assert!(planes.turned() as u64 <= broken);
            assert!(planes.courses.iter().all(|c| c.bits <= c.allowance));
            assert!(bits <= planes.courses.iter().map(|c| c.allowance).sum());
            kinds = [kinds[0] + broken, kinds[1] + spent];
        }
        assert!(kinds.iter().all(|&records| records > 1000), "{kinds:?}");
    }

    /// Takes some seconds and more than a gigabyte: `cargo test -- --ignored`.
    #[test]
    #[ignore]
    fn the_original_refuses_what_3_does() {
        for half in [16_376, 16_383] {
            let size = Size { width: 8208, half };
            assert!(size.too_large());
            let stream = crate::faults::empty_stream(size, size.n() + 1).bytes;
            let refused = decode_stream(&stream, false).err();
            assert_eq!(refused, Some(Error("ARW6: plane too large".to_string())));
        }
    }
}
