//! Streams and strips that the tests share.
#![allow(dead_code)]

pub mod refused;
pub mod tiff;
pub mod tool;

/// The sample: frame width and height, then the strip.
pub const SAMPLE: &[u8] = include_bytes!("../../../samples/joint.frame");

/// The digests of the sample's tiles, as the tool prints them.
pub const DIGESTS: &str = include_str!("../../../samples/joint.digest");

/// The frame of the sample.
pub const FRAME: (usize, usize) = (640, 480);

pub fn strip() -> &'static [u8] {
    &SAMPLE[8..]
}

/// The stream of one of the sample's tiles.
pub fn stream(k: usize) -> Vec<u8> {
    let tile = arw6::find_streams(strip(), FRAME.0, FRAME.1)[k];
    strip()[tile.offset..tile.offset + tile.length].to_vec()
}

/// The first 128 bytes of a stream without a packet.
pub fn header(width: usize, height: usize) -> Vec<u8> {
    let mut bytes = vec![0; 128];
    bytes[..4].copy_from_slice(b"0000");
    bytes[8..10].copy_from_slice(&(width as u16).to_be_bytes());
    bytes[10..12].copy_from_slice(&(height as u16 / 2).to_be_bytes());
    bytes[12..16].copy_from_slice(&[0x01, 0x00, 0x6c, 0x00]);
    bytes
}

/// A stream whose records have byte length 0: every number decodes to 0. Each packet has 8 units,
/// or as many as its record headers need.
pub fn flat_stream(width: usize, height: usize) -> Vec<u8> {
    let mut bytes = header(width, height);
    let records = height.div_ceil(16) + 1;
    for (group, (kind, packets)) in [(1, 3), (3, 3), (3, 3), (3, 3), (1, 1)].into_iter().enumerate() {
        let units = (128 + records * (16 + 4 * kind)).div_ceil(128).max(8);
        put24(&mut bytes, 16 + 3 * group, packets * units);
        bytes[48 + 16 * group] = packets as u8;
        for packet in 0..packets {
            put24(&mut bytes, 48 + 16 * group + 1 + 3 * packet, units);
            let start = bytes.len();
            let [.., control_high, control_low] = (units - 1).to_be_bytes();
            let [.., records_high, records_low] = records.to_be_bytes();
            let kind = (kind as u8) << 6;
            bytes.extend([control_high, control_low, 0, 0, 0, 0x40, kind, records_high, records_low, 16]);
            bytes.resize(start + 16 * units, 0);
        }
    }
    bytes
}

fn put24(bytes: &mut [u8], at: usize, number: usize) {
    bytes[at..at + 3].copy_from_slice(&(number as u32).to_be_bytes()[1..]);
}

/// A frame file.
pub fn frame_file(frame: (usize, usize), strip: &[u8]) -> Vec<u8> {
    let side = |side: usize| (side as u32).to_le_bytes();
    [&side(frame.0), &side(frame.1), strip].concat()
}

/// A frame file of one flat tile that its table names so often.
pub fn repeated_tile(width: usize, height: usize, times: usize) -> Vec<u8> {
    repeated_stream((width, height), &flat_stream(width, height), times)
}

pub fn repeated_stream(frame: (usize, usize), stream: &[u8], times: usize) -> Vec<u8> {
    let mut strip = vec![0; 512];
    strip[0] = times as u8;
    strip.extend(stream);
    frame_file(frame, &strip)
}

/// Bytes of a record that its rows in group 3 or 4 run past; 16 zeros more, and they do not.
pub const SPENT: [u8; 16] = [0xff; 16];

/// Bytes of a record that opens with a width of 126, in all of its bits: the opening read of the next
/// row runs past them.
pub const BROKEN: [u8; 16] = [0x80, 0, 0, 0, 0, 0, 0, 0, 0, 0, 0, 0, 0, 0, 0, 1];

/// The first packets of groups 3 and 4 among the tile's 13.
pub const GROUP_3: usize = 9;
pub const GROUP_4: usize = 12;

/// The number of a packet that stands at a place of a stream: groups 0 to 3 of green, of red and of blue,
/// then group 4.
pub fn packet_number(place: usize) -> usize {
    match place {
        GROUP_4 => GROUP_4,
        _ => 4 * (place % 3) + place / 3,
    }
}

/// A flat stream of 48 by 26 in which the packet at a place lacks its last record, as it may there.
pub fn stream_lacking(place: usize) -> Vec<u8> {
    let mut stream = flat_stream(48, 26);
    stream[128 * (1 + place) + 8] -= 1;
    stream
}

/// A flat stream of 48 by 32 in which the first records of some packets have bytes, 96 at most.
pub fn stream_with(records: &[(usize, &[u8])]) -> Vec<u8> {
    let mut stream = flat_stream(48, 32);
    for (packet, bytes) in records {
        let packet = &mut stream[128 * (1 + packet)..][..128];
        packet[..5].copy_from_slice(&[0, 1, 0, 0, 6]);
        packet[17] = bytes.len() as u8;
        packet[32..32 + bytes.len()].copy_from_slice(bytes);
    }
    stream
}

/// A frame file of two such tiles, one over the other.
pub fn frame_with(records: &[(usize, &[u8])]) -> Vec<u8> {
    repeated_stream((48, 32), &stream_with(records), 2)
}

/// The sample with 300 bits of its payloads flipped, which no check sees.
pub fn damaged() -> Vec<u8> {
    let mut bytes = SAMPLE.to_vec();
    let mut state: u32 = 1;
    for _ in 0..300 {
        state = state.wrapping_mul(1_664_525).wrapping_add(1_013_904_223);
        let place = bytes.len() - 1 - (state >> 8) as usize % 10_000;
        bytes[place] ^= 1 << (state >> 5 & 7);
    }
    bytes
}

/// The sample with its second tile's first packet missing.
pub fn spoilt() -> Vec<u8> {
    let mut bytes = SAMPLE.to_vec();
    let second = 8 + 512 + stream(0).len();
    bytes[second + 48] = 0;
    bytes
}

/// The filtered rows of a PNG whose chunks hold stored blocks.
pub fn png_pixels(file: &[u8]) -> Vec<u8> {
    let (mut at, mut data) = (8, Vec::new());
    while at < file.len() {
        let length = u32::from_be_bytes(file[at..at + 4].try_into().unwrap()) as usize;
        if &file[at + 4..at + 8] == b"IDAT" {
            data.extend_from_slice(&file[at + 8..at + 8 + length]);
        }
        at += 12 + length;
    }
    let (mut at, mut pixels) = (2, Vec::new());
    while at < data.len() - 4 {
        let length = u16::from_le_bytes([data[at + 1], data[at + 2]]) as usize;
        pixels.extend_from_slice(&data[at + 5..at + 5 + length]);
        at += 5 + length;
    }
    pixels
}

/// Planes green, red and blue of a coded size: any 12-bit codes between eight rows at the top and eight
/// at the bottom, each of which is constant along the row.
pub fn picture(width: usize, height: usize, seed: u32) -> [Vec<i32>; 3] {
    let rows = arw6::Lengths::of_size(width, height).unwrap().rows;
    let mut state = seed.wrapping_mul(2_654_435_761);
    let mut code = move || {
        state = state.wrapping_mul(1_664_525).wrapping_add(1_013_904_223);
        (state >> 20) as i32 - 2048
    };
    [width, width / 2, width / 2].map(|columns| {
        let mut plane = Vec::new();
        for y in 0..rows {
            let level = code();
            let inner = y >= 8 && y + 8 < rows;
            plane.extend((0..columns).map(|_| if inner { code() } else { level }));
        }
        plane
    })
}
