//! Builds whole streams: header, directory and packets, and draws random ones.

use crate::packets::{packet, record_at, Record, Room, UNIT};
use crate::records::{draw_record, Recipe};
use crate::rng::Rng;
use crate::size::{Shape, Size};

/// Where the directory and the first packet start.
pub const DIRECTORY: usize = 48;
pub const PACKETS: usize = 128;

/// Packets that a tile reads of each group.
pub const TILE_PACKETS: [usize; 5] = [3, 3, 3, 3, 1];

/// The parts that a stream is put together from.
#[derive(Clone)]
pub struct Parts {
    pub size: Size,
    /// Packets of each group; 5 or more make the directory's block 32 bytes long.
    pub groups: [Vec<Vec<u8>>; 5],
    /// Units after the last packet of each group.
    pub spare: [usize; 5],
    pub trailing: Vec<u8>,
}

/// A stream and where its parts stand.
#[derive(Debug, Clone)]
pub struct Stream {
    pub bytes: Vec<u8>,
    pub size: Size,
    /// The directory block of each group.
    pub blocks: [usize; 5],
    /// Start and length of each packet of each group.
    pub packets: [Vec<(usize, usize)>; 5],
}

/// The 128 bytes of a valid header with no group and no directory.
pub fn header(size: Size) -> Vec<u8> {
    let mut bytes = vec![0; PACKETS];
    bytes[..4].copy_from_slice(b"A000");
    bytes[8..10].copy_from_slice(&(size.width as u16).to_be_bytes());
    bytes[10..12].copy_from_slice(&(size.half as u16).to_be_bytes());
    bytes[12..14].copy_from_slice(&[0x01, 0x00]);
    bytes[14..16].copy_from_slice(&[0x6c, 0x00]);
    bytes
}

/// Writes a 24-bit number; what would pass the end is dropped.
pub fn put24(bytes: &mut [u8], at: usize, value: usize) {
    for (i, byte) in (value as u32).to_be_bytes()[1..].iter().enumerate() {
        if let Some(b) = bytes.get_mut(at + i) {
            *b = *byte;
        }
    }
}

/// The place of entry `index` in a directory block.
pub fn entry_at(block: usize, index: usize) -> usize {
    match index {
        0..=4 => block + 1 + 3 * index,
        _ => block + 17 + 3 * (index - 5),
    }
}

/// Puts a stream together. Directory blocks that run past byte 128 are left to the first packet,
/// whose bytes stand there.
pub fn assemble(parts: &Parts) -> Stream {
    let mut bytes = header(parts.size);
    let mut blocks = [0; 5];
    let mut packets: [Vec<(usize, usize)>; 5] = Default::default();
    let mut block = DIRECTORY;
    for (g, group) in parts.groups.iter().enumerate() {
        blocks[g] = block;
        let start = bytes.len();
        for one in group {
            packets[g].push((bytes.len(), one.len()));
            bytes.extend(one);
        }
        bytes.resize(bytes.len() + parts.spare[g] * UNIT, 0);
        let size = (bytes.len() - start) / UNIT;
        put24(&mut bytes, 16 + 3 * g, size);
        write_block(&mut bytes[..PACKETS], block, group);
        block += if group.len() >= 5 { 32 } else { 16 };
    }
    bytes.extend(&parts.trailing);
    Stream { bytes, size: parts.size, blocks, packets }
}

fn write_block(head: &mut [u8], block: usize, group: &[Vec<u8>]) {
    if let Some(byte) = head.get_mut(block) {
        *byte = group.len() as u8;
    }
    for (i, one) in group.iter().enumerate() {
        put24(head, entry_at(block, i), one.len() / UNIT);
    }
}

/// A random size: mostly small, with the edges often, some long thin ones and few as wide or as
/// high as can be.
pub fn draw_size(rng: &mut Rng) -> Size {
    let (width, height) = match rng.below(12) {
        0 | 1 if rng.one_in(60) => {
            rng.pick(&[(65_520, 16), (65_520, 18), (16, 32_752), (16, 32_766), (32, 32_754)])
        }
        0 => (rng.pick(&[256, 512, 1024]), rng.pick(&[16, 18, 30, 32, 34])),
        1 => (16, rng.pick(&[400, 1000, 2000, 4096, 4098])),
        2..=5 => (16 * rng.within(1, 4), rng.pick(&[14, 16, 18, 26, 30, 32, 34, 48, 50])),
        _ => (16 * rng.within(1, 8), 2 * rng.within(1, 100)),
    };
    Size { width, half: height / 2 }
}

/// A packet with `count` records.
pub fn draw_packet(rng: &mut Rng, shape: Shape, recipe: &Recipe, count: usize) -> Vec<u8> {
    let records = draw_records(rng, shape, recipe, count);
    let room = draw_room(rng, recipe, shape.kind, count);
    packet(shape.kind, &records, room)
}

fn draw_records(rng: &mut Rng, shape: Shape, recipe: &Recipe, count: usize) -> Vec<Record> {
    (0..count).map(|_| draw_record(rng, shape, recipe)).collect()
}

/// Mostly the least room; sometimes more of it, or payloads that start within the record headers.
fn draw_room(rng: &mut Rng, recipe: &Recipe, kind: usize, count: usize) -> Room {
    let least = record_at(kind, count).div_ceil(8 * UNIT);
    match if recipe.plain_layout { 9 } else { rng.below(10) } {
        0 => Room { control: Some(least + rng.within(1, 3)), ..Room::default() },
        1 => Room { control: Some(rng.within(1, least)), ..Room::default() },
        2 => Room { spare: rng.within(1, 3), ..Room::default() },
        _ => Room::default(),
    }
}

/// Draws the parts of a stream that is accepted, if its height is.
pub fn draw_parts(rng: &mut Rng, size: Size, recipe: &Recipe) -> Parts {
    let mut groups: [Vec<Vec<u8>>; 5] = Default::default();
    for (g, group) in groups.iter_mut().enumerate() {
        for _ in 0..TILE_PACKETS[g] {
            let fewer = size.guarded() && rng.one_in(recipe.fewer);
            group.push(draw_packet(rng, size.shape(g), recipe, size.n() + 1 - fewer as usize));
        }
    }
    let mut parts = Parts { size, groups, spare: [0; 5], trailing: Vec::new() };
    if !recipe.plain_layout {
        draw_layout(rng, &mut parts, recipe);
    }
    parts
}

/// Adds what a tile does not read: packets past the last, spare units, bytes after the stream.
fn draw_layout(rng: &mut Rng, parts: &mut Parts, recipe: &Recipe) {
    if rng.one_in(4) {
        let g = rng.below(5);
        let more = 4 - parts.groups[g].len();
        add_packets(rng, parts, g, more);
    }
    match rng.below(12) {
        0 => {
            let more = 5 - parts.groups[4].len();
            add_packets(rng, parts, 4, more);
        }
        1 => push_directory_into_packet(rng, parts, recipe),
        _ => {}
    }
    for spare in &mut parts.spare {
        *spare = if rng.one_in(6) { rng.within(1, 3) } else { 0 };
    }
    if rng.one_in(4) {
        let count = rng.within(1, 40);
        parts.trailing = rng.bytes(count);
    }
}

fn add_packets(rng: &mut Rng, parts: &mut Parts, group: usize, count: usize) {
    for _ in 0..count {
        let units = rng.below(3);
        let more = rng.bytes(units * UNIT);
        parts.groups[group].push(more);
    }
}

/// Gives one of the groups 0 to 3 a block of 32 bytes, so that group 4's block lies at byte 128:
/// the first packet's header is made to read as that block.
pub fn push_directory_into_packet(rng: &mut Rng, parts: &mut Parts, recipe: &Recipe) {
    let length = parts.groups[4][0].len() / UNIT;
    if length > 24 || parts.groups.iter().any(|g| g.len() >= 5) {
        return;
    }
    let g = rng.below(4);
    let more = rng.within(5, 9) - parts.groups[g].len();
    add_packets(rng, parts, g, more);
    let count = parts.size.n() + 1;
    let records = draw_records(rng, parts.size.shape(0), recipe, count);
    parts.groups[0][0] = packet_as_block(&records, length, rng.below(256));
    parts.groups[4].truncate(1);
}

/// A packet of kind 1 whose first bytes read as a directory block with one entry of `length`
/// units.
pub fn packet_as_block(records: &[Record], length: usize, low: usize) -> Vec<u8> {
    let room = Room { control: Some(0x101), extra: Some(length * 256 + low), spare: 0 };
    packet(1, records, room)
}

/// A random stream that is accepted if its height is.
pub fn draw_stream(rng: &mut Rng) -> Stream {
    let size = draw_size(rng);
    let recipe = Recipe::draw(rng);
    assemble(&draw_parts(rng, size, &recipe))
}

#[cfg(test)]
mod tests {
    use super::*;
    use crate::oracle;

    #[test]
    fn whole_streams_are_accepted() {
        let mut rng = Rng::new(3);
        let (mut past, mut trailing, mut fewer) = (0, 0, 0);
        for _ in 0..1500 {
            let stream = draw_stream(&mut rng);
            let answer = oracle::decode(&stream.bytes, stream.size.needed());
            let expected = if stream.size.height() < 16 { Some(24) } else { None };
            assert_eq!(answer.err(), expected);
            past += (stream.blocks[4] >= PACKETS || stream.packets[4].len() >= 5) as usize;
            trailing += (stream.bytes.len() % UNIT != 0) as usize;
            let first = stream.packets[0][0].0;
            let records = u16::from_be_bytes([stream.bytes[first + 7], stream.bytes[first + 8]]) as usize;
            fewer += (records == stream.size.n()) as usize;
        }
        assert!(past > 50 && trailing > 50 && fewer > 50, "{past} {trailing} {fewer}");
    }
}
