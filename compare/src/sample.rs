//! Makes the sample: a frame file with the picture of a segment joint, in two tiles side by side.

mod analysis;
mod coded;
mod picture;

use compare::size::Size;
use picture::Planes;

const TILES: usize = 2;
const FIRST_STREAM: usize = 512;
const TABLE: usize = 8;
const ENTRY: usize = 24;

/// The size of each tile: half of the frame's width, all of its height.
const TILE: Size = Size { width: picture::WIDTH / TILES, half: picture::HEIGHT / 2 };

/// The frame file: frame width and height, then the strip.
pub fn frame_file() -> Vec<u8> {
    let mut file = Vec::new();
    for side in [picture::WIDTH, picture::HEIGHT] {
        file.extend((side as u32).to_le_bytes());
    }
    file.extend(strip());
    file
}

/// The strip: the table with an entry for each tile, then the streams.
fn strip() -> Vec<u8> {
    let frame = picture::draw();
    let mut strip = vec![0; FIRST_STREAM];
    strip[..4].copy_from_slice(&(TILES as u32).to_le_bytes());
    for k in 0..TILES {
        put_entry(&mut strip, k);
        strip.extend(coded::stream(TILE, &analysis::analyse(&tile(&frame, k))));
    }
    strip
}

/// The part of the frame's planes that tile `k` holds.
fn tile(frame: &Planes, k: usize) -> Planes {
    let part = |plane: &picture::Rows, columns: usize| {
        plane.iter().map(|row| row[k * columns..(k + 1) * columns].to_vec()).collect()
    };
    Planes {
        green: part(&frame.green, TILE.width),
        red: part(&frame.red, TILE.width / 2),
        blue: part(&frame.blue, TILE.width / 2),
    }
}

/// Writes entry `k`, whose stream starts at the strip's present end.
fn put_entry(strip: &mut [u8], k: usize) {
    let words = [strip.len(), 0, k * TILE.width, 0, TILE.width, TILE.height()];
    for (i, word) in words.into_iter().enumerate() {
        let at = TABLE + ENTRY * k + 4 * i;
        strip[at..at + 4].copy_from_slice(&(word as u32).to_le_bytes());
    }
}

#[cfg(test)]
mod tests {
    use super::*;
    use compare::oracle;

    const SHIPPED: &[u8] = include_bytes!("../../samples/joint.frame");

    /// Rows at the top and at the bottom whose numbers may differ from the picture, as the format
    /// cannot hold every number there.
    const EDGE: usize = 8;

    fn difference(rows: &[Vec<i32>], decoded: &[i32]) -> i32 {
        let pairs = rows.iter().flatten().zip(decoded);
        pairs.map(|(meant, found)| (meant - found).abs()).max().unwrap()
    }

    /// The original's plane is the picture's; near the top and the bottom it is close to it.
    fn hold(meant: &[Vec<i32>], found: &[i32]) {
        let (last, columns) = (meant.len() - EDGE, meant[0].len());
        assert_eq!(meant.len() * columns, found.len());
        assert_eq!(difference(&meant[EDGE..last], &found[EDGE * columns..]), 0);
        assert!(difference(meant, found) <= 2);
    }

    #[test]
    fn the_shipped_file_is_the_one_made() {
        assert!(SHIPPED == frame_file(), "make it anew: compare sample > samples/joint.frame");
        assert!(SHIPPED.len() < 300_000);
    }

    #[test]
    fn the_original_decodes_it_to_the_picture() {
        let (strip, frame) = (strip(), picture::draw());
        let tiles = oracle::tiles(&strip, (picture::WIDTH, picture::HEIGHT));
        assert_eq!(tiles.len(), TILES);
        for (k, [offset, length, x, y, width, height]) in tiles.into_iter().enumerate() {
            assert_eq!([x, y, width, height], [k * TILE.width, 0, TILE.width, TILE.height()]);
            let stream = &strip[offset..offset + length];
            let found = oracle::decode(stream, TILE.needed()).unwrap();
            let meant = tile(&frame, k);
            hold(&meant.green, &found.green);
            hold(&meant.red, &found.red);
            hold(&meant.blue, &found.blue);
            assert_eq!(found.counts.stopped, 0);
        }
    }
}
