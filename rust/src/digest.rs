//! The digest of a tile, which docs/DIGEST.md defines.

use crate::sha256::Sha256;
use crate::DecodedTile;

/// The first bytes of what is digested; another definition would take another number.
const LABEL: &[u8] = b"ARW6 planes 1\n";

/// Numbers that are turned into bytes at a time.
const PART: usize = 4096;

/// The digest of planes in lent slices, which docs/DIGEST.md defines; `width` and `height` are the
/// coded ones. Every number of the slices counts: those longer than the planes are cut first.
pub fn digest(width: usize, height: usize, green: &[i32], red: &[i32], blue: &[i32]) -> [u8; 32] {
    let mut hash = Sha256::default();
    hash.update(LABEL);
    for side in [width, height] {
        hash.update(&(side as u32).to_le_bytes());
    }
    for plane in [green, red, blue] {
        update_by_numbers(&mut hash, plane);
    }
    hash.finish()
}

fn update_by_numbers(hash: &mut Sha256, numbers: &[i32]) {
    let mut bytes = [0; 4 * PART];
    for part in numbers.chunks(PART) {
        let bytes = &mut bytes[..4 * part.len()];
        for (four, number) in bytes.chunks_exact_mut(4).zip(part) {
            four.copy_from_slice(&number.to_le_bytes());
        }
        hash.update(bytes);
    }
}

impl DecodedTile {
    /// The SHA-256 of the coded size and the three planes, in the order of docs/DIGEST.md.
    pub fn digest(&self) -> [u8; 32] {
        digest(self.width, self.height, &self.full_green.data, &self.red.data, &self.blue.data)
    }
}

#[cfg(test)]
mod tests {
    use super::*;
    use crate::Plane;

    #[test]
    fn bytes_in_the_order_of_the_definition() {
        let plane = |data: [i32; 2]| Plane { rows: 1, cols: 2, data: data.to_vec() };
        let tile = DecodedTile {
            full_green: plane([1, -1]),
            red: plane([256, 0]),
            blue: plane([i32::MIN, 7]),
            width: 0x0102,
            height: 0x0304,
            stopped: 9,
            broken: 4,
            spent: 5,
            bits: 77,
        };
        let mut hash = Sha256::default();
        hash.update(b"ARW6 planes 1\n\x02\x01\0\0\x04\x03\0\0");
        hash.update(b"\x01\0\0\0\xff\xff\xff\xff\0\x01\0\0\0\0\0\0\0\0\0\x80\x07\0\0\0");
        assert_eq!(tile.digest(), hash.finish());
    }

    /// Planes longer than one part, of lengths around its multiples.
    #[test]
    fn planes_of_many_parts() {
        let numbers: Vec<i32> = (0..3 * PART as i32).map(|i| i.wrapping_mul(747_796_405)).collect();
        let (green, red, blue) = (&numbers[..2 * PART + 1], &numbers[..PART], &numbers[1..PART]);
        let mut hash = Sha256::default();
        hash.update(b"ARW6 planes 1\n\x40\0\0\0\x30\0\0\0");
        for plane in [green, red, blue] {
            plane.iter().for_each(|number| hash.update(&number.to_le_bytes()));
        }
        assert_eq!(digest(64, 48, green, red, blue), hash.finish());
    }
}
