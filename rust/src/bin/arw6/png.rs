//! PNG pictures of 8-bit red, green and blue, written row after row without compression.

use std::io::{Result, Write};

/// The most bytes of a stored block (RFC 1951), and so of an IDAT chunk's data here.
const BLOCK: usize = 65_535;

/// A picture in the making.
pub struct Png<W: Write> {
    file: W,
    /// Bytes of the picture that are still to come.
    left: u64,
    adler: Adler,
    block: Vec<u8>,
}

impl<W: Write> Png<W> {
    /// Starts a picture; its rows follow by `row`, and `finish` ends it.
    pub fn start(mut file: W, width: usize, height: usize) -> Result<Png<W>> {
        file.write_all(b"\x89PNG\r\n\x1a\n")?;
        let sides = [(width as u32).to_be_bytes(), (height as u32).to_be_bytes()].concat();
        // Eight bits of three colours; deflate, the five filters, no interlace.
        chunk(&mut file, b"IHDR", &[sides.as_slice(), &[8, 2, 0, 0, 0]])?;
        // The header of zlib (RFC 1950): a window of 32 kB, no dictionary, the fastest level.
        chunk(&mut file, b"IDAT", &[&[0x78, 0x01]])?;
        let left = height as u64 * (1 + 3 * width as u64);
        Ok(Png { file, left, adler: Adler::default(), block: Vec::with_capacity(BLOCK) })
    }

    /// Writes the next row, red, green and blue of each pixel from the left.
    pub fn row(&mut self, pixels: &[u8]) -> Result<()> {
        // Each row has its filter first: 0, none.
        self.add(&[0])?;
        self.add(pixels)
    }

    fn add(&mut self, mut bytes: &[u8]) -> Result<()> {
        while !bytes.is_empty() {
            let (head, rest) = bytes.split_at(bytes.len().min(BLOCK - self.block.len()));
            self.block.extend_from_slice(head);
            bytes = rest;
            if self.block.len() == BLOCK {
                self.store()?;
            }
        }
        Ok(())
    }

    /// Writes what is held as one stored block, the last of them marked as such.
    fn store(&mut self) -> Result<()> {
        self.left -= self.block.len() as u64;
        self.adler.update(&self.block);
        let length = self.block.len() as u16;
        let [a, b] = length.to_le_bytes();
        let [c, d] = (!length).to_le_bytes();
        let head = [(self.left == 0) as u8, a, b, c, d];
        chunk(&mut self.file, b"IDAT", &[&head, &self.block])?;
        self.block.clear();
        Ok(())
    }

    pub fn finish(mut self) -> Result<()> {
        if !self.block.is_empty() {
            self.store()?;
        }
        chunk(&mut self.file, b"IDAT", &[&self.adler.value().to_be_bytes()])?;
        chunk(&mut self.file, b"IEND", &[])
    }
}

/// A chunk: length, name, data, and the CRC of name and data.
fn chunk(file: &mut impl Write, name: &[u8; 4], parts: &[&[u8]]) -> Result<()> {
    let length: usize = parts.iter().map(|part| part.len()).sum();
    let mut crc = Crc::default();
    crc.update(name);
    file.write_all(&(length as u32).to_be_bytes())?;
    file.write_all(name)?;
    for part in parts {
        crc.update(part);
        file.write_all(part)?;
    }
    file.write_all(&crc.value().to_be_bytes())
}

/// Adler-32 (RFC 1950).
struct Adler {
    a: u32,
    b: u32,
}

impl Default for Adler {
    fn default() -> Self {
        Adler { a: 1, b: 0 }
    }
}

impl Adler {
    fn update(&mut self, bytes: &[u8]) {
        // So many bytes fit before a sum may leave 32 bits.
        for part in bytes.chunks(5552) {
            for byte in part {
                self.a += *byte as u32;
                self.b += self.a;
            }
            self.a %= 65_521;
            self.b %= 65_521;
        }
    }

    fn value(&self) -> u32 {
        self.b << 16 | self.a
    }
}

/// The CRC of PNG, eight bytes at a time.
struct Crc(u32);

const TABLES: [[u32; 256]; 8] = tables();

const fn tables() -> [[u32; 256]; 8] {
    let mut tables = [[0; 256]; 8];
    let mut i = 0;
    while i < 256 {
        let mut c = i as u32;
        let mut bit = 0;
        while bit < 8 {
            c = if c & 1 == 1 { 0xedb8_8320 ^ c >> 1 } else { c >> 1 };
            bit += 1;
        }
        tables[0][i] = c;
        i += 1;
    }
    let mut k = 1;
    while k < 8 {
        let mut i = 0;
        while i < 256 {
            let before = tables[k - 1][i];
            tables[k][i] = tables[0][before as usize & 255] ^ before >> 8;
            i += 1;
        }
        k += 1;
    }
    tables
}

impl Default for Crc {
    fn default() -> Self {
        Crc(!0)
    }
}

impl Crc {
    fn update(&mut self, bytes: &[u8]) {
        let (eights, rest) = bytes.as_chunks::<8>();
        for eight in eights {
            let word = u64::from_le_bytes(*eight) ^ self.0 as u64;
            let part = |k: usize| TABLES[7 - k][(word >> (8 * k)) as usize & 255];
            self.0 = part(0) ^ part(1) ^ part(2) ^ part(3) ^ part(4) ^ part(5) ^ part(6) ^ part(7);
        }
        for byte in rest {
            self.0 = TABLES[0][(self.0 ^ *byte as u32) as usize & 255] ^ self.0 >> 8;
        }
    }

    fn value(&self) -> u32 {
        !self.0
    }
}

#[cfg(test)]
mod tests {
    use super::*;

    #[test]
    fn sums() {
        let mut crc = Crc::default();
        crc.update(b"123456789");
        assert_eq!(crc.value(), 0xcbf4_3926);
        let mut adler = Adler::default();
        adler.update(b"Wikipedia");
        assert_eq!(adler.value(), 0x11e6_0398);
        let mut long = Adler::default();
        long.update(&[255; 100_000]);
        let mut short = Adler::default();
        (0..100_000).for_each(|_| short.update(&[255]));
        assert_eq!(long.value(), short.value());
    }

    /// One white pixel, byte for byte.
    #[test]
    fn the_smallest_picture() {
        let mut file = Vec::new();
        let mut png = Png::start(&mut file, 1, 1).unwrap();
        png.row(&[255, 255, 255]).unwrap();
        png.finish().unwrap();
        assert_eq!(&file[..29], b"\x89PNG\r\n\x1a\n\0\0\0\x0dIHDR\0\0\0\x01\0\0\0\x01\x08\x02\0\0\0");
        assert_eq!(&file[41..43], b"\x78\x01");
        assert_eq!(&file[47..64], b"\0\0\0\x09IDAT\x01\x04\0\xfb\xff\0\xff\xff\xff");
        assert!(file.ends_with(b"\0\0\0\0IEND\xae\x42\x60\x82"));
    }
}
