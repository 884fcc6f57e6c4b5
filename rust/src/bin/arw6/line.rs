//! The line of a tile's digest, which docs/DIGEST.md defines.

use crate::names;
use std::path::PathBuf;

/// The definition of the digest, and its version.
pub const DEFINITION: &str = "ARW6-planes-1";

/// What a line says.
#[derive(Debug, Clone, PartialEq, Eq)]
pub struct Line {
    pub digest: [u8; 32],
    /// The tile's number from 0, and how many the file has.
    pub tile: usize,
    pub tiles: usize,
    /// The coded size.
    pub width: usize,
    pub height: usize,
    /// Broken and spent records together.
    pub stopped: usize,
    /// The path as it was given.
    pub path: PathBuf,
}

impl Line {
    /// The line without its end. A backslash leads where the path is not shown as it is.
    pub fn text(&self) -> String {
        let Line { tile, tiles, width, height, stopped, .. } = self;
        let path = names::shown(&self.path);
        let mark = if path.contains('\\') { "\\" } else { "" };
        let digest = hex(&self.digest);
        format!(
            "{mark}{DEFINITION} {digest} tile {tile} of {tiles} {width}x{height} stopped {stopped}  {path}"
        )
    }

    /// Reads a line; None for text that no line has.
    pub fn parse(text: &str) -> Option<Line> {
        let (fields, path) = text.split_once("  ").filter(|(_, path)| !path.is_empty())?;
        let mut words = fields.trim_start_matches('\\').split(' ');
        let mut next = |expected: &str| words.next().filter(|word| expected.is_empty() || *word == expected);
        next(DEFINITION)?;
        let digest = bytes(next("")?)?;
        next("tile")?;
        let tile = next("")?.parse().ok()?;
        next("of")?;
        let tiles = next("")?.parse().ok()?;
        let (width, height) = next("")?.split_once('x')?;
        let (width, height) = (width.parse().ok()?, height.parse().ok()?);
        next("stopped")?;
        let stopped = next("")?.parse().ok()?;
        let path = PathBuf::from(names::read(path)?);
        let line = Line { digest, tile, tiles, width, height, stopped, path };
        Some(line).filter(|line| line.text() == text)
    }
}

/// Bytes in hexadecimal.
pub fn hex(bytes: &[u8]) -> String {
    bytes.iter().map(|byte| format!("{byte:02x}")).collect()
}

fn bytes(hex: &str) -> Option<[u8; 32]> {
    let mut digest = [0; 32];
    if hex.len() != 64 || !hex.is_ascii() {
        return None;
    }
    for (i, byte) in digest.iter_mut().enumerate() {
        *byte = u8::from_str_radix(&hex[2 * i..2 * i + 2], 16).ok()?;
    }
    Some(digest)
}

#[cfg(test)]
mod tests {
    use super::*;

    fn line(path: &str) -> Line {
        let path = PathBuf::from(path);
        Line { digest: [0xa5; 32], tile: 1, tiles: 2, width: 320, height: 480, stopped: 7, path }
    }

    #[test]
    fn written_and_read_back() {
        let digest = "a5".repeat(32);
        let plain = format!("ARW6-planes-1 {digest} tile 1 of 2 320x480 stopped 7  a  b");
        assert_eq!(line("a  b").text(), plain);
        let forged = line(&format!("x\n{plain}"));
        assert!(forged.text().starts_with("\\ARW6-planes-1 ") && !forged.text().contains('\n'));
        for line in [line("a  b"), line("-"), line("\\"), forged] {
            assert_eq!(Line::parse(&line.text()), Some(line));
        }
    }

    /// Text that differs in one letter is no line, or another one.
    #[test]
    fn what_is_no_line() {
        let text = line("a").text();
        assert_eq!(Line::parse(""), None);
        for at in 0..text.len() {
            for letter in [" ", "x", "+", "0", "\\"] {
                let mut other = text.clone();
                other.replace_range(at..at + 1, letter);
                assert!(other == text || Line::parse(&other) != Some(line("a")), "{other}");
            }
            assert_eq!(Line::parse(&text[..at]), None);
        }
    }
}
