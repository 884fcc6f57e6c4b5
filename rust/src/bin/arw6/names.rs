//! Names of files as text: no name can look like two lines, and no two names look alike.

use std::ffi::{OsStr, OsString};
use std::os::unix::ffi::{OsStrExt, OsStringExt};
use std::path::Path;

/// A path as it is shown: `\\`, `\n` and `\r` as sha256sum writes them, other control characters
/// and bytes that are no UTF-8 as `\xHH`.
pub fn shown(path: &Path) -> String {
    let mut text = String::new();
    for chunk in path.as_os_str().as_bytes().utf8_chunks() {
        chunk.valid().chars().for_each(|letter| show(letter, &mut text));
        hex(chunk.invalid(), &mut text);
    }
    text
}

fn show(letter: char, text: &mut String) {
    match letter {
        '\\' => text.push_str("\\\\"),
        '\n' => text.push_str("\\n"),
        '\r' => text.push_str("\\r"),
        _ if letter.is_control() => hex(letter.to_string().as_bytes(), text),
        _ => text.push(letter),
    }
}

fn hex(bytes: &[u8], text: &mut String) {
    bytes.iter().for_each(|byte| text.push_str(&format!("\\x{byte:02x}")));
}

/// The path that is shown so; None where nothing is.
pub fn read(text: &str) -> Option<OsString> {
    let mut bytes = Vec::new();
    let mut rest = text.as_bytes();
    while let [first, others @ ..] = rest {
        rest = match (first, others) {
            (b'\\', [b'\\', rest @ ..]) => push(&mut bytes, b'\\', rest),
            (b'\\', [b'n', rest @ ..]) => push(&mut bytes, b'\n', rest),
            (b'\\', [b'r', rest @ ..]) => push(&mut bytes, b'\r', rest),
            (b'\\', [b'x', high, low, rest @ ..]) => {
                push(&mut bytes, digit(*high)? << 4 | digit(*low)?, rest)
            }
            (b'\\', _) => return None,
            (byte, rest) => push(&mut bytes, *byte, rest),
        };
    }
    Some(OsString::from_vec(bytes))
}

fn push<'a>(bytes: &mut Vec<u8>, byte: u8, rest: &'a [u8]) -> &'a [u8] {
    bytes.push(byte);
    rest
}

fn digit(letter: u8) -> Option<u8> {
    match letter {
        b'0'..=b'9' => Some(letter - b'0'),
        b'a'..=b'f' => Some(letter - b'a' + 10),
        _ => None,
    }
}

/// A name with an ending, which may be no UTF-8.
pub fn with_ending(name: &OsStr, ending: &str) -> OsString {
    let mut name = name.to_os_string();
    name.push(ending);
    name
}

#[cfg(test)]
mod tests {
    use super::*;

    #[test]
    fn shown_and_read_back() {
        let names: [(&[u8], &str); 6] = [
            (b"a/b c.ARW", "a/b c.ARW"),
            (b"a\\b\nc\rd", "a\\\\b\\nc\\rd"),
            ("ö\u{85}\u{1b}[2J".as_bytes(), "ö\\xc2\\x85\\x1b[2J"),
            (b"\xff\xfe.ARW", "\\xff\\xfe.ARW"),
            (b"\\xff", "\\\\xff"),
            (b"", ""),
        ];
        for (name, text) in names {
            let name = OsStr::from_bytes(name);
            assert_eq!(shown(Path::new(name)), text);
            assert_eq!(read(text).as_deref(), Some(name));
        }
    }

    /// Every name of two bytes is shown in one line and read back.
    #[test]
    fn names_of_two_bytes() {
        for pair in 0..=u16::MAX {
            let name = OsString::from_vec(pair.to_be_bytes().to_vec());
            let text = shown(Path::new(&name));
            assert!(!text.contains(['\n', '\r']));
            assert_eq!(read(&text), Some(name));
        }
    }

    #[test]
    fn what_shows_no_name() {
        assert!(["\\", "a\\", "\\x", "\\x1", "\\xG0", "\\xAB", "\\t"]
            .iter()
            .all(|text| read(text).is_none()));
    }
}
