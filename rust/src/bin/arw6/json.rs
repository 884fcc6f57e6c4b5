//! JSON, as much of it as results take.

use std::fmt::Display;
use std::os::unix::ffi::OsStrExt;
use std::path::Path;

/// An object of names and values that are JSON already.
pub fn object(fields: &[(&str, String)]) -> String {
    let fields: Vec<String> = fields.iter().map(|(name, value)| format!("{}:{value}", text(name))).collect();
    format!("{{{}}}", fields.join(","))
}

pub fn list(values: &[String]) -> String {
    format!("[{}]", values.join(","))
}

/// A number that JSON writes as it is shown.
pub fn number(value: impl Display) -> String {
    value.to_string()
}

pub fn text(value: &str) -> String {
    let mut quoted = String::from('"');
    for letter in value.chars() {
        match letter {
            '"' | '\\' => quoted.extend(['\\', letter]),
            _ if letter.is_control() => quoted.push_str(&format!("\\u{:04x}", letter as u32)),
            _ => quoted.push(letter),
        }
    }
    quoted.push('"');
    quoted
}

/// The fields that name a path: as text and, where it is no UTF-8, its bytes in hex under the
/// second name.
pub fn path(names: [&'static str; 2], path: &Path) -> Vec<(&'static str, String)> {
    let mut fields = vec![(names[0], text(&path.to_string_lossy()))];
    if path.to_str().is_none() {
        let hex: String = path.as_os_str().as_bytes().iter().map(|byte| format!("{byte:02x}")).collect();
        fields.push((names[1], text(&hex)));
    }
    fields
}

pub fn file(path: &Path) -> Vec<(&'static str, String)> {
    self::path(["file", "file_bytes"], path)
}

#[cfg(test)]
mod tests {
    use super::*;
    use std::ffi::OsStr;

    #[test]
    fn values() {
        assert_eq!(text("a\"\\\n\u{7f}ö"), "\"a\\\"\\\\\\u000a\\u007fö\"");
        let inner = list(&[number(-1), number(2)]);
        assert_eq!(object(&[("a", inner), ("b", text("c"))]), "{\"a\":[-1,2],\"b\":\"c\"}");
        assert_eq!(object(&[]), "{}");
    }

    #[test]
    fn names_of_files() {
        assert_eq!(object(&file(Path::new("a b"))), "{\"file\":\"a b\"}");
        let odd = Path::new(OsStr::from_bytes(b"\xffa"));
        assert_eq!(object(&file(odd)), "{\"file\":\"\u{fffd}a\",\"file_bytes\":\"ff61\"}");
    }
}
