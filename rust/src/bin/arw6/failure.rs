//! Why a file did not come to its end.

use std::io::{Error, ErrorKind};

/// What kind of failure it was, and one line that tells it.
#[derive(Debug)]
pub struct Failure {
    pub kind: Kind,
    pub text: String,
}

#[derive(Debug, Clone, Copy, PartialEq, Eq)]
pub enum Kind {
    Missing,
    Unreadable,
    /// The frame or one of its tiles was refused with this number.
    Refused(u64),
    Memory,
    Unwritten,
}

impl Failure {
    pub fn new(kind: Kind, text: impl Into<String>) -> Failure {
        Failure { kind, text: text.into() }
    }

    /// A file that cannot be read.
    pub fn reading(error: Error) -> Failure {
        match error.kind() {
            ErrorKind::NotFound => Failure::new(Kind::Missing, error.to_string()),
            ErrorKind::OutOfMemory => Failure::new(Kind::Memory, "the memory for the file cannot be had"),
            ErrorKind::IsADirectory => Failure::new(Kind::Unreadable, "is a folder; -r goes through folders"),
            _ => Failure::new(Kind::Unreadable, error.to_string()),
        }
    }

    /// A tile that was not decoded.
    pub fn decoding(k: usize, error: arw6::Error) -> Failure {
        let kind = match error {
            arw6::Error::Refused(refusal) => Kind::Refused(refusal.number()),
            _ => Kind::Memory,
        };
        Failure::new(kind, format!("tile {k}: {error}"))
    }

    /// What a listing says of a tile that was not decoded.
    pub fn word(&self) -> String {
        match self.kind {
            Kind::Refused(number) => format!("refused {number}"),
            _ => "not decoded".to_string(),
        }
    }
}
