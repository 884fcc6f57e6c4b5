//! The refusals: each number with its meaning.

use std::fmt;

/// Why a strip, a stream or planes were refused: a number and its meaning.
#[derive(Debug, Clone, Copy, PartialEq, Eq, Hash)]
pub struct Refusal(u64);

impl Refusal {
    /// No tile located: what an empty list of [`crate::find_streams`] stands for.
    pub const NO_TILE: Refusal = Refusal(1);

    pub(crate) fn new(number: u64) -> Refusal {
        Refusal(number)
    }

    pub fn number(self) -> u64 {
        self.0
    }

    pub fn meaning(self) -> &'static str {
        meaning(self.0).unwrap_or("a number that this version has no words for")
    }
}

/// The meaning of a refusal's number; None where this version knows no such refusal.
pub fn meaning(number: u64) -> Option<&'static str> {
    Some(match number {
        1 => "no tile located in the strip",
        2 => "the stream's header is not valid",
        3 => "the green plane would hold more than 134,217,728 numbers",
        4 => "a lent slice is too short",
        5 => "the directory runs past the end of the stream",
        6 => "the directory lists more than 9 packets in a group",
        7 => "a packet runs past the end of the stream",
        8 => "the packets of a group are longer than the group",
        9 => "a packet is missing",
        10 => "a packet is shorter than 16 bytes",
        11 => "a record header runs past the end of its packet",
        12 => "a packet header's padding is not 0",
        13 => "a packet header's tag is not 4, or the zeros beside it are not 0",
        14 => "a packet's kind is neither 1 nor 3",
        15 => "a packet has no records, or more than 30,000",
        16 => "a packet header's marker is not 16, or the zeros after it are not 0",
        17 => "a packet's size is not its length in the directory",
        18 => "a record's bytes run past the end of its packet",
        19 => "a packet of kind 3 stands in group 0 or 4",
        20 => "the coded height is above 32,767",
        21 => "a packet's rows do not fit the coded height",
        22 => "a packet has more records than a stream of this length may have",
        23 => "a packet of kind 1 stands in group 1, 2 or 3",
        24 => "the coded height is under 16",
        25 => {
            "a coefficient is above 524,287 in magnitude, a step of band 0 leaves 16 bits, or an edge value is no value of E"
        }
        26 => "a record would be longer than 65,535 bytes, or a group longer than 268,435,440",
        _ => return None,
    })
}

impl fmt::Display for Refusal {
    fn fmt(&self, f: &mut fmt::Formatter) -> fmt::Result {
        write!(f, "refusal {}: {}", self.number(), self.meaning())
    }
}

impl std::error::Error for Refusal {}

#[cfg(test)]
mod tests {
    use super::*;

    #[test]
    fn number_and_words_are_shown() {
        assert_eq!(Refusal::NO_TILE.to_string(), "refusal 1: no tile located in the strip");
        assert_eq!(Refusal::new(24).to_string(), "refusal 24: the coded height is under 16");
        assert_eq!(Refusal::new(27).to_string(), "refusal 27: a number that this version has no words for");
    }

    #[test]
    fn no_two_meanings_are_alike() {
        let meanings: Vec<&str> = (1..).map_while(meaning).collect();
        assert_eq!((meaning(0), meanings.len()), (None, 26));
        for (i, words) in meanings.iter().enumerate() {
            assert!(!meanings[..i].contains(words));
        }
    }
}
