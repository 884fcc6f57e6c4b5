//! The stages between coefficients and planes, by name and in their order, with the bounds that are
//! proved for selectors up to 4.

/// A stage, by its place in the list.
#[derive(Debug, Clone, Copy, PartialEq, Eq)]
pub struct Stage(pub usize);

/// What a level's lifts go through.
#[derive(Debug, Clone, Copy, PartialEq, Eq)]
pub enum Part {
    /// The sum of two highs and 2.
    Highs,
    /// The sum of two results at even places.
    Evens,
    Lo,
    Hi,
    Outcome,
}

pub const COEFFICIENT: Stage = Stage(0);
pub const E: Stage = Stage(1);
pub const BAND_0: Stage = Stage(2);
/// A number of the red or the blue plane.
pub const COLOUR: Stage = Stage(18);
pub const FOUR_DETAILS: Stage = Stage(19);
pub const DOUBLED: Stage = Stage(20);
pub const DOUBLED_LESS_P: Stage = Stage(21);
/// Odd columns of green.
pub const O: Stage = Stage(22);
pub const FOUR_O: Stage = Stage(23);
/// Even columns of green.
pub const EVEN: Stage = Stage(24);

/// The stage of a level, 1 to 3.
pub const fn of_level(level: usize, part: Part) -> Stage {
    Stage(3 + 5 * (level - 1) + part as usize)
}

pub const COUNT: usize = 25;

impl Stage {
    pub fn name(self) -> &'static str {
        STAGES[self.0].0
    }

    /// Columns of the stage for each column of band 0, in the stages whose numbers have places.
    pub fn columns(self) -> usize {
        match self.0 {
            2 => 1,
            3..=17 => {
                let (level, part) = ((self.0 - 3) / 5 + 1, (self.0 - 3) % 5);
                let down = part == Part::Lo as usize || part == Part::Hi as usize;
                1 << (level - down as usize)
            }
            22..=24 => 16,
            _ => 8,
        }
    }
}

/// Each stage's name, and what the proof holds its magnitude to (docs/BOUNDS.md).
pub const STAGES: [(&str, i64); COUNT] = [
    ("coefficient", 8_388_599),
    ("E", 16_777_202),
    ("band 0, running sum", 134_184_961),
    ("level 1, two highs and 2", 41_943_005),
    ("level 1, two even results", 314_507_228),
    ("level 1, lo", 146_767_862),
    ("level 1, hi", 20_971_501),
    ("level 1, outcome", 178_225_115),
    ("level 2, two highs and 2", 67_108_811),
    ("level 2, two even results", 415_170_438),
    ("level 2, lo", 190_808_016),
    ("level 2, hi", 33_554_404),
    ("level 2, outcome", 241_139_623),
    ("level 3, two highs and 2", 67_108_811),
    ("level 3, two even results", 540_999_454),
    ("level 3, lo", 253_722_524),
    ("level 3, hi", 33_554_404),
    ("level 3, outcome", 304_054_131),
    ("red, blue", 304_054_131),
    ("green, sum of four details", 33_554_400),
    ("green, 2l", 608_108_262),
    ("green, 2l - p", 616_496_862),
    ("green, odd column o", 308_248_432),
    ("green, sum of four o", 1_232_993_728),
    ("green, even column", 316_637_032),
];

/// A number with its thousands apart.
pub fn thousands(number: i64) -> String {
    let digits = number.unsigned_abs().to_string();
    let mut text = String::new();
    for (i, digit) in digits.chars().enumerate() {
        if i > 0 && (digits.len() - i).is_multiple_of(3) {
            text.push(',');
        }
        text.push(digit);
    }
    format!("{}{text}", if number < 0 { "-" } else { "" })
}

#[cfg(test)]
mod tests {
    use super::*;

    /// The bounds once more, by the proof's steps: a sum lies below the sum of the bounds, a
    /// quarter or a half of it is rounded up, and E stands in hh of levels 2 and 3 alone.
    #[test]
    fn bounds_by_intervals() {
        let bound = |stage: Stage| STAGES[stage.0].1;
        let even = |low: i64, high: i64| low + (2 * high + 6) / 4;
        let lift = |low: i64, high: i64| high + even(low, high);
        let (c, e, mut ll) = (bound(COEFFICIENT) + 1, bound(E), bound(BAND_0));
        assert_eq!((e, ll), (2 * c + 2, 4095 * 32_768 + 1));
        for level in 1..=3 {
            let of = |part| bound(of_level(level, part));
            let hh = if level == 1 { c } else { e };
            assert_eq!((of(Part::Lo), of(Part::Hi)), (lift(ll, c), lift(c, hh)));
            assert_eq!(of(Part::Highs), 2 * of(Part::Hi) + 3);
            assert_eq!(of(Part::Evens), 2 * even(of(Part::Lo), of(Part::Hi)));
            ll = lift(of(Part::Lo), of(Part::Hi));
            assert_eq!(of(Part::Outcome), ll);
        }
        assert_eq!((bound(COLOUR), bound(FOUR_DETAILS), bound(DOUBLED)), (ll, 4 * c, 2 * ll));
        assert_eq!((bound(DOUBLED_LESS_P), bound(O)), (2 * ll + c, ll + c / 2 + 1));
        assert_eq!((bound(FOUR_O), bound(EVEN)), (4 * bound(O), bound(O) + c));
    }

    #[test]
    fn thousands_stand_apart() {
        assert_eq!([0, -12, 1000, -1_234_567].map(thousands), ["0", "-12", "1,000", "-1,234,567"]);
    }
}
