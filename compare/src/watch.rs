//! What is looked at in a synthesis: the largest magnitude of each stage, and whether each pass is
//! T.800's 5/3 filter.

use crate::stages::{self, Stage};

/// A row and a column.
pub type Place = (usize, usize);

/// What is shown of a synthesis.
pub trait Watch {
    /// A number of a stage.
    fn number(&mut self, stage: Stage, place: Place, number: i64);

    /// A partial sum or the outcome of a shift on the way to a number of a stage.
    fn on_the_way(&mut self, _stage: Stage, _number: i64) {}

    /// One lift and what came out of it; `lead` is 1 if the high band leads.
    fn pass(&mut self, _low: &[i64], _high: &[i64], _lead: usize, _outcome: &[i64]) {}
}

/// The largest magnitudes of the stages, and whether every pass was T.800's filter.
#[derive(Debug, Clone, PartialEq, Eq)]
pub struct Held {
    pub largest: [i64; stages::COUNT],
    pub all_within_32: bool,
    pub all_filters: bool,
}

impl Default for Held {
    fn default() -> Self {
        Held { largest: [0; stages::COUNT], all_within_32: true, all_filters: true }
    }
}

impl Watch for Held {
    fn number(&mut self, stage: Stage, _place: Place, number: i64) {
        self.on_the_way(stage, number);
    }

    fn on_the_way(&mut self, stage: Stage, number: i64) {
        let largest = &mut self.largest[stage.0];
        *largest = number.abs().max(*largest);
        self.all_within_32 &= i32::try_from(number).is_ok();
    }

    fn pass(&mut self, low: &[i64], high: &[i64], lead: usize, outcome: &[i64]) {
        self.all_filters &= t800(&joined(low, high, lead), lead as i64) == outcome;
    }
}

/// T.800's one-dimensional 5/3 synthesis of an interleaved signal whose first place is `first`,
/// extended symmetrically at both ends.
pub fn t800(signal: &[i64], first: i64) -> Vec<i64> {
    let period = 2 * (signal.len() as i64 - 1);
    let y = |i: i64| {
        let along = (i - first).rem_euclid(period);
        signal[along.min(period - along) as usize]
    };
    let even = |n: i64| y(2 * n) - (y(2 * n - 1) + y(2 * n + 1) + 2).div_euclid(4);
    let odd = |n: i64| y(2 * n + 1) + (even(n) + even(n + 1)).div_euclid(2);
    let x = |i: i64| if i % 2 == 0 { even(i / 2) } else { odd(i / 2) };
    (first..first + signal.len() as i64).map(x).collect()
}

/// Both bands as one signal: the lows at even places, counted from `lead`.
pub fn joined(low: &[i64], high: &[i64], lead: usize) -> Vec<i64> {
    let place = |i: usize| if (i + lead).is_multiple_of(2) { low[i / 2] } else { high[i / 2] };
    (0..low.len() + high.len()).map(place).collect()
}
