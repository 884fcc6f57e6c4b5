//! Writes rows of coefficients as a record's payload, the other way round of document 01's
//! 'Coefficients'. Widths are the caller's to choose.

use crate::bits::BitWriter;

/// The greatest width that a decoder takes.
pub const MAX_WIDTH: u32 = 19;

/// One value before the selector acts on it.
#[derive(Debug, Clone, Copy, Default, PartialEq, Eq)]
pub struct Value {
    pub u: u32,
    pub negative: bool,
}

/// Four values that share a width.
pub type Group = [Value; 4];

/// The magnitude of a coefficient: value u under selector s, cut to signed 32 bits.
pub fn scaled(u: u32, selector: u32) -> i32 {
    if selector == 0 || u == 0 {
        return u as i32;
    }
    (((2 * u as u64 + 1) << (selector - 1)) - (u as u64 % 2)) as i32
}

/// The coefficient that a decoder finds for a value.
pub fn coefficient(value: Value, selector: u32) -> i32 {
    let magnitude = scaled(value.u, selector);
    if magnitude > 0 && value.negative {
        -magnitude
    } else {
        magnitude
    }
}

/// Bits of the greatest value in a group.
pub fn least_width(group: &Group) -> u32 {
    group.iter().map(|v| 32 - v.u.leading_zeros()).max().unwrap_or(0)
}

/// Writes the width `to` where the width is `from`.
fn write_update(bits: &mut BitWriter, from: u32, to: u32) {
    if to == from {
        bits.put(0, 1);
    } else if to > from {
        bits.put(0b10, 2);
        bits.unary(to - from);
    } else {
        bits.put(0b11, 2);
        match to {
            0 => bits.put(0, from - 1),
            _ => bits.unary(from - to),
        }
    }
}

/// Writes a zero run of `run` groups where `left` are left.
fn write_run(bits: &mut BitWriter, left: usize, run: usize) {
    if left == 1 {
        return;
    }
    if run == left {
        bits.put(0, (left - 1).ilog2() + 1);
        return;
    }
    let z = run.ilog2();
    bits.unary(z + 1);
    bits.put(run as u32, z);
}

fn write_signs(bits: &mut BitWriter, group: &Group, selector: u32) {
    for value in group {
        if scaled(value.u, selector) > 0 {
            bits.put(value.negative as u32, 1);
        }
    }
}

/// Writes one row. A width holds its group's values and is 0 only over zeros; one above
/// [`MAX_WIDTH`] ends the row, as it does for the decoder.
pub fn write_row(bits: &mut BitWriter, groups: &[Group], widths: &[u32], selector: u32) {
    write_update(bits, 0, widths[0]);
    let mut g = 0;
    while g < groups.len() && widths[g] <= MAX_WIDTH {
        let width = widths[g];
        if width == 0 {
            let run = widths[g..].iter().take_while(|&&w| w == 0).count();
            write_run(bits, groups.len() - g, run);
            g += run;
            if g < groups.len() {
                bits.unary(widths[g]);
            }
            continue;
        }
        for value in &groups[g] {
            bits.put(value.u, width);
        }
        if g + 1 < groups.len() {
            write_update(bits, width, widths[g + 1]);
        }
        write_signs(bits, &groups[g], selector);
        g += 1;
    }
}

#[cfg(test)]
mod tests {
    use super::*;
    use crate::original::{decode_component, CoeffBits};
    use crate::rng::Rng;

    fn random_group(rng: &mut Rng) -> Group {
        let bits = rng.pick(&[0, 0, 0, 1, 2, 3, 5, 8, 12, 19]);
        std::array::from_fn(|_| Value { u: rng.below(1 << bits) as u32, negative: rng.one_in(2) })
    }

    #[test]
    fn what_is_encoded_comes_back() {
        let mut rng = Rng::new(1);
        for _ in 0..20_000 {
            let (columns, rows) = (rng.within(1, 40), rng.within(1, 4));
            let selector = rng.below(16) as u32;
            let mut bits = BitWriter::default();
            let mut expected = Vec::new();
            for _ in 0..rows {
                let groups: Vec<Group> = (0..columns.div_ceil(4)).map(|_| random_group(&mut rng)).collect();
                let widths: Vec<u32> = groups
                    .iter()
                    .map(|g| (least_width(g) + rng.pick(&[0, 0, 0, 1, 5])).min(MAX_WIDTH))
                    .collect();
                write_row(&mut bits, &groups, &widths, selector);
                let values = groups.iter().flatten().take(columns);
                expected.extend(values.map(|&v| coefficient(v, selector)));
            }
            let payload = bits.finish();
            let mut reader = CoeffBits::new(&payload, 0, payload.len());
            let mut found = vec![7; rows * columns];
            for row in found.chunks_mut(columns) {
                decode_component(&mut reader, columns.div_ceil(4), selector, row);
            }
            assert_eq!(reader.status, 0);
            assert_eq!(found, expected);
        }
    }
}
