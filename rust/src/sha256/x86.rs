//! The compression function with the SHA instructions of x86-64.

use super::{Block, State, K};
use std::arch::x86_64::*;

/// Made only where the processor has the instructions.
#[derive(Clone, Copy)]
pub struct Instructions(());

impl Instructions {
    pub fn found() -> Option<Self> {
        let all = is_x86_feature_detected!("sha")
            && is_x86_feature_detected!("ssse3")
            && is_x86_feature_detected!("sse4.1");
        all.then_some(Instructions(()))
    }

    pub fn compress(self, state: &mut State, blocks: &[Block]) {
        // SAFETY: `found` alone makes `self`, and only after it saw every feature that `compress` needs.
        unsafe { compress(state, blocks) }
    }
}

/// The state is in two registers while it is worked on: a, b, e, f and c, d, g, h, the first letter
/// highest.
#[target_feature(enable = "sha,ssse3,sse4.1")]
fn compress(state: &mut State, blocks: &[Block]) {
    let [a, b, c, d, e, f, g, h] = *state;
    let mut registers = [join([f, e, b, a]), join([h, g, d, c])];
    for block in blocks {
        let [abef, cdgh] = compress_block(registers, block);
        registers = [_mm_add_epi32(registers[0], abef), _mm_add_epi32(registers[1], cdgh)];
    }
    let [[f, e, b, a], [h, g, d, c]] = [split(registers[0]), split(registers[1])];
    *state = [a, b, c, d, e, f, g, h];
}

/// The 64 rounds, four at a time; `w` has 16 words of the schedule, the next four of them first.
#[target_feature(enable = "sha,ssse3,sse4.1")]
fn compress_block(mut registers: [__m128i; 2], block: &Block) -> [__m128i; 2] {
    let mut w = words(block);
    for (turn, k) in K.as_chunks().0.iter().enumerate() {
        registers = four_rounds(registers, _mm_add_epi32(w[0], join(*k)));
        // The last 16 words need no others after them.
        let next = if turn < 12 { following(w) } else { w[0] };
        w = [w[1], w[2], w[3], next];
    }
    registers
}

#[target_feature(enable = "sha,ssse3,sse4.1")]
fn four_rounds([abef, cdgh]: [__m128i; 2], sums: __m128i) -> [__m128i; 2] {
    const UPPER_HALF: i32 = 0b11_10;
    let after_two = _mm_sha256rnds2_epu32(cdgh, abef, sums);
    let after_four = _mm_sha256rnds2_epu32(abef, after_two, _mm_shuffle_epi32::<UPPER_HALF>(sums));
    [after_four, after_two]
}

/// The four words of the schedule that come after 16.
#[target_feature(enable = "sha,ssse3,sse4.1")]
fn following([w0, w4, w8, w12]: [__m128i; 4]) -> __m128i {
    let w9 = _mm_alignr_epi8::<4>(w12, w8);
    _mm_sha256msg2_epu32(_mm_add_epi32(_mm_sha256msg1_epu32(w0, w4), w9), w12)
}

#[target_feature(enable = "sse2")]
fn words(block: &Block) -> [__m128i; 4] {
    let (words, _) = block.as_chunks();
    let word = |t: usize| u32::from_be_bytes(words[t]);
    std::array::from_fn(|i| join([word(4 * i), word(4 * i + 1), word(4 * i + 2), word(4 * i + 3)]))
}

/// Four words in a register, the first lowest.
#[target_feature(enable = "sse2")]
fn join([w0, w1, w2, w3]: [u32; 4]) -> __m128i {
    _mm_set_epi32(w3 as i32, w2 as i32, w1 as i32, w0 as i32)
}

#[target_feature(enable = "sse4.1")]
fn split(four: __m128i) -> [u32; 4] {
    [
        _mm_extract_epi32::<0>(four) as u32,
        _mm_extract_epi32::<1>(four) as u32,
        _mm_extract_epi32::<2>(four) as u32,
        _mm_extract_epi32::<3>(four) as u32,
    ]
}
