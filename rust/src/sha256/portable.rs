//! The compression function in plain Rust, for any processor.

use super::{Block, State, K};

pub fn compress(state: &mut State, blocks: &[Block]) {
    for block in blocks {
        compress_block(state, block);
    }
}

/// The 64 rounds in four turns of 16. From the second turn on, each word of the schedule is made in
/// the round that needs it.
fn compress_block(state: &mut State, block: &Block) {
    let mut w = words(block);
    let mut letters = *state;
    let (turns, _) = K.as_chunks();
    sixteen_rounds(&mut letters, &turns[0], |t| w[t]);
    for k in &turns[1..] {
        sixteen_rounds(&mut letters, k, |t| advance(&mut w, t));
    }
    for (word, more) in state.iter_mut().zip(letters) {
        *word = word.wrapping_add(more);
    }
}

fn words(block: &Block) -> [u32; 16] {
    let (words, _) = block.as_chunks();
    std::array::from_fn(|t| u32::from_be_bytes(words[t]))
}

/// Puts the schedule's next word in the place of the one 16 before it, and gives it.
#[inline(always)]
fn advance(w: &mut [u32; 16], t: usize) -> u32 {
    let (a, b) = (w[(t + 1) % 16], w[(t + 14) % 16]);
    let s0 = a.rotate_right(7) ^ a.rotate_right(18) ^ (a >> 3);
    let s1 = b.rotate_right(17) ^ b.rotate_right(19) ^ (b >> 10);
    w[t] = w[t].wrapping_add(s0).wrapping_add(w[(t + 9) % 16]).wrapping_add(s1);
    w[t]
}

/// Written out, since the rounds are fastest where each has its number at compile time.
#[inline(always)]
fn sixteen_rounds(letters: &mut State, k: &[u32; 16], mut word: impl FnMut(usize) -> u32) {
    macro_rules! rounds {
        ($($t:literal)*) => { $(round::<$t>(letters, k[$t].wrapping_add(word($t)));)* };
    }
    rounds!(0 1 2 3 4 5 6 7 8 9 10 11 12 13 14 15);
}

/// Round T of 16. The letters a to h do not move, their names do: in round T the letter of number i
/// stands at i - T modulo 8.
#[inline(always)]
fn round<const T: usize>(letters: &mut State, sum: u32) {
    let place = |letter: usize| (letter + 16 - T) % 8;
    let [a, b, c, d, e, f, g, h] = std::array::from_fn(|letter| letters[place(letter)]);
    let s1 = e.rotate_right(6) ^ e.rotate_right(11) ^ e.rotate_right(25);
    let choice = g ^ (e & (f ^ g));
    let t1 = h.wrapping_add(sum).wrapping_add(choice).wrapping_add(s1);
    let s0 = a.rotate_right(2) ^ a.rotate_right(13) ^ a.rotate_right(22);
    let majority = b ^ ((a ^ b) & (b ^ c));
    letters[place(3)] = d.wrapping_add(t1);
    letters[place(7)] = t1.wrapping_add(s0).wrapping_add(majority);
}
