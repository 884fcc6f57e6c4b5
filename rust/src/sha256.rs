//! SHA-256 as FIPS 180-4 defines it.

mod portable;
#[cfg(target_arch = "x86_64")]
mod x86;

const BLOCK: usize = 64;

#[rustfmt::skip]
const K: [u32; 64] = [
    0x428a2f98, 0x71374491, 0xb5c0fbcf, 0xe9b5dba5, 0x3956c25b, 0x59f111f1, 0x923f82a4, 0xab1c5ed5,
    0xd807aa98, 0x12835b01, 0x243185be, 0x550c7dc3, 0x72be5d74, 0x80deb1fe, 0x9bdc06a7, 0xc19bf174,
    0xe49b69c1, 0xefbe4786, 0x0fc19dc6, 0x240ca1cc, 0x2de92c6f, 0x4a7484aa, 0x5cb0a9dc, 0x76f988da,
    0x983e5152, 0xa831c66d, 0xb00327c8, 0xbf597fc7, 0xc6e00bf3, 0xd5a79147, 0x06ca6351, 0x14292967,
    0x27b70a85, 0x2e1b2138, 0x4d2c6dfc, 0x53380d13, 0x650a7354, 0x766a0abb, 0x81c2c92e, 0x92722c85,
    0xa2bfe8a1, 0xa81a664b, 0xc24b8b70, 0xc76c51a3, 0xd192e819, 0xd6990624, 0xf40e3585, 0x106aa070,
    0x19a4c116, 0x1e376c08, 0x2748774c, 0x34b0bcb5, 0x391c0cb3, 0x4ed8aa4a, 0x5b9cca4f, 0x682e6ff3,
    0x748f82ee, 0x78a5636f, 0x84c87814, 0x8cc70208, 0x90befffa, 0xa4506ceb, 0xbef9a3f7, 0xc67178f2,
];

type Block = [u8; BLOCK];
type State = [u32; 8];

const START: State =
    [0x6a09e667, 0xbb67ae85, 0x3c6ef372, 0xa54ff53a, 0x510e527f, 0x9b05688c, 0x1f83d9ab, 0x5be0cd19];

/// How blocks are hashed. Both ways give the same.
#[derive(Clone, Copy)]
enum Path {
    Portable,
    #[cfg(target_arch = "x86_64")]
    Instructions(x86::Instructions),
}

impl Path {
    /// The fastest that this processor has.
    fn fastest() -> Self {
        #[cfg(target_arch = "x86_64")]
        if let Some(instructions) = x86::Instructions::found() {
            return Path::Instructions(instructions);
        }
        Path::Portable
    }

    fn compress(self, state: &mut State, blocks: &[Block]) {
        match self {
            Path::Portable => portable::compress(state, blocks),
            #[cfg(target_arch = "x86_64")]
            Path::Instructions(instructions) => instructions.compress(state, blocks),
        }
    }
}

/// A hash of the bytes given so far.
pub struct Sha256 {
    path: Path,
    state: State,
    /// The bytes after the last full block, `filled` of them.
    block: Block,
    filled: usize,
    length: u64,
}

impl Default for Sha256 {
    fn default() -> Self {
        Sha256::by(Path::fastest())
    }
}

impl Sha256 {
    fn by(path: Path) -> Self {
        Sha256 { path, state: START, block: [0; BLOCK], filled: 0, length: 0 }
    }

    pub fn update(&mut self, bytes: &[u8]) {
        self.length += bytes.len() as u64;
        let to_fill = if self.filled > 0 { bytes.len().min(BLOCK - self.filled) } else { 0 };
        let (head, rest) = bytes.split_at(to_fill);
        self.keep(head);
        let (blocks, tail) = rest.as_chunks();
        self.path.compress(&mut self.state, blocks);
        self.keep(tail);
    }

    /// Takes bytes that do not go past the end of the kept block.
    fn keep(&mut self, bytes: &[u8]) {
        let end = self.filled + bytes.len();
        self.block[self.filled..end].copy_from_slice(bytes);
        self.filled = end % BLOCK;
        if end == BLOCK {
            self.path.compress(&mut self.state, &[self.block]);
        }
    }

    /// The hash, after a one bit, zeros and the length in bits.
    pub fn finish(mut self) -> [u8; 32] {
        let bits = 8 * self.length;
        let zeros = (2 * BLOCK - 9 - self.filled) % BLOCK;
        self.update(&[0x80]);
        self.update(&[0; BLOCK][..zeros]);
        self.update(&bits.to_be_bytes());
        let mut hash = [0; 32];
        for (bytes, word) in hash.chunks_mut(4).zip(self.state) {
            bytes.copy_from_slice(&word.to_be_bytes());
        }
        hash
    }
}

#[cfg(test)]
mod tests {
    use super::*;
    use std::time::Instant;

    /// The hash of a message given in pieces of these lengths, over and over.
    fn hash(path: Path, message: &[u8], lengths: &[usize]) -> [u8; 32] {
        let mut hash = Sha256::by(path);
        let mut rest = message;
        for length in lengths.iter().cycle() {
            let (piece, after) = rest.split_at(rest.len().min(*length));
            hash.update(piece);
            rest = after;
            if rest.is_empty() {
                break;
            }
        }
        hash.finish()
    }

    /// The standard's examples: none, one block, two blocks, and a million letters.
    fn vectors(path: Path) {
        let long = "abcdefghbcdefghicdefghijdefghijkefghijklfghijklmghijklmnhijklmno\
                    ijklmnopjklmnopqklmnopqrlmnopqrsmnopqrstnopqrstu";
        let million = "a".repeat(1_000_000);
        let vectors = [
            ("", "e3b0c44298fc1c149afbf4c8996fb92427ae41e4649b934ca495991b7852b855"),
            ("abc", "ba7816bf8f01cfea414140de5dae2223b00361a396177a9cb410ff61f20015ad"),
            (
                "abcdbcdecdefdefgefghfghighijhijkijkljklmklmnlmnomnopnopq",
                "248d6a61d20638b8e5c026930c3e6039a33ce45964ff2167f6ecedd419db06c1",
            ),
            (long, "cf5b16a778af8380036ce59e7b0492370b249b11e8f07a51afac45037afee9d1"),
            (&million, "cdc76e5c9914fb9281a1c7e284d73e67f1809a48a497200e046d39ccc7112cd0"),
        ];
        for (message, expected) in vectors {
            for length in [1, 63, 64, 65, 1 << 20] {
                let hash = hash(path, message.as_bytes(), &[length]);
                let hex: String = hash.iter().map(|byte| format!("{byte:02x}")).collect();
                assert_eq!(hex, expected);
            }
        }
    }

    #[test]
    fn vectors_of_the_standard_in_plain_rust() {
        vectors(Path::Portable);
    }

    #[test]
    fn vectors_of_the_standard_by_the_fastest_path() {
        vectors(Path::fastest());
    }

    /// Pseudo-random numbers (xorshift).
    struct Random(u64);

    impl Random {
        fn below(&mut self, limit: usize) -> usize {
            self.0 ^= self.0 << 13;
            self.0 ^= self.0 >> 7;
            self.0 ^= self.0 << 17;
            (self.0 >> 32) as usize % limit
        }

        fn message(&mut self, length: usize) -> Vec<u8> {
            (0..length).map(|_| self.below(256) as u8).collect()
        }
    }

    /// Plain Rust in one piece, held against every path in pieces of 0 to `longest` bytes.
    fn paths_agree(random: &mut Random, length: usize, longest: usize) {
        let message = random.message(length);
        let expected = hash(Path::Portable, &message, &[usize::MAX]);
        for path in [Path::Portable, Path::fastest()] {
            // The 1 is there for lengths that are all 0.
            let lengths: Vec<usize> = (0..20).map(|_| random.below(longest + 1)).chain([1]).collect();
            assert_eq!(hash(path, &message, &[usize::MAX]), expected, "{length} bytes");
            assert_eq!(hash(path, &message, &lengths), expected, "{length} bytes in {lengths:?}");
        }
    }

    #[test]
    fn paths_agree_on_every_short_length() {
        let mut random = Random(1);
        (0..=300).for_each(|length| paths_agree(&mut random, length, 150));
    }

    #[test]
    fn paths_agree_on_long_messages() {
        let mut random = Random(2);
        for length in [1 << 12, 100_003, 1 << 20, (1 << 20) + 63] {
            for longest in [70, 1000, 100_000] {
                paths_agree(&mut random, length, longest);
            }
        }
    }

    /// How fast each path is, and the digest of planes of as many bytes:
    /// `cargo test --release -- --ignored digest_rates --nocapture`.
    #[test]
    #[ignore = "a measurement"]
    fn digest_rates() {
        let numbers: Vec<i32> = (0..32_768_000).map(|i: i32| i.wrapping_mul(747_796_405)).collect();
        let bytes: Vec<u8> = numbers.iter().flat_map(|number| number.to_le_bytes()).collect();
        let (green, others) = numbers.split_at(numbers.len() / 2);
        let (red, blue) = others.split_at(others.len() / 2);
        let rate = |what: &str, work: &dyn Fn() -> [u8; 32]| {
            let seconds = |_| {
                let start = Instant::now();
                std::hint::black_box(work());
                start.elapsed().as_secs_f64()
            };
            let best = (0..9).map(seconds).fold(f64::INFINITY, f64::min);
            println!("{what}: {best:.3} s, {:.0} MB/s", bytes.len() as f64 / best / 1e6);
        };
        println!("{} bytes, best of 9", bytes.len());
        rate("plain Rust", &|| hash(Path::Portable, &bytes, &[usize::MAX]));
        rate("the fastest path", &|| hash(Path::fastest(), &bytes, &[usize::MAX]));
        rate("digest of planes", &|| crate::digest(0, 0, green, red, blue));
    }
}
