//! Damaged TIFFs: every end is one of those promised, and what is found is what a plain reading finds.
//! `ARW6_FUZZ=count` and `ARW6_FUZZ_SEED=seed` run more cases than the test has by itself.

#[path = "support/plain.rs"]
mod plain;
mod support;

use arw6::{find_raw_image, find_streams, ArwError};
use plain::Found;
use support::tiff::{example_strip, made_files};

const FRAME: (usize, usize) = (16, 16);
const STRIP: usize = 640;

/// Files are cut to this length, with which the limits of directories and strips are out of reach.
const LONGEST: usize = 2000;

/// How many files came to each of `ENDS`.
type Ends = [u64; 7];

const ENDS: [&str; 7] =
    ["raw image", "not a TIFF", "BigTIFF", "above 4 GiB", "tangled", "truncated", "no raw image"];

/// Checks the outcome for a file, and says which of `ENDS` it is. Files that the plain reading reads
/// more of than they are long may be told as tangled.
fn check(file: &[u8]) -> usize {
    let (end, found) = match find_raw_image(file) {
        Ok(image) => {
            let Found { width, height, offset, length } = Found::from(&image);
            assert!(file[offset..offset + length].as_ptr_range() == image.strip.as_ptr_range());
            assert!(!find_streams(image.strip, width, height).is_empty());
            (0, Some(Found::from(&image)))
        }
        Err(error) => (end(error, file.len() as u64), None),
    };
    let (expected, read) = plain::find(file);
    assert!(read > file.len() || (found == expected && end != 4), "{found:?} {expected:?}");
    end
}

fn end(error: ArwError, file_length: u64) -> usize {
    match error {
        ArwError::NotTiff => 1,
        ArwError::BigTiff => 2,
        ArwError::Above4GiB { value } if value > u64::from(u32::MAX) => 3,
        ArwError::Tangled => 4,
        ArwError::Truncated { needed, length } if needed > length && length == file_length => 5,
        ArwError::NoRawImage => 6,
        _ => panic!("{error:?}"),
    }
}

/// The places of a made file outside of its strip.
fn container(file: &[u8]) -> Vec<usize> {
    let strip = find_raw_image(file).unwrap().offset;
    (0..strip).chain(strip + STRIP..file.len()).collect()
}

/// Every byte outside of the strip with every value.
#[test]
fn each_byte_with_each_value() {
    let mut ends = Ends::default();
    for mut file in made_files(FRAME, &example_strip()) {
        for at in container(&file) {
            let was = file[at];
            for value in 0..=255 {
                file[at] = value;
                ends[check(&file)] += 1;
            }
            file[at] = was;
        }
    }
    assert!(ends[0] > 0 && ends[1] > 0 && ends[2] > 0 && ends[3] > 0 && ends[5] > 0 && ends[6] > 0);
}

/// SplitMix64.
struct Random(u64);

impl Random {
    fn next(&mut self) -> u64 {
        self.0 = self.0.wrapping_add(0x9e37_79b9_7f4a_7c15);
        let mut z = self.0;
        z = (z ^ (z >> 30)).wrapping_mul(0xbf58_476d_1ce4_e5b9);
        z = (z ^ (z >> 27)).wrapping_mul(0x94d0_49bb_1331_11eb);
        z ^ (z >> 31)
    }

    /// A number below `end`, or 0.
    fn below(&mut self, end: usize) -> usize {
        (self.next() % end.max(1) as u64) as usize
    }

    fn one<T: Copy>(&mut self, of: &[T]) -> T {
        of[self.below(of.len())]
    }
}

/// A made file, and its places outside of the strip.
struct Seed {
    file: Vec<u8>,
    places: Vec<usize>,
}

/// A file that is being damaged.
struct Damage<'a> {
    random: Random,
    seeds: &'a [Seed],
    seed: &'a Seed,
    file: Vec<u8>,
}

/// Numbers that TIFFs give a meaning to, and the ends of ranges.
#[rustfmt::skip]
const NUMBERS: [u32; 30] = [
    0, 1, 2, 3, 4, 5, 7, 8, 12, 13, 16, 18, 42, 43, 255, 256, 257, 273, 279, 330, 512, 640, 0x7fff, 0x8000,
    0xffff, 0x1_0000, 0x7fff_ffff, 0x8000_0000, 0xffff_fff0, 0xffff_ffff,
];

impl<'a> Damage<'a> {
    fn new(seeds: &'a [Seed], seed: u64) -> Damage<'a> {
        let mut random = Random(seed);
        let seed = &seeds[random.below(seeds.len())];
        Damage { random, seeds, seed, file: seed.file.clone() }
    }

    /// A place in the file, one outside of the strip as a rule.
    fn place(&mut self) -> usize {
        let place = match self.random.below(8) {
            0 => self.random.below(self.file.len()),
            _ => self.random.one(&self.seed.places),
        };
        place.min(self.file.len())
    }

    /// A number with a meaning: known, near the file's length, or an offset.
    fn number(&mut self) -> u32 {
        let length = self.file.len() as u32;
        match self.random.below(4) {
            0 => self.random.below(self.file.len()) as u32,
            1 => length.wrapping_add(self.random.below(9) as u32).wrapping_sub(4),
            2 => length.wrapping_sub(STRIP as u32).wrapping_add(self.random.below(5) as u32).wrapping_sub(2),
            _ => self.random.one(&NUMBERS),
        }
    }

    fn overwrite(&mut self, at: usize, bytes: &[u8]) {
        let end = self.file.len().min(at + bytes.len());
        self.file[at..end].copy_from_slice(&bytes[..end - at]);
    }

    /// Writes the last `size` bytes of a number, in the file's byte order.
    fn write(&mut self, at: usize, number: u32, size: usize) {
        match self.seed.file[0] {
            b'I' => self.overwrite(at, &number.to_le_bytes()[..size]),
            _ => self.overwrite(at, &number.to_be_bytes()[4 - size..]),
        }
    }

    /// Some bytes of one of the seeds.
    fn piece(&mut self) -> Vec<u8> {
        let other = &self.seeds[self.random.below(self.seeds.len())];
        let start = self.random.one(&other.places);
        let end = other.file.len().min(start + 1 + self.random.below(70));
        other.file[start..end].to_vec()
    }

    /// Appends a copy of some bytes, a directory perhaps, and names its place.
    fn duplicate(&mut self) {
        let start = self.place() & !1;
        let end = self.file.len().min(start + 66);
        let (at, place) = (self.file.len(), self.place() & !1);
        self.file.extend_from_within(start.min(end)..end);
        self.write(place, at as u32, 4);
    }

    fn step(&mut self) {
        let at = self.place();
        match self.random.below(9) {
            0 if at < self.file.len() => self.file[at] ^= 1 << self.random.below(8),
            0 | 1 => {
                let byte = self.random.next() as u8;
                self.overwrite(at, &[byte]);
            }
            2 | 3 => {
                let number = self.number();
                self.write(at & !1, number, 2);
            }
            4 | 5 => {
                let number = self.number();
                self.write(at & !1, number, 4);
            }
            6 => {
                let piece = self.piece();
                self.overwrite(at, &piece);
            }
            7 => self.duplicate(),
            _ => self.resize(at),
        }
        self.file.truncate(LONGEST);
    }

    /// Cuts the file, takes bytes out of it or puts some in.
    fn resize(&mut self, at: usize) {
        let end = self.file.len().min(at + 1 + self.random.below(16));
        match self.random.below(3) {
            0 => self.file.truncate(at),
            1 => drop(self.file.drain(at..end)),
            _ => {
                let piece = self.piece();
                drop(self.file.splice(at..at, piece));
            }
        }
    }
}

/// Says which case it was that failed.
struct Case {
    seed: u64,
    number: u64,
}

impl Drop for Case {
    fn drop(&mut self) {
        if std::thread::panicking() {
            eprintln!("ARW6_FUZZ_SEED={} failed at case {}", self.seed, self.number);
        }
    }
}

fn variable(name: &str, default: u64) -> u64 {
    std::env::var(name).map_or(default, |value| value.parse().unwrap())
}

#[test]
fn damaged_files() {
    let (count, seed) = (variable("ARW6_FUZZ", 200_000), variable("ARW6_FUZZ_SEED", 6));
    let made = made_files(FRAME, &example_strip());
    let seeds: Vec<Seed> = made.into_iter().map(|file| Seed { places: container(&file), file }).collect();
    let mut ends = Ends::default();
    for number in 0..count {
        let _case = Case { seed, number };
        let mut damage = Damage::new(&seeds, Random(seed).next().wrapping_add(number));
        for _ in 0..=damage.random.below(6) {
            damage.step();
        }
        ends[check(&damage.file)] += 1;
    }
    println!("{count} files of seed {seed}");
    ENDS.iter().zip(ends).for_each(|(end, count)| println!("{count:>10} {end}"));
    assert!(count < 200_000 || ends.iter().all(|&count| count > 0));
}
