//! Files that are made to be slow: the work stays below what the file's length allows.

use super::search::{DIRECTORIES, STRIPS};
use super::*;
use std::cell::Cell;

thread_local! {
    /// Numbers read so far.
    pub static NUMBERS: Cell<u64> = const { Cell::new(0) };
}

const LENGTH: usize = 4_000_000;

/// The bytes of an entry with 32-bit values, of which there are `count`.
fn entry(tag: u16, count: u32, value: u32) -> Vec<u8> {
    [&tag.to_le_bytes()[..], &[4, 0], &count.to_le_bytes(), &value.to_le_bytes()].concat()
}

fn directory(entries: &[Vec<u8>], next: u32) -> Vec<u8> {
    [&(entries.len() as u16).to_le_bytes()[..], &entries.concat(), &next.to_le_bytes()].concat()
}

/// A file of one byte value, with the first directory at 8 and other parts.
fn file(fill: u8, first: &[u8], parts: &[(usize, &[u8])]) -> Vec<u8> {
    let mut file = vec![fill; LENGTH];
    for (at, bytes) in [(0, &b"II*\0\x08\0\0\0"[..]), (8, first)].iter().chain(parts) {
        file[*at..at + bytes.len()].copy_from_slice(bytes);
    }
    file
}

fn words(words: impl Iterator<Item = u32>) -> Vec<u8> {
    words.flat_map(u32::to_le_bytes).collect()
}

/// What is told of a file; the directories named, the strips tried and the bytes paid for.
fn walk(file: &[u8]) -> (ArwError, usize, usize, u64) {
    NUMBERS.set(0);
    let mut search = Search::new(Tiff::open(file).unwrap());
    let error = search.run().unwrap_err();
    assert!(search.named.len() <= DIRECTORIES && search.tried.len() <= STRIPS);
    assert!(NUMBERS.get() <= file.len() as u64, "{}", NUMBERS.get());
    (error, search.named.len(), search.tried.len(), file.len() as u64 - search.left)
}

/// 1,000 directories of 65,535 entries each, one byte apart: five of them fit the file's length. What
/// they name as the next one lies past its end.
#[test]
fn overlapping_directories() {
    let subs = words((0..1000).map(|k| 100_000 + k));
    let first = directory(&[entry(330, 1000, 1000)], 0);
    let spent = (2 + 12) + 4000 + 5 * (2 + 12 * 65_535);
    assert_eq!(walk(&file(0xff, &first, &[(1000, &subs)])), (ArwError::Tangled, 1002, 0, spent));
}

/// A directory of 65,535 SubIFDs fields, of which the first counts.
#[test]
fn many_fields_with_one_tag() {
    let fields = vec![entry(330, 1, 8); 65_535];
    let spent = 2 + 12 * 65_535;
    assert_eq!(walk(&file(0, &directory(&fields, 8), &[])), (ArwError::NoRawImage, 1, 0, spent));
}

/// A chain of 200,000 directories; none, and one named again and again.
#[test]
fn long_chains() {
    let link = |k: u32| directory(&[entry(254, 1, 0)], 8 + 18 * (k + 1));
    let chain: Vec<u8> = (0..200_000).flat_map(link).collect();
    assert_eq!(walk(&file(0, &chain, &[])), (ArwError::Tangled, 1024, 0, 1024 * 14));
    assert_eq!(walk(&file(0, &[], &[(4, &[0])])), (ArwError::NoRawImage, 0, 0, 0));
    assert_eq!(walk(&file(0, &directory(&[], 8), &[])), (ArwError::NoRawImage, 1, 0, 2));
}

/// 900,000 SubIFDs: each another, and all the same.
#[test]
fn many_subdirectories() {
    let first = directory(&[entry(330, 900_000, 100_000)], 0);
    let others = words((0..900_000).map(|k| 26 + 2 * k));
    let (error, named, ..) = walk(&file(0, &first, &[(100_000, &others)]));
    assert_eq!((error, named), (ArwError::Tangled, 1024));
    let same = words((0..900_000).map(|_| 26));
    let spent = 14 + 3_600_000 + 2;
    assert_eq!(walk(&file(0, &first, &[(100_000, &same)])), (ArwError::NoRawImage, 2, 0, spent));
}

/// A strip of 16 entries that find their header at the last place looked at, but for the last one,
/// which starts at `last`.
fn slow_strip(last: u32) -> Vec<u8> {
    let entries = (0..16).flat_map(|k| [if k < 15 { 600 } else { last }, 0, 0, 0, 0, 0]);
    let mut strip = words([16, 0].into_iter().chain(entries));
    strip.resize(600 + 4096, 0);
    strip.extend(b"0000\0\0\0\0\0\x10\0\x08\x01\0\x6c\0\0\0\x01");
    strip.resize(20_000, 0);
    strip
}

/// The directory of an image of 16 by 16.
fn image(strip: u32, length: u32, next: u32) -> Vec<u8> {
    let fields = [entry(256, 1, 16), entry(257, 1, 16), entry(273, 1, strip), entry(279, 1, length)];
    directory(&fields, next)
}

/// 1,000 images: strips of 1,000 lengths are tried 64 times, one strip once. Each time takes 4,113
/// looks for headers, the most there can be, as the last entry finds none.
#[test]
fn many_images() {
    assert_eq!(crate::find_streams(&slow_strip(600), 16, 16).len(), 16);
    for (step, error, tried) in [(1, ArwError::Tangled, STRIPS), (0, ArwError::NoRawImage, 1)] {
        let next = |k: u32| if k < 999 { 8 + 54 * (k + 1) } else { 0 };
        let chain: Vec<u8> = (0..1000).flat_map(|k| image(1_000_000, 100_000 + step * k, next(k))).collect();
        let file = file(0, &chain, &[(1_000_000, &slow_strip(10_000))]);
        assert_eq!(walk(&file), (error, 1000, tried, 1000 * 50));
    }
}

/// 1,000 images that share a field of 400,000 empty strips: it is read twice, for the first image.
#[test]
fn shared_values() {
    let fields =
        [entry(256, 1, 16), entry(257, 1, 16), entry(273, 400_000, 90_000), entry(279, 400_000, 90_000)];
    let chain: Vec<u8> = (0..1000).flat_map(|k| directory(&fields, 8 + 54 * (k + 1))).collect();
    let spent = 1001 * 50 - 48 + 2 * 1_600_000;
    assert_eq!(walk(&file(0, &chain, &[])), (ArwError::Tangled, 1001, 1, spent));
}
