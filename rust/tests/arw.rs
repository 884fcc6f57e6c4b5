//! The raw image in TIFFs made by hand: where it is found, and what is told where it is not.

mod support;

use arw6::{decode_stream, find_raw_image, find_streams, is_tiff, ArwError};
use support::tiff::*;
use support::{strip, DIGESTS, FRAME};

/// The small frame, that of the example strip.
const SMALL: (usize, usize) = (16, 16);

/// The length of the example strip.
const LENGTH: usize = 640;

/// The file's image is this strip at this place.
fn assert_found(file: &[u8], frame: (usize, usize), strip: &[u8], offset: u64) {
    let image = find_raw_image(file).unwrap();
    assert_eq!((image.width, image.height, image.offset as u64), (frame.0, frame.1, offset));
    assert!(image.strip == strip);
}

/// What is told of a file without a raw image.
fn told(file: &[u8]) -> ArwError {
    find_raw_image(file).unwrap_err()
}

/// A file with the example strip at 8, then what is written after it; the first directory is returned.
fn after_strip(order: Order, write: impl Fn(&mut Writer) -> u64) -> Vec<u8> {
    let mut file = Writer::new(order);
    assert_eq!(file.append(&example_strip()), 8);
    let first = write(&mut file);
    file.first(first)
}

/// The same, in both byte orders, finds the example strip.
fn assert_example(write: impl Fn(&mut Writer) -> u64) {
    for order in ORDERS {
        assert_found(&after_strip(order, &write), SMALL, &example_strip(), 8);
    }
}

/// The same, in both byte orders, is refused.
fn assert_told(error: ArwError, write: impl Fn(&mut Writer) -> u64) {
    for order in ORDERS {
        assert_eq!(told(&after_strip(order, &write)), error);
    }
}

/// The example's fields.
fn example() -> Vec<Field> {
    image(SMALL, 8, LENGTH)
}

/// An image without tiles: its strip lies in the first half of the example's.
fn plain() -> Vec<Field> {
    image((160, 120), 8, 320)
}

/// The example's fields, one of them another.
fn example_but(other: Field) -> Vec<Field> {
    example().into_iter().map(|field| if field.tag == other.tag { other.clone() } else { field }).collect()
}

#[test]
fn the_sample_decodes_to_its_digests() {
    for file in made_files(FRAME, strip()) {
        let image = find_raw_image(&file).unwrap();
        assert_eq!((image.width, image.height), FRAME);
        assert!(file[image.offset..image.offset + image.strip.len()] == *strip());
        let tiles = find_streams(image.strip, image.width, image.height);
        assert_eq!(tiles.len(), DIGESTS.lines().count());
        for (tile, line) in tiles.iter().zip(DIGESTS.lines()) {
            let stream = &image.strip[tile.offset..tile.offset + tile.length];
            let digest = decode_stream(stream, false).unwrap().digest();
            let hash: String = digest.iter().map(|byte| format!("{byte:02x}")).collect();
            assert!(line.contains(&hash), "{hash}");
        }
    }
}

#[test]
fn in_the_chain() {
    assert_example(|file| file.directory(&example()));
    assert_example(|file| {
        let [raw, other, main] = [example(), plain(), plain()].map(|fields| file.directory(&fields));
        file.next(main, 4, other);
        file.next(other, 4, raw);
        main
    });
}

#[test]
fn in_subdirectories() {
    assert_example(|file| {
        let [raw, other] = [example(), plain()].map(|fields| file.directory(&fields));
        file.directory(&with_subs(plain(), &[other, raw]))
    });
    assert_example(|file| {
        let mut place = file.directory(&example());
        for _ in 0..1000 {
            place = file.directory(&[field(SUBS, LONG, &[place])]);
        }
        place
    });
    assert_example(|file| {
        let [raw, sub] = [example(), plain()].map(|fields| file.directory(&fields));
        file.next(sub, 4, raw);
        file.directory(&with_subs(plain(), &[sub]))
    });
}

/// The chain comes first, then SubIFDs in their order, each with its chain, then their SubIFDs.
#[test]
fn the_first_image_with_tiles_is_taken() {
    for order in ORDERS {
        let strips: Vec<u8> = [example_strip(), example_strip(), example_strip(), example_strip()].concat();
        let mut file = Writer::new(order);
        let start = file.append(&strips);
        let at = |k: u64| start + k * LENGTH as u64;
        let raws: Vec<u64> = (0..4).map(|k| file.directory(&image(SMALL, at(k), LENGTH))).collect();
        let deep = file.directory(&with_subs(plain(), &[raws[3]]));
        file.next(deep, 5, raws[1]);
        let main = file.directory(&with_subs(plain(), &[deep, raws[2]]));
        let spoil = |file: &mut Writer, k: u64| file.put(at(k) + 512, 0, 4);
        let mut chained = file.clone();
        chained.next(main, 5, raws[0]);
        for k in 0..4 {
            assert_found(&chained.clone().first(main), SMALL, &example_strip(), at(k));
            spoil(&mut chained, k);
        }
        assert_eq!(told(&chained.first(main)), ArwError::NoRawImage);
    }
}

#[test]
fn strips_that_follow_each_other_are_one() {
    let parts = |offsets: &[u64], lengths: &[u64]| {
        let mut fields = example_but(field(OFFSETS, LONG, offsets));
        fields[3] = field(LENGTHS, SHORT, lengths);
        fields
    };
    assert_example(|file| file.directory(&parts(&[8, 408], &[400, 240])));
    assert_example(|file| file.directory(&parts(&[8, 108, 108, 508], &[100, 0, 400, 140])));
    let not_one: [(&[u64], &[u64]); 7] = [
        (&[8, 409], &[400, 239]),
        (&[8, 407], &[400, 241]),
        (&[408, 8], &[240, 400]),
        (&[8, 408], &[640]),
        (&[8], &[400, 240]),
        (&[8], &[]),
        (&[], &[]),
    ];
    for (offsets, lengths) in not_one {
        assert_told(ArwError::NoRawImage, |file| file.directory(&parts(offsets, lengths)));
    }
}

/// A directory that names itself, two that name each other, and a SubIFD that is its parent.
#[test]
fn loops_end() {
    assert_told(ArwError::NoRawImage, |file| {
        let main = file.directory(&plain());
        file.next(main, 4, main);
        main
    });
    let loops = |file: &mut Writer, fields: &[Field]| {
        let other = file.directory(&plain());
        let sub = file.directory(&with_subs(fields.to_vec(), &[other]));
        let main = file.directory(&with_subs(plain(), &[other, sub]));
        file.next(main, 5, other);
        file.next(other, 4, main);
        file.next(sub, 5, sub);
        file.put(sub + 2 + 12 * 4 + 8, main, 4);
        main
    };
    assert_told(ArwError::NoRawImage, |file| loops(file, &plain()));
    assert_example(|file| loops(file, &example()));
}

#[test]
fn counts_of_none_and_of_the_most() {
    assert_told(ArwError::NoRawImage, |file| file.directory(&[]));
    assert_told(ArwError::NoRawImage, |_| 0);
    let many = |fields: Vec<Field>| {
        let others = vec![field(254, LONG, &[0]); 65_535 - fields.len()];
        [others, fields].concat()
    };
    assert_example(|file| file.directory(&many(example())));
    assert_told(ArwError::NoRawImage, |file| file.directory(&many(plain())));
    for order in ORDERS {
        let mut file = after_strip(order, |file| file.directory(&example()));
        let main = file.len() - (2 + 12 * 4 + 4);
        file[main..main + 2].fill(0xff);
        let (needed, length) = (main as u64 + 2 + 12 * 65_535, file.len() as u64);
        assert_eq!(told(&file), ArwError::Truncated { needed, length });
    }
}

/// Whole numbers of every type are read; others make the image none, and are no error.
#[test]
fn types() {
    for kind in [SHORT, LONG, IFD, LONG8, IFD8] {
        for (tag, value) in [(WIDTH, 16), (HEIGHT, 16), (OFFSETS, 8), (LENGTHS, 640)] {
            assert_example(|file| file.directory(&example_but(field(tag, kind, &[value]))));
        }
    }
    for kind in [0, 1, 2, 5, 6, 7, 9, 10, 11, 12, 17, 19, 0xffff] {
        for (tag, value) in [(WIDTH, 16), (HEIGHT, 16), (OFFSETS, 8), (LENGTHS, 640)] {
            let odd = example_but(field(tag, kind, &[value]));
            assert_told(ArwError::NoRawImage, |file| file.directory(&odd));
            assert_example(|file| {
                let raw = file.directory(&example());
                file.directory(&with_subs(odd.clone(), &[raw]))
            });
        }
        assert_told(ArwError::NoRawImage, |file| {
            let raw = file.directory(&example());
            file.directory(&[field(SUBS, kind, &[raw])])
        });
    }
}

/// A field that is missing, without a value or with two of them.
#[test]
fn missing_and_odd_fields() {
    for (k, tag) in [WIDTH, HEIGHT, OFFSETS, LENGTHS].into_iter().enumerate() {
        let mut fields = example();
        fields.remove(k);
        assert_told(ArwError::NoRawImage, |file| file.directory(&fields));
        for values in [&[][..], &[16, 16], &[16, 16, 16]] {
            assert_told(ArwError::NoRawImage, |file| file.directory(&example_but(field(tag, LONG, values))));
        }
    }
    assert_told(ArwError::NoRawImage, |file| file.directory(&[field(SUBS, LONG, &[])]));
    assert_told(ArwError::NoRawImage, |file| {
        let empty = [field(OFFSETS, LONG8, &[]), field(LENGTHS, LONG8, &[])];
        file.directory(&[&example()[..2], &empty].concat())
    });
}

/// The first of two fields with one tag counts, where it has a number.
#[test]
fn fields_that_are_there_twice() {
    let twice = |first: Field| [vec![first], example()].concat();
    assert_told(ArwError::NoRawImage, |file| file.directory(&twice(field(WIDTH, LONG, &[32]))));
    assert_example(|file| file.directory(&twice(field(WIDTH, 2, &[32]))));
    assert_example(|file| file.directory(&[example(), vec![field(WIDTH, LONG, &[32])]].concat()));
}

#[test]
fn images_without_tiles() {
    for frame in [(0, 16), (16, 0), (16, 18), (32, 16), (65_535, 65_535)] {
        assert_told(ArwError::NoRawImage, |file| file.directory(&image(frame, 8, LENGTH)));
    }
    assert_told(ArwError::NoRawImage, |file| file.directory(&image(SMALL, 8, 0)));
    assert_told(ArwError::NoRawImage, |file| file.directory(&image(SMALL, 8, LENGTH - 1)));
    assert_told(ArwError::NoRawImage, |file| file.directory(&image(SMALL, 7, LENGTH)));
}

#[test]
fn numbers_above_4_gib() {
    const FIRST: u64 = 1 << 32;
    for value in [FIRST, FIRST + 8, u64::MAX] {
        for (tag, kind) in [(WIDTH, LONG8), (HEIGHT, IFD8), (OFFSETS, LONG8), (LENGTHS, LONG8)] {
            let above = example_but(field(tag, kind, &[value]));
            assert_told(ArwError::Above4GiB { value }, |file| file.directory(&above));
        }
        assert_told(ArwError::Above4GiB { value }, |file| {
            let past_the_end = file.directory(&image(SMALL, FIRST - 1, FIRST as usize - 1));
            file.directory(&[field(SUBS, IFD8, &[value, past_the_end])])
        });
        assert_example(|file| {
            let raw = file.directory(&example());
            file.directory(&[field(SUBS, IFD8, &[value, raw])])
        });
    }
}

/// A part past the end of the file is told with its last byte, the greatest if there are several.
#[test]
fn parts_past_the_end() {
    const FAR: u64 = u32::MAX as u64;
    for order in ORDERS {
        let said = |needed: u64, write: &dyn Fn(&mut Writer) -> u64| {
            let file = after_strip(order, write);
            assert_eq!(told(&file), ArwError::Truncated { needed, length: file.len() as u64 });
        };
        said(FAR + 2, &|_| FAR);
        said(FAR + 640, &|file| file.directory(&image(SMALL, FAR, LENGTH)));
        said(8 + FAR, &|file| file.directory(&image(SMALL, 8, FAR as usize)));
        said(FAR - 8, &|file| file.directory(&[field(SUBS, LONG, &[9_000, FAR - 10, 10_000])]));
        said(FAR + 2, &|file| {
            let main = file.directory(&plain());
            file.next(main, 4, FAR);
            main
        });
        said(5_000 + 4 * FAR, &|file| {
            let main = file.directory(&example());
            file.put(main + 2 + 2 * 12 + 4, FAR, 4);
            file.put(main + 2 + 2 * 12 + 8, 5_000, 4);
            main
        });
    }
}

/// What lies past the end does not hide what lies before it.
#[test]
fn a_whole_image_beside_parts_past_the_end() {
    assert_example(|file| {
        let raw = file.directory(&example());
        let main = file.directory(&with_subs(image(SMALL, 9_000, LENGTH), &[90_000, raw, 80_000]));
        file.next(main, 5, 70_000);
        main
    });
}

/// The last directory may end before the offset of a next one.
#[test]
fn a_directory_at_the_very_end() {
    for order in ORDERS {
        let file = after_strip(order, |file| file.directory(&example()));
        assert_found(&file[..file.len() - 4], SMALL, &example_strip(), 8);
    }
}

/// Each length of a camera's file but the whole is told as truncated, with its last byte.
#[test]
fn each_length_of_a_camera_file() {
    for order in ORDERS {
        let file = camera_file(order, SMALL, &example_strip());
        let whole = file.len() as u64;
        assert_found(&file, SMALL, &example_strip(), whole - LENGTH as u64);
        for length in 0..whole {
            let error = told(&file[..length as usize]);
            match error {
                ArwError::NotTiff => assert!(length < 4),
                ArwError::Truncated { needed, length: told } => {
                    assert!(length >= 4 && told == length && length < needed && needed <= whole);
                    assert!(length < whole - LENGTH as u64 || needed == whole);
                }
                _ => panic!("{length}: {error}"),
            }
        }
    }
}

/// Of files whose directories stand last, all but the next offset of the last one is needed.
#[test]
fn each_length_of_nested_files() {
    for (order, kinds) in ORDERS.into_iter().flat_map(|order| KINDS.map(|kinds| (order, kinds))) {
        let file = nested_file(order, kinds, SMALL, &example_strip());
        let last = file.len() - 4;
        for length in 4..=file.len() {
            match find_raw_image(&file[..length]) {
                Ok(image) => assert!(length >= last && image.strip == example_strip()),
                Err(error) => {
                    assert!(length < last && matches!(error, ArwError::Truncated { .. }), "{error}");
                }
            }
        }
    }
}

#[test]
fn other_files() {
    for (start, error) in [
        (&b""[..], ArwError::NotTiff),
        (b"II*", ArwError::NotTiff),
        (b"MM*\0\0\0\0\x08", ArwError::NotTiff),
        (b"II\0*\x08\0\0\0", ArwError::NotTiff),
        (b"IM*\0\x08\0\0\0", ArwError::NotTiff),
        (b"\xff\xd8\xff\xe0\0\x10JFIF", ArwError::NotTiff),
        (b"II+\0\x08\0\0\0\x10\0\0\0\0\0\0\0", ArwError::BigTiff),
        (b"MM\0+\0\x08\0\0\0\0\0\0\0\0\0\x10", ArwError::BigTiff),
        (b"II*\0", ArwError::Truncated { needed: 8, length: 4 }),
        (b"MM\0*\0\0\0", ArwError::Truncated { needed: 8, length: 7 }),
        (b"II*\0\0\0\0\0", ArwError::NoRawImage),
    ] {
        assert_eq!(told(start), error);
        assert_eq!(is_tiff(start), error != ArwError::NotTiff);
    }
    assert_eq!(told(support::SAMPLE), ArwError::NotTiff);
}

#[test]
fn words_of_each_error() {
    for (error, words) in [
        (ArwError::NotTiff, "not a TIFF"),
        (ArwError::BigTiff, "a BigTIFF, whose offsets may lie above 4 GiB; ARW files are plain TIFFs"),
        (
            ArwError::Above4GiB { value: 1 << 32 },
            "the file names 4294967296, which lies above 4 GiB; ARW files stay below",
        ),
        (ArwError::Tangled, "the file's directories are too many or overlap; no raw image among those read"),
        (
            ArwError::Truncated { needed: 900, length: 800 },
            "the file has 800 bytes, but byte 900 of it is named: a truncated copy?",
        ),
        (ArwError::NoRawImage, "no image in the file has ARW6 tiles"),
    ] {
        assert_eq!(error.to_string(), words);
    }
}
