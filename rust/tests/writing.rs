//! Streams that the crate writes, and the planes that they give again.

mod support;

use arw6::{decode_stream, find_fault, longest_stream, write_stream, write_stream_into};
use arw6::{Cause, Colour, Error, Lengths};
use support::{picture, stream};

/// The number of a refusal.
fn number(error: Error) -> u64 {
    match error {
        Error::Refused(refusal) => refusal.number(),
        other => panic!("{other}"),
    }
}

/// Plain and guarded heights, the smallest ones too: the same planes again, and no record stops.
#[test]
fn written_and_decoded() {
    for (k, (width, height)) in
        [(16, 16), (16, 18), (16, 26), (32, 34), (48, 64), (320, 480), (64, 1000)].into_iter().enumerate()
    {
        let [green, red, blue] = picture(width, height, k as u32);
        let stream = write_stream(&green, &red, &blue, width, height).unwrap();
        assert!(stream.starts_with(b"A000") && stream.len().is_multiple_of(16));
        assert!(stream.len() <= longest_stream(&Lengths::of_size(width, height).unwrap()));
        let tile = decode_stream(&stream, false).unwrap();
        assert_eq!((tile.width, tile.height, tile.stopped), (width, height, 0));
        assert!(tile.full_green.data == green && tile.red.data == red && tile.blue.data == blue);
        assert_eq!(find_fault(&green, &red, &blue, width, height), None);
    }
}

/// The sample's planes came out of a stream, so they go into one.
#[test]
fn planes_of_the_sample_are_written() {
    for k in 0..2 {
        let tile = decode_stream(&stream(k), false).unwrap();
        let (green, red, blue) = (&tile.full_green.data, &tile.red.data, &tile.blue.data);
        let written = write_stream(green, red, blue, tile.width, tile.height).unwrap();
        let mut again = decode_stream(&written, false).unwrap();
        // Three records of zeros take 4 bits each in the sample; the writer gives them no byte.
        again.bits += 12;
        assert!(again == tile);
    }
}

/// A caller's own slices, on either side of the length; the rest stays as it was.
#[test]
fn in_lent_slices() {
    let (width, height) = (32, 50);
    let [mut green, red, blue] = picture(width, height, 7);
    let whole = write_stream(&green, &red, &blue, width, height).unwrap();
    let lengths = Lengths::of_size(width, height).unwrap();
    let (mut work, mut stream) = (vec![7; lengths.work + 3], vec![7; whole.len() + 5]);
    let length = write_stream_into(&green, &red, &blue, width, height, &mut work, &mut stream).unwrap();
    assert_eq!((length, &stream[..length], &stream[length..]), (whole.len(), &whole[..], &[7; 5][..]));
    assert!(work[..lengths.work].iter().all(|&n| n == 0) && work[lengths.work..] == [7; 3]);

    let refused = |green: &[i32], room: usize, spare: usize| {
        let (mut work, mut stream) = (vec![7; lengths.work + spare - 1], vec![7; room]);
        let said = write_stream_into(green, &red, &blue, width, height, &mut work, &mut stream).unwrap_err();
        assert!(stream.iter().all(|&byte| byte == 7));
        let zeroed = work.iter().take_while(|&&n| n == 0).count();
        assert!(work[zeroed..].iter().all(|&n| n == 7));
        (said.number(), zeroed)
    };
    assert_eq!(refused(&green, length - 1, 1), (4, lengths.work));
    assert_eq!(refused(&green, length, 0), (4, 0));
    assert_eq!(refused(&green[1..], length, 1), (4, 0));
    green[9] += 3;
    assert_eq!(refused(&green, length, 2), (25, lengths.work));
}

#[test]
fn sizes_that_are_refused() {
    let refusal = |width, height| {
        let numbers = vec![0; 262_400];
        number(write_stream(&numbers, &numbers, &numbers, width, height).unwrap_err())
    };
    let sizes = [(0, 16), (24, 16), (65_536, 16), (16, 0), (16, 17), (16, 131_072), (usize::MAX, usize::MAX)];
    assert!(sizes.into_iter().all(|(width, height)| refusal(width, height) == 2));
    assert_eq!(refusal(65_520, 8000), 3);
    assert_eq!(refusal(1024, 1024), 4);
    assert_eq!(refusal(16, 32_768), 20);
    assert_eq!(refusal(16, 14), 24);
}

/// A picture without a margin, and one with a number too large, say where.
#[test]
fn faults_are_named() {
    let (width, height) = (64, 96);
    let [green, red, blue] = picture(width, height, 1);
    let fault = |green: &[i32], red: &[i32], blue: &[i32]| {
        let refused = write_stream(green, red, blue, width, height);
        assert_eq!(refused.map_err(number), Err(25));
        find_fault(green, red, blue, width, height).expect("25 has a fault")
    };
    // The top row of green is no more constant.
    let mut odd = green.clone();
    odd[9] += 3;
    let found = fault(&odd, &red, &blue);
    assert!(matches!(found.cause, Cause::Edge(_)) && found.colour == Colour::Green);
    assert!(found.row.first == 0 && found.row.at < 8 && found.column.first <= 9 && found.column.last >= 9);
    // A number in the middle of red that is far from its neighbours.
    let mut far = red.clone();
    far[20 * 32 + 11] += 3_000_000;
    let found = fault(&green, &far, &blue);
    assert!(matches!(found.cause, Cause::Coefficient(_)) && found.colour == Colour::Red);
    assert!((found.row.first..=found.row.last).contains(&20));
    assert!((found.column.first..=found.column.last).contains(&11));
    // A blue plane that is 40,000 all over: the first step of each row of band 0.
    let found = fault(&green, &red, &vec![40_000; blue.len()]);
    assert_eq!((found.colour, found.cause), (Colour::Blue, Cause::Step(40_000)));
    assert_eq!((found.row.at, found.column.at), (0, 0));
    assert_eq!(
        found.to_string(),
        "blue, row 0, column 0 (computed from rows 0 to 14, columns 0 to 14): a step of 40000, which leaves 16 bits"
    );
    assert_eq!(find_fault(&green, &red, &blue[1..], width, height), None);
}

/// With a margin of eight rows that are constant along the row any picture is accepted; without one
/// hardly any.
#[test]
fn a_margin_is_enough() {
    let mut bare = 0;
    for seed in 0..60 {
        let (width, height) = (16 * (1 + seed as usize % 4), 64 + 2 * (seed as usize % 20));
        let [green, red, blue] = picture(width, height, seed);
        assert!(write_stream(&green, &red, &blue, width, height).is_ok());
        let rows = Lengths::of_size(width, height).unwrap().rows;
        let inner =
            |plane: &[i32]| plane.iter().cycle().skip(plane.len() / 2).take(plane.len()).copied().collect();
        let [green, red, blue]: [Vec<i32>; 3] = [&green, &red, &blue].map(|plane| inner(plane));
        assert_eq!(green.len(), rows * width);
        bare += write_stream(&green, &red, &blue, width, height).is_ok() as usize;
    }
    assert_eq!(bare, 0);
}
