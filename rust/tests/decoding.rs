//! The crate's functions on the sample and on small streams.

mod support;

use arw6::{decode_stream, decode_stream_into, find_streams, Buffers, Lengths};
use support::{damaged, flat_stream, header, stream, stream_with, strip};
use support::{BROKEN, DIGESTS, FRAME, GROUP_3, GROUP_4, SPENT};

#[test]
fn tiles_of_the_sample() {
    let tiles = find_streams(strip(), FRAME.0, FRAME.1);
    let places: Vec<_> = tiles.iter().map(|t| [t.x, t.y, t.width, t.height]).collect();
    assert_eq!(places, [[0, 0, 320, 480], [320, 0, 320, 480]]);
    assert_eq!(tiles[0].offset, 512);
    assert_eq!(tiles[1].offset, 512 + tiles[0].length);
    assert_eq!(strip().len(), tiles[1].offset + tiles[1].length);
}

/// Document 01's example strip has one tile, at offset 512, and no payload.
#[test]
fn the_example_strip() {
    let mut strip = vec![0; 512];
    strip.extend(header(16, 16));
    let tiles = find_streams(&strip, 16, 16);
    let fields: Vec<_> = tiles.iter().map(|t| [t.offset, t.length, t.x, t.y, t.width, t.height]).collect();
    assert_eq!(fields, [[512, 128, 0, 0, 16, 16]]);
    assert_eq!(tiles[0].stream(&strip), header(16, 16));
    assert_eq!(find_streams(&strip, 16, 18), []);
    assert_eq!(find_streams(&strip[..639], 16, 16), []);
    assert_eq!(find_streams(&[], 16, 16), []);
}

#[test]
fn planes_of_the_sample_have_the_fixed_digests() {
    for (k, line) in DIGESTS.lines().enumerate() {
        let tile = decode_stream(&stream(k), false).unwrap();
        let hash: String = tile.digest().iter().map(|byte| format!("{byte:02x}")).collect();
        assert_eq!(line.split(' ').nth(1), Some(hash.as_str()));
        assert_eq!((tile.width, tile.height, tile.stopped), (320, 480, 0));
        assert_eq!((tile.broken, tile.spent), (0, 0));
        assert_eq!((tile.full_green.rows, tile.full_green.cols), (240, 320));
        for plane in [&tile.red, &tile.blue] {
            assert_eq!((plane.rows, plane.cols, plane.data.len()), (240, 160, 240 * 160));
        }
    }
}

/// The gap is darker than the plates above and below it, and the lip is brighter.
#[test]
fn the_joint_is_in_the_green_plane() {
    let green = decode_stream(&stream(0), true).unwrap().full_green;
    let at = |row: usize| green.data[row * green.cols + 100];
    let (plate, gap, lip, other) = (at(60), at(104), at(111), at(150));
    assert!(gap < -1200 && gap < other && other < plate && plate < lip, "{plate} {gap} {lip} {other}");
}

/// Rows of plain and guarded heights, and planes of zeros.
#[test]
fn flat_streams() {
    for (height, rows) in [(16, 8), (18, 12), (26, 12), (32, 16), (34, 20)] {
        let tile = decode_stream(&flat_stream(48, height), false).unwrap();
        let sizes = [&tile.full_green, &tile.red, &tile.blue].map(|plane| (plane.rows, plane.cols));
        assert_eq!(sizes, [(rows, 48), (rows, 24), (rows, 24)]);
        assert_eq!(tile.height, height);
        assert!(tile.full_green.data.iter().all(|&number| number == 0));
    }
}

/// The counts of a tile: broken, spent, stopped.
fn counts(stream: &[u8]) -> [usize; 3] {
    let tile = decode_stream(stream, false).unwrap();
    [tile.broken, tile.spent, tile.stopped]
}

/// A record goes by what it met first, a width above 19 or the end of its bits.
#[test]
fn broken_and_spent_records() {
    assert_eq!(counts(&stream_with(&[])), [0, 0, 0]);
    for packet in GROUP_3..=GROUP_4 {
        assert_eq!(counts(&stream_with(&[(packet, &SPENT)])), [0, 1, 1]);
        assert_eq!(counts(&stream_with(&[(packet, &BROKEN)])), [1, 0, 1]);
        let with_bits_left = [BROKEN, [0; 16]].concat();
        assert_eq!(counts(&stream_with(&[(packet, &with_bits_left)])), [1, 0, 1]);
    }
    let several: [(usize, &[u8]); 3] = [(0, &BROKEN), (GROUP_3, &BROKEN), (GROUP_4, &SPENT)];
    assert_eq!(counts(&stream_with(&several)), [2, 1, 3]);
}

/// A record that is spent has the numbers of the same one with its zeros written.
#[test]
fn planes_of_spent_records() {
    let flat = decode_stream(&stream_with(&[]), false).unwrap().digest();
    let written = [SPENT, [0; 16]].concat();
    for packet in GROUP_3..=GROUP_4 {
        let spent = decode_stream(&stream_with(&[(packet, &SPENT)]), false).unwrap();
        let whole = decode_stream(&stream_with(&[(packet, &written)]), false).unwrap();
        assert_eq!((spent.spent, whole.stopped), (1, 0));
        assert_eq!(spent.digest(), whole.digest());
        assert_ne!(spent.digest(), flat);
    }
}

/// Flipped bits break records.
#[test]
fn records_of_a_damaged_stream() {
    let [broken, spent, stopped] = counts(&damaged()[8 + 92848..]);
    assert!(broken > 0 && stopped == broken + spent, "{broken} {spent} {stopped}");
}

/// A caller's own slices: the planes from their starts, work all 0, the rest as it was.
#[test]
fn planes_in_lent_slices() {
    let (stream, spare) = (stream(0), 5);
    let lengths = Lengths::of(&stream).unwrap();
    let lend = |length: usize| vec![7; length + spare];
    let (mut green, mut red) = (lend(lengths.green), lend(lengths.red));
    let (mut blue, mut work) = (lend(lengths.blue), lend(lengths.work));
    let said = decode_stream_into(&stream, &mut green, &mut red, &mut blue, &mut work).unwrap();
    let tile = decode_stream(&stream, false).unwrap();
    assert_eq!((said.width, said.height, said.rows, said.stopped), (320, 480, 240, 0));
    assert_eq!((said.broken, said.spent), (0, 0));
    let zeros = vec![0; lengths.work];
    let (full_green, others) = (&tile.full_green.data, [&tile.red.data, &tile.blue.data]);
    for (slice, data) in [(green, full_green), (red, others[0]), (blue, others[1]), (work, &zeros)] {
        assert!(slice[..data.len()] == data[..]);
        assert_eq!(slice[data.len()..], [7; 5]);
    }
}

/// Buffers that are used again hold the same planes, whatever they held before.
#[test]
fn planes_in_buffers() {
    let mut buffers = Buffers::default();
    let stopping = stream_with(&[(GROUP_3, &BROKEN), (GROUP_4, &SPENT)]);
    let streams = [stream(0), flat_stream(48, 26), stream(1), stopping, flat_stream(1024, 64), stream(0)];
    for stream in &streams {
        let tile = decode_stream(stream, false).unwrap();
        let planes = buffers.decode(stream).unwrap();
        let said = planes.decoded;
        assert_eq!((said.width, said.height), (tile.width, tile.height));
        assert_eq!((said.rows, said.stopped), (tile.full_green.rows, tile.stopped));
        assert_eq!((said.broken, said.spent), (tile.broken, tile.spent));
        assert!(planes.green == tile.full_green.data);
        assert!(planes.red == tile.red.data && planes.blue == tile.blue.data);
        assert_eq!(planes.digest(), tile.digest());
        assert!(buffers.decode(&stream[..100]).is_err());
    }
}
