//! The records of a stream one by one: what each took from its allowance, and its coefficients.

mod support;

use arw6::{decode_stream, inspect_record, inspect_record_into, records, write_stream};
use arw6::{Error, Record, RecordState};
use std::time::Instant;
use support::refused::refused;
use support::{damaged, flat_stream, packet_number, picture, stream, stream_lacking, stream_with};
use support::{BROKEN, GROUP_3, GROUP_4, SPENT};

/// Bytes that begin with these bits; blanks are for the reader.
fn bytes(bits: &str) -> Vec<u8> {
    let bits: Vec<u8> = bits.bytes().filter(|bit| *bit != b' ').map(|bit| bit - b'0').collect();
    bits.chunks(8).map(|byte| byte.iter().enumerate().fold(0, |all, (k, bit)| all | bit << (7 - k))).collect()
}

/// The fields of a record after its place.
fn fields(record: &Record) -> (usize, u64, u64, RecordState) {
    (record.bytes, record.allowance, record.bits, record.state)
}

/// The first record of the packet at a place of a small stream that has these bytes.
fn first_record(place: usize, bytes: &[u8]) -> (Record, Vec<i32>) {
    let stream = stream_with(&[(place, bytes)]);
    inspect_record(&stream, packet_number(place), 0).unwrap().unwrap()
}

/// All records are told once, in order, and the tile's counts are theirs. Their number.
fn hold_tile(stream: &[u8]) -> usize {
    let (told, tile) = (records(stream).unwrap(), decode_stream(stream, false).unwrap());
    let count = |state| told.iter().filter(|record| record.state == state).count();
    assert_eq!((count(RecordState::Broken), count(RecordState::Spent)), (tile.broken, tile.spent));
    assert_eq!(told.iter().map(|record| record.bits).sum::<u64>(), tile.bits);
    let places: Vec<_> = told.iter().map(|record| (record.packet, record.record)).collect();
    assert!(places.is_sorted() && places.windows(2).all(|two| two[0] != two[1]));
    for record in &told {
        assert_eq!(record.allowance, 128 * record.bytes.div_ceil(16) as u64);
        assert!(record.bits <= record.allowance);
        assert_eq!(record.state == RecordState::Empty, record.bytes == 0);
        assert!(record.state != RecordState::Spent || record.bits == record.allowance);
        let (found, numbers) = inspect_record(stream, record.packet, record.record).unwrap().unwrap();
        assert_eq!((&found, numbers.len()), (record, numbers_of(record.packet, tile.width)));
    }
    told.len()
}

/// How many coefficients a record of a packet has.
fn numbers_of(packet: usize, width: usize) -> usize {
    let group = if packet == 12 { 4 } else { packet % 4 };
    [width / 16, 3 * (width / 16), 6 * (width / 8), 12 * (width / 4), 8 * (width / 2)][group]
}

#[test]
fn whole_and_damaged_tiles() {
    for k in 0..2 {
        assert_eq!(hold_tile(&stream(k)), 13 * 31);
        assert!(records(&stream(k)).unwrap().iter().all(|record| record.state == RecordState::Sound));
    }
    assert_eq!(hold_tile(&damaged()[8 + 92848..]), 13 * 31);
    let stopping: [(usize, &[u8]); 3] = [(0, &BROKEN), (GROUP_3, &BROKEN), (GROUP_4, &SPENT)];
    assert_eq!(hold_tile(&stream_with(&stopping)), 13 * 3);
}

/// The writer gives each record the fewest whole bytes that hold its bits.
#[test]
fn written_records() {
    for (width, height) in [(64, 96), (48, 74), (16, 48)] {
        let [green, red, blue] = picture(width, height, 5);
        let stream = write_stream(&green, &red, &blue, width, height).unwrap();
        assert_eq!(hold_tile(&stream), 13 * (height.div_ceil(16) + 1));
        let told = records(&stream).unwrap();
        assert!(told.iter().all(|record| record.bits.div_ceil(8) == record.bytes as u64));
        assert!(told.iter().any(|record| record.state == RecordState::Sound));
    }
}

/// One component: a width of 1 for the only group of four, of which the last value has no column.
#[test]
fn a_row_bit_by_bit() {
    let (record, numbers) = first_record(0, &bytes("10 1 1010 0 1"));
    assert_eq!((record.packet, record.record), (0, 0));
    assert_eq!(fields(&record), (2, 128, 9, RecordState::Sound));
    assert_eq!(numbers, [1, 0, -1]);
}

/// Three components, one after the other.
#[test]
fn components_bit_by_bit() {
    let (record, numbers) = first_record(3, &bytes("10 1 1000 0  0  10 1 0010 1"));
    assert_eq!((record.packet, record.record), (1, 0));
    assert_eq!(fields(&record), (3, 128, 17, RecordState::Sound));
    assert_eq!(numbers, [1, 0, 0, 0, 0, 0, 0, 0, -1]);
}

/// A byte of zeros in one packet: each of its rows takes the opening bit, and as many for the run of
/// groups as the last group's number has bits. It is more than the byte has, and within the allowance.
#[test]
fn the_packets_in_their_order() {
    for place in 0..13 {
        let bits = [1, 3, 12, 36, 32][place / 3];
        for record in records(&stream_with(&[(place, &[0])])).unwrap() {
            let expected = match (record.packet == packet_number(place), record.record) {
                (true, 0) => (1, 128, bits, RecordState::Sound),
                _ => (0, 0, 0, RecordState::Empty),
            };
            assert_eq!(fields(&record), expected);
        }
    }
}

/// A read that runs out takes what was left, and the zeros after it nothing.
#[test]
fn spent_records() {
    for place in GROUP_3..=GROUP_4 {
        let (spent, numbers) = first_record(place, &SPENT);
        assert_eq!(fields(&spent), (16, 128, 128, RecordState::Spent));
        let (whole, written) = first_record(place, &[SPENT, [0; 16]].concat());
        assert!(128 < whole.bits && whole.bits <= 256 && whole.state == RecordState::Sound);
        assert!(numbers == written && numbers.iter().any(|&number| number != 0));
    }
}

/// After a width above 19 each later row takes its opening bit, as long as there is one.
#[test]
fn broken_records() {
    for (place, rows) in [(0, 1), (3, 3), (6, 6), (GROUP_3, 12), (GROUP_4, 8)] {
        let (record, numbers) = first_record(place, &BROKEN);
        assert_eq!(fields(&record), (16, 128, 128, RecordState::Broken));
        assert!(numbers.iter().all(|&number| number == 0));
        let (record, _) = first_record(place, &[BROKEN, [0; 16]].concat());
        assert_eq!(fields(&record), (32, 256, 128 + rows - 1, RecordState::Broken));
    }
}

/// A record of byte length 0 is there; one that a guarded tile may lack, and does, is not.
#[test]
fn empty_and_missing_records() {
    assert_eq!(hold_tile(&flat_stream(48, 26)), 13 * 3);
    for place in 0..13 {
        let (stream, packet) = (stream_lacking(place), packet_number(place));
        assert_eq!(hold_tile(&stream), 13 * 3 - 1);
        let last = |packet| inspect_record(&stream, packet, 2).unwrap();
        assert_eq!(last(packet), None);
        let (record, numbers) = last((packet + 1) % 13).unwrap();
        assert_eq!(fields(&record), (0, 0, 0, RecordState::Empty));
        assert_eq!(numbers, vec![0; numbers_of((packet + 1) % 13, 48)]);
    }
}

#[test]
fn packets_and_records_that_are_not_there() {
    let stream = stream(0);
    for (packet, record) in [(0, 31), (12, 31), (13, 0), (usize::MAX, 0), (3, usize::MAX)] {
        assert_eq!(inspect_record(&stream, packet, record), Ok(None));
        let mut band = [7; 4];
        for length in 0..4 {
            assert_eq!(inspect_record_into(&stream, packet, record, &mut band[..length]), Ok(None));
        }
        assert_eq!(band, [7; 4]);
    }
}

/// A lent band holds the numbers at its start; one that is too short is refused, and stays.
#[test]
fn lent_bands() {
    let sample = stream(0);
    for packet in 0..13 {
        let numbers = numbers_of(packet, 320);
        let mut band = vec![7; numbers + 2];
        let said = inspect_record_into(&sample, packet, 30, &mut band).unwrap().unwrap();
        let (record, owned) = inspect_record(&sample, packet, 30).unwrap().unwrap();
        assert!(said == record && band[..numbers] == owned && band[numbers..] == [7, 7]);
        for short in [0, 1, numbers - 1] {
            let mut band = vec![7; short.min(numbers - 1)];
            let refusal = inspect_record_into(&sample, packet, 30, &mut band).unwrap_err();
            assert!(refusal.number() == 4 && band.iter().all(|&number| number == 7));
        }
    }
}

/// The refusals of a tile; where that is 3, the next one that is met.
#[test]
fn refusals() {
    for (number, stream) in refused() {
        let number = if number == 3 { 21 } else { number };
        let is_it = |error: Error| matches!(error, Error::Refused(refusal) if refusal.number() == number);
        assert!(is_it(records(&stream).unwrap_err()));
        for (packet, record) in [(0, 0), (13, 0), (0, usize::MAX)] {
            assert!(is_it(inspect_record(&stream, packet, record).unwrap_err()));
            let mut band = [7; 2000];
            let refusal = inspect_record_into(&stream, packet, record, &mut band).unwrap_err();
            assert!(refusal.number() == number && band == [7; 2000]);
        }
    }
}

/// A tile that is too large for planes has records all the same.
#[test]
fn a_tile_too_large_for_planes() {
    let mut stream = flat_stream(65_520, 4112);
    assert!(matches!(decode_stream(&stream, false), Err(Error::Refused(refusal)) if refusal.number() == 3));
    let told = records(&stream).unwrap();
    assert!(told.len() == 13 * 258 && told.iter().all(|record| record.state == RecordState::Empty));
    let (_, numbers) = inspect_record(&stream, 12, 257).unwrap().unwrap();
    assert_eq!(numbers.len(), 4 * 65_520);
    stream[48] = 0;
    assert!(matches!(records(&stream), Err(Error::Refused(refusal)) if refusal.number() == 9));
}

#[test]
#[ignore = "a measurement"]
fn rates() {
    let [green, red, blue] = picture(4608, 3072, 1);
    let large = write_stream(&green, &red, &blue, 4608, 3072).unwrap();
    let tiles =
        [("the sample", stream(0)), ("4608 x 3072", large), ("4608 x 3072, empty", flat_stream(4608, 3072))];
    for (name, stream) in tiles {
        let timed = (0..9).map(|_| {
            let start = Instant::now();
            (records(&stream).unwrap().len(), start.elapsed())
        });
        let (count, time) = timed.min_by_key(|(_, time)| *time).unwrap();
        println!("{name}: {count} records of {} bytes in {time:?}", stream.len());
    }
}

#[test]
fn words_of_states() {
    let states = [RecordState::Empty, RecordState::Sound, RecordState::Broken, RecordState::Spent];
    assert_eq!(states.map(|state| state.to_string()), ["empty", "sound", "broken", "spent"]);
}
