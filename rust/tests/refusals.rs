//! Every refusal of a stream, by damage to the sample, and what it leaves alone.

mod support;

use arw6::{decode_stream, decode_stream_into, meaning, Error, Lengths};
use support::refused::refused;
use support::stream;

#[test]
fn each_number() {
    let mut seen = vec![1, 4];
    for (number, stream) in refused() {
        let error = decode_stream(&stream, false).unwrap_err();
        assert!(matches!(error, Error::Refused(refusal) if refusal.number() == number));
        assert_eq!(error.to_string(), format!("refusal {number}: {}", meaning(number).unwrap()));
        seen.push(number);
    }
    assert!((1..=24).all(|number| seen.contains(&number)));
}

/// Calls with slices that are `short` numbers short and full of sevens; the number of the refusal.
fn refuse_into(stream: &[u8], lengths: Lengths, short: [usize; 4]) -> u64 {
    let needed = [lengths.green, lengths.red, lengths.blue, lengths.work];
    let [mut green, mut red, mut blue, mut work] =
        std::array::from_fn(|i| vec![7; needed[i].saturating_sub(short[i])]);
    let refusal = decode_stream_into(stream, &mut green, &mut red, &mut blue, &mut work).unwrap_err();
    assert!([green, red, blue, work].iter().flatten().all(|&number| number == 7));
    refusal.number()
}

#[test]
fn a_refused_call_changes_no_number() {
    let sample = Lengths::of(&stream(0)).unwrap();
    for (number, stream) in refused() {
        let lengths = Lengths::of(&stream).unwrap_or(sample);
        assert_eq!(refuse_into(&stream, lengths, [0; 4]), number);
    }
}

#[test]
fn each_slice_is_measured() {
    let stream = stream(1);
    let lengths = Lengths::of(&stream).unwrap();
    for i in 0..4 {
        let mut short = [0; 4];
        short[i] = 1;
        assert_eq!(refuse_into(&stream, lengths, short), 4);
    }
}

#[test]
fn lengths_of_a_refused_stream() {
    for (number, stream) in refused() {
        let refusal = Lengths::of(&stream).err().map(|refusal| refusal.number());
        assert_eq!(refusal, Some(number).filter(|number| *number < 4));
    }
}
