//! Streams that are refused, with the slices lent for them: single faults beside near values, and
//! two faults at once.

use super::{size, Vectors};
use crate::faults::{directory_alone, empty_stream, faults, one_packet, two_packets, Change, Fault, Trial};
use crate::oracle;
use crate::rng::Rng;
use crate::size::Size;
use crate::streams::Stream;

pub fn refusals(out: &mut Vectors, rng: &mut Rng) {
    let mut trials = single_faults();
    trials.extend(ordered_faults(rng).iter().map(|(a, b)| both(a, b)));
    for (i, trial) in trials.iter().enumerate() {
        if !trials[..i].contains(trial) {
            put_refusal(out, trial);
        }
    }
}

fn put_refusal(out: &mut Vectors, trial: &Trial) {
    let number = oracle::decode(&trial.stream, trial.lent).err().unwrap_or(0);
    let [green, red, blue, work] = trial.lent;
    out.case(&[trial.stream.len(), green, red, blue, work, number as usize]);
    out.bytes(&trial.stream);
}

/// The stream with the changes and slices as long as it needs, but short ones for a large plane.
fn trial(stream: &[u8], changes: &[Change]) -> Trial {
    Trial::new(stream.to_vec(), changes, |stream| {
        let fitting = oracle::header_size(stream).filter(|s| s.needed()[3] < 1_000_000);
        fitting.map_or([64; 4], Size::needed)
    })
}

/// For each fault of one field the refused stream and, next to it, the one with the near value.
fn single_faults() -> Vec<Trial> {
    let base = base();
    let mut all = vec![trial(&base.bytes, &[])];
    for (group, index) in [(0, 0), (2, 1), (4, 0)] {
        for fault in faults(&base, group, index) {
            all.push(trial(&base.bytes, &fault.bad));
            all.push(trial(&base.bytes, &fault.near));
        }
    }
    all.extend(guarded_counts());
    all.extend(directory_ends());
    all.extend(record_counts());
    all
}

/// Number 21 at a guarded height: one record fewer is accepted, two fewer and one more are not.
fn guarded_counts() -> Vec<Trial> {
    let base = empty_stream(size(16, 26), 3);
    let blocks = base.packets[0][0].0 + 7;
    let count = |n: u8| trial(&base.bytes, &[Change::Put { at: blocks, bytes: vec![0, n] }]);
    vec![count(1), count(2), count(3), count(4)]
}

/// Number 5 for both halves of a block, one byte short and just long enough.
fn directory_ends() -> Vec<Trial> {
    let stream = |counts, length| trial(&directory_alone(size(16, 16), counts, length), &[]);
    vec![
        stream([5, 5, 5, 3, 1], 175),
        stream([5, 5, 5, 3, 1], 176),
        stream([5, 5, 5, 3, 5], 191),
        stream([5, 5, 5, 3, 5], 192),
        stream([3, 3, 3, 3, 5], 143),
        stream([3, 3, 3, 3, 5], 144),
    ]
}

/// Number 22 by the stream's length alone, after 21 and before 23.
fn record_counts() -> Vec<Trial> {
    let one = one_packet(size(16, 208), 16).bytes;
    let two = two_packets(size(16, 258), 16).bytes;
    let cut = |stream: &[u8]| Change::Cut(stream.len() - 1);
    let lower = Change::Put { at: 10, bytes: vec![0, 88] };
    vec![
        trial(&one, &[cut(&one)]),
        trial(&one, &[]),
        trial(&one, &[cut(&one), lower]),
        trial(&two, &[cut(&two)]),
        trial(&two, &[]),
    ]
}

/// The small stream that faults are put into: a plain height, all records empty.
fn base() -> Stream {
    empty_stream(size(16, 16), 2)
}

/// How many pairs have their faults in the headers of any two packets; they come last.
const ANYWHERE: usize = 16;

/// Two faults at once: each number of the first packet with some of those after it, number 23 with
/// the others, and faults in the headers of any two packets.
fn ordered_faults(rng: &mut Rng) -> Vec<(Fault, Fault)> {
    let base = base();
    let first = one_for_each_number(faults(&base, 0, 0));
    let mut detail = faults(&base, 1, 0);
    detail.retain(|f| f.number == 23);
    let mut pairs = Vec::new();
    for (i, a) in first.iter().enumerate() {
        let near = first.iter().skip(i + 1).take(3);
        let far = first.iter().skip(i + 4).filter(|_| rng.one_in(4));
        let later = near.chain(far).chain(&detail).filter(|b| apart(a, b));
        pairs.extend(later.map(|b| (a.clone(), b.clone())));
    }
    for _ in 0..ANYWHERE {
        let a = draw_packet_fault(rng, &base);
        let mut b = draw_packet_fault(rng, &base);
        while !apart(&a, &b) {
            b = draw_packet_fault(rng, &base);
        }
        pairs.push((a, b));
    }
    pairs
}

/// The trial with both faults.
fn both(a: &Fault, b: &Fault) -> Trial {
    let changes: Vec<Change> = a.bad.iter().chain(&b.bad).cloned().collect();
    trial(&base().bytes, &changes)
}

fn one_for_each_number(faults: Vec<Fault>) -> Vec<Fault> {
    let mut kept: Vec<Fault> = Vec::new();
    for fault in faults {
        if kept.iter().all(|k| k.number != fault.number) {
            kept.push(fault);
        }
    }
    kept
}

/// A fault in the header of any packet.
fn draw_packet_fault(rng: &mut Rng, base: &Stream) -> Fault {
    let (group, index) = rng.pick(&[(0, 0), (3, 0), (0, 1), (3, 1), (1, 2), (4, 0)]);
    let mut all = faults(base, group, index);
    all.retain(|f| (11..=18).contains(&f.number));
    all.swap_remove(rng.below(all.len()))
}

/// No byte is changed by both faults.
fn apart(a: &Fault, b: &Fault) -> bool {
    let span = |c: &Change| match c {
        Change::Put { at, bytes } => (*at, at + bytes.len()),
        Change::Cut(length) => (*length, usize::MAX),
        Change::Lend { .. } => (0, 0),
    };
    let disjoint = |x: (usize, usize), y: (usize, usize)| x.1 <= y.0 || y.1 <= x.0;
    a.bad.iter().all(|x| b.bad.iter().all(|y| disjoint(span(x), span(y))))
}

#[cfg(test)]
mod tests {
    use super::*;

    /// The order of document 01's checks for one packet and the stream before it; the first
    /// record's bytes are checked before a later record's header.
    const ORDER: [u64; 22] =
        [2, 3, 4, 6, 7, 8, 9, 10, 12, 13, 14, 15, 16, 17, 18, 11, 19, 20, 21, 22, 23, 24];

    /// Pairs in which one fault takes the other away: without entries, or with a shorter one, the
    /// lengths fit, and a low height needs less.
    const TAKEN_AWAY: [(u64, u64); 5] = [(7, 9), (8, 9), (7, 10), (8, 10), (4, 24)];

    #[test]
    fn the_record_count_stands_between_21_and_23() {
        let answer = |t: &Trial| oracle::decode(&t.stream, t.lent).err().unwrap();
        let numbers: Vec<u64> = record_counts().iter().map(answer).collect();
        assert_eq!(numbers, [22, 10, 21, 22, 23]);
    }

    #[test]
    fn the_earlier_check_wins() {
        let place = |n: u64| ORDER.iter().position(|&o| o == n).unwrap();
        let pairs = ordered_faults(&mut Rng::new(1));
        for (a, b) in &pairs[..pairs.len() - ANYWHERE] {
            let (m, n) = (a.number, b.number);
            if TAKEN_AWAY.contains(&(m, n)) {
                continue;
            }
            let earlier = if place(m) < place(n) { m } else { n };
            let trial = both(a, b);
            assert_eq!(oracle::decode(&trial.stream, trial.lent).err(), Some(earlier), "{m} and {n}");
        }
    }
}
