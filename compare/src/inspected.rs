//! The command `records`: single records as the library tells them, held against the original's, the
//! lent band number by number.

use crate::check::{equal, pattern, Records};
use crate::damage::{draw_damaged, draw_whole};
use crate::oracle::{self, TilePacket, TEXTS};
use crate::ours::{Decoder, Inspected, Slices};
use crate::packets::{packet, Record, Room};
use crate::records::{draw_styled, Recipe, Style};
use crate::rng::Rng;
use crate::size::Size;
use crate::streams::{assemble, Parts, TILE_PACKETS};

/// A question: packet and record, and the numbers of the lent band.
#[derive(Debug, Clone, Copy, PartialEq, Eq)]
pub struct Query {
    pub packet: usize,
    pub record: usize,
    pub band: usize,
}

/// The tile's packets, or the number that refuses the stream.
pub type Tile<'a> = Result<Vec<TilePacket<'a>>, u64>;

/// What the original answers, and the numbers that are written.
pub fn expected(tile: &Tile, query: Query) -> (Inspected, Vec<i32>) {
    let packets = match tile {
        Err(refusal) => return (Inspected::refused(*refusal), Vec::new()),
        Ok(packets) => packets,
    };
    let Some(packet) = packets.get(query.packet).filter(|p| query.record < p.records()) else {
        return (Inspected::default(), Vec::new());
    };
    if query.band < packet.shape.numbers() {
        return (Inspected::refused(4), Vec::new());
    }
    let (numbers, course) = packet.record(query.record);
    (Inspected::by(&course), numbers)
}

/// One question; the text says where the answers or the bands part.
pub fn ask(decoder: &impl Decoder, stream: &[u8], tile: &Tile, query: Query) -> Result<Inspected, String> {
    let (answer, numbers) = expected(tile, query);
    let mut band: Vec<i32> = (0..query.band).map(|place| pattern(0, place)).collect();
    let found = decoder.record(stream, query.packet, query.record, &mut band);
    equal(&format!("{query:?}"), &found, &answer)?;
    let left = |place: usize| numbers.get(place).copied().unwrap_or_else(|| pattern(0, place));
    match (0..band.len()).find(|&place| band[place] != left(place)) {
        None => Ok(answer),
        Some(at) => Err(format!("{query:?}, band[{at}]: ours {}, the original {}", band[at], left(at))),
    }
}

/// Some questions of any stream, which its bytes decide.
pub fn check_some(decoder: &impl Decoder, stream: &[u8], tile: &Tile) -> Result<(), String> {
    let mix = |hash: u64, &byte: &u8| (hash ^ byte as u64).wrapping_mul(0x100_0000_01b3);
    let rng = &mut Rng::new(stream.iter().fold(stream.len() as u64, mix));
    let mut queries = vec![draw_absent(rng, tile)];
    queries.extend((0..3).map(|_| draw_query(rng, tile)));
    queries.into_iter().try_for_each(|query| ask(decoder, stream, tile, query).map(|_| ()))
}

/// A packet of the tile, how many records it has and how many numbers each; of a refused stream any.
fn draw_packet(rng: &mut Rng, tile: &Tile) -> (usize, usize, usize) {
    let packet = rng.below(oracle::ORDER.len());
    match tile {
        Err(_) => (packet, rng.within(1, 4), rng.below(100)),
        Ok(packets) => (packet, packets[packet].records(), packets[packet].shape.numbers()),
    }
}

/// A record that is there, its band now and then too short.
fn draw_query(rng: &mut Rng, tile: &Tile) -> Query {
    let (packet, records, numbers) = draw_packet(rng, tile);
    let short = rng.one_in(5);
    let band =
        if short { rng.pick(&[numbers.saturating_sub(1), numbers / 2, 0]) } else { longer(rng, numbers) };
    Query { packet, record: rng.below(records), band }
}

/// As many numbers or some more.
fn longer(rng: &mut Rng, numbers: usize) -> usize {
    numbers + rng.pick(&[0, 0, 1, 7, 33])
}

/// A packet or a record that is not there, among them numbers whose low bits would be there.
fn draw_absent(rng: &mut Rng, tile: &Tile) -> Query {
    let (packet, records, numbers) = draw_packet(rng, tile);
    let record = rng.below(records);
    let (packet, record) = match rng.below(10) {
        0 => (13, record),
        1 => (usize::MAX, record),
        2 => (usize::MAX, usize::MAX),
        3 => (packet + rng.pick(&[13, 16, 256, 1 << 32, 1 << 63]), record),
        4 => (packet, usize::MAX),
        5 => (packet, record + rng.pick(&[1 << 16, 1 << 32, 1 << 63])),
        6 => (rng.word() as usize, rng.word() as usize),
        7 => (packet, records + rng.below(3)),
        _ => (packet, records),
    };
    let band = if rng.one_in(3) { rng.below(numbers + 1) } else { longer(rng, numbers) };
    Query { packet, record, band }
}

/// Most records and numbers of a tile of which every record is asked for.
const MOST_RECORDS: usize = 400;
const MOST_NUMBERS: usize = 300_000;

/// Questions of a larger tile.
const SOME: usize = 30;

/// Questions of a stream: every record of a small tile, some of a larger one, then bands that are too
/// short and what is not there. Tells whether the first are all records.
fn draw_queries(rng: &mut Rng, tile: &Tile) -> (Vec<Query>, bool) {
    let Ok(packets) = tile else {
        return ((0..5).flat_map(|_| [draw_query(rng, tile), draw_absent(rng, tile)]).collect(), false);
    };
    let records: usize = packets.iter().map(TilePacket::records).sum();
    let numbers: usize = packets.iter().map(|p| p.records() * p.shape.numbers()).sum();
    let all = records <= MOST_RECORDS && numbers <= MOST_NUMBERS;
    let mut queries = Vec::new();
    if all {
        for (packet, p) in packets.iter().enumerate() {
            for record in 0..p.records() {
                queries.push(Query { packet, record, band: longer(rng, p.shape.numbers()) });
            }
        }
    }
    queries.extend((0..if all { 8 } else { SOME }).map(|_| draw_query(rng, tile)));
    queries.extend((0..12).map(|_| draw_absent(rng, tile)));
    (queries, all)
}

/// A stream: whole, damaged, or too large to be decoded as a tile.
fn draw(rng: &mut Rng) -> Vec<u8> {
    match rng.below(100) {
        0 => draw_large(rng),
        1..=25 => draw_damaged(rng).stream,
        _ => draw_whole(rng).stream,
    }
}

/// A stream whose planes are above the limit of number 3, most of its records empty.
fn draw_large(rng: &mut Rng) -> Vec<u8> {
    let (width, height) = rng.pick(&[(65_520, 4112), (65_520, 4114), (32_768, 8208), (8208, 32_752)]);
    let size = Size { width, half: height / 2 };
    assert!(size.too_large());
    let recipe = Recipe::ordinary(0.0, [0, 15]);
    let mut group = |g: usize| {
        let shape = size.shape(g);
        let one = |rng: &mut Rng| {
            let mut records = vec![Record::default(); size.n() + 1];
            for _ in 0..rng.below(6) {
                let (i, style) = (rng.below(records.len()), rng.pick(&[Style::Noise, Style::Same]));
                records[i] = draw_styled(rng, shape, &recipe, style);
            }
            packet(shape.kind, &records, Room::default())
        };
        (0..TILE_PACKETS[g]).map(|_| one(rng)).collect()
    };
    let groups = std::array::from_fn(&mut group);
    assemble(&Parts { size, groups, spare: [0; 5], trailing: Vec::new() }).bytes
}

/// The counts of a run.
#[derive(Debug, Clone, Default)]
pub struct Tally {
    pub streams: usize,
    pub plain: usize,
    pub guarded: usize,
    /// Accepted streams that are refused as tiles, with 3.
    pub large: usize,
    pub refused: [usize; 25],
    /// Tiles of which every record was asked for, so that the sums could be compared.
    pub summed: usize,
    pub queries: usize,
    /// Records that were given: empty, whole, broken and spent ones.
    pub empty: usize,
    pub whole: usize,
    pub broken: usize,
    pub spent: usize,
    pub bits: u64,
    pub records: Records,
    /// Bands that were longer than the record, and too short.
    pub longer: usize,
    pub short: usize,
    pub absent_packets: usize,
    pub absent_records: usize,
    /// Records that a guarded tile has one fewer of.
    pub missing: usize,
    pub mismatches: usize,
}

impl Tally {
    /// Counts one question of an accepted stream.
    fn count(&mut self, packets: &[TilePacket], guarded_n: Option<usize>, query: Query, answer: &Inspected) {
        let Some(packet) = packets.get(query.packet) else {
            self.absent_packets += 1;
            return;
        };
        if query.record >= packet.records() {
            self.absent_records += 1;
            self.missing += (guarded_n == Some(query.record)) as usize;
            return;
        }
        if answer.refusal > 0 {
            self.short += 1;
            return;
        }
        self.longer += (query.band > packet.shape.numbers()) as usize;
        self.empty += (answer.bytes == 0) as usize;
        self.broken += answer.broken as usize;
        self.spent += answer.spent as usize;
        self.whole += (answer.bytes > 0 && answer.broken + answer.spent == 0) as usize;
        self.bits += answer.bits;
        self.records.note(&packet.record(query.record).1, packet.model(query.record).end);
    }

    pub fn print(&self) {
        let line = |what: &str, count: u64| println!("{what:<48}{count:>12}");
        let counts = [
            ("streams", self.streams),
            ("accepted, plain", self.plain),
            ("accepted, guarded", self.guarded),
            ("  of these too large for a tile", self.large),
            ("  of these every record asked for, and summed", self.summed),
        ];
        counts.into_iter().for_each(|(what, count)| line(what, count as u64));
        for (text, number) in TEXTS {
            line(&format!("refused {number:>2}  {text}"), self.refused[number as usize] as u64);
        }
        let counts = [
            ("questions", self.queries),
            ("  packets that are not there", self.absent_packets),
            ("  records that are not there", self.absent_records),
            ("    missing in a guarded tile", self.missing),
            ("  bands too short", self.short),
            ("  records of byte length 0", self.empty),
            ("  whole records", self.whole),
            ("  broken records", self.broken),
            ("  spent records", self.spent),
            ("    of these four with longer bands", self.longer),
        ];
        counts.into_iter().for_each(|(what, count)| line(what, count as u64));
        self.records.lines().iter().for_each(|(what, count)| line(&format!("    {what}"), *count as u64));
        line("bits taken by these records", self.bits);
        line("mismatches", self.mismatches as u64);
    }
}

/// All questions of one stream, and the sums of its records beside the tile's.
pub fn check(decoder: &impl Decoder, stream: &[u8], rng: &mut Rng, tally: &mut Tally) -> Result<(), String> {
    let (size, tile) = (oracle::header_size(stream), oracle::tile_packets(stream));
    let (queries, all) = draw_queries(rng, &tile);
    let guarded_n = size.filter(|s| s.guarded()).map(Size::n);
    let mut answers = Vec::new();
    for query in queries {
        let answer = ask(decoder, stream, &tile, query)?;
        tally.queries += 1;
        if let Ok(packets) = &tile {
            tally.count(packets, guarded_n, query, &answer);
        }
        answers.push(answer);
    }
    let (packets, size) = match (tile, size) {
        (Ok(packets), Some(size)) => (packets, size),
        (refused, _) => {
            tally.refused[refused.err().unwrap_or(2) as usize] += 1;
            return Ok(());
        }
    };
    tally.plain += guarded_n.is_none() as usize;
    tally.guarded += guarded_n.is_some() as usize;
    tally.large += size.too_large() as usize;
    if size.too_large() {
        let decoded = decoder.decode_stream(stream, &mut Slices::default());
        return equal("refusal of the tile", &decoded.refusal, &3);
    }
    if all {
        tally.summed += 1;
        answers.truncate(packets.iter().map(TilePacket::records).sum());
        check_sums(decoder, stream, size, &answers)?;
    }
    Ok(())
}

/// The records of a tile add up to what the tile's answer says.
fn check_sums(
    decoder: &impl Decoder,
    stream: &[u8],
    size: Size,
    records: &[Inspected],
) -> Result<(), String> {
    let mut slices = size.needed().map(|needed| vec![1; needed]);
    let decoded = decoder.decode_stream(stream, &mut slices);
    let sum = |field: fn(&Inspected) -> u64| records.iter().map(field).sum::<u64>();
    let sums = [0, sum(|r| r.bits), sum(|r| r.broken), sum(|r| r.spent)];
    let tile = [decoded.refusal, decoded.bits, decoded.broken, decoded.spent];
    if tile == sums {
        return Ok(());
    }
    Err(format!("refusal, bits, broken, spent: the tile {tile:?}, its records {sums:?}"))
}

/// The table of a run, and the shortest stream that fails with what went wrong in it.
pub type Outcome = (Tally, Option<(Vec<u8>, String)>);

/// Runs `count` random streams.
pub fn run(decoder: &impl Decoder, seed: u64, count: usize) -> Outcome {
    let mut seeds = Rng::new(seed);
    let mut tally = Tally::default();
    let mut failing: Option<(Vec<u8>, String)> = None;
    for _ in 0..count {
        let rng = &mut Rng::new(seeds.word());
        let stream = draw(rng);
        tally.streams += 1;
        if let Err(what) = check(decoder, &stream, rng, &mut tally) {
            tally.mismatches += 1;
            if failing.as_ref().is_none_or(|(shortest, _)| stream.len() < shortest.len()) {
                failing = Some((stream, what));
            }
        }
    }
    (tally, failing)
}

#[cfg(test)]
mod tests {
    use super::*;
    use crate::ours::mock::{Misread, Mistaken, Mock, Told};
    use crate::ours::Decoded;
    use crate::streams::{draw_parts, Stream};

    #[test]
    fn everything_is_met() {
        let (tally, failing) = run(&Mock, 1, 6000);
        assert_eq!((tally.mismatches, failing), (0, None));
        let counts = [tally.plain, tally.guarded, tally.large, tally.summed, tally.missing];
        assert!(counts.iter().all(|&count| count > 30), "{counts:?}");
        let records = [tally.empty, tally.whole, tally.broken, tally.spent, tally.longer, tally.short];
        assert!(records.iter().all(|&count| count > 1000), "{records:?}");
        assert!(tally.absent_packets.min(tally.absent_records) > 1000);
        for (what, count) in tally.records.lines() {
            assert!(count >= 10, "{what}: {count}");
        }
        for (text, number) in TEXTS {
            assert!(tally.refused[number as usize] >= 3, "{text}: {}", tally.refused[number as usize]);
        }
    }

    fn is_there(told: &Told) -> bool {
        *told.4 != Inspected::default() && told.4.refusal == 0
    }

    /// Where the band of a question is not written, the mistake is.
    fn clear(told: Told, from: usize) {
        told.3.iter_mut().skip(from).for_each(|number| *number = 0);
    }

    #[test]
    fn mistakes_are_found() {
        let mistakes: [fn(Told); 17] = [
            // Zeros past the end are counted; a record that runs out counts nothing more than the last
            // whole read; the opening bits after a stopped row are not counted.
            |told| told.4.bits += told.4.spent,
            |told| told.4.bits -= told.4.spent,
            |told| told.4.bits -= told.4.broken,
            // Whole bytes; the allowance for what was taken, and bytes for the allowance.
            |told| told.4.bits = told.4.bits.next_multiple_of(8),
            |told| told.4.bits = told.4.allowance,
            |told| told.4.allowance = 8 * told.4.bytes,
            |told| told.4.bytes = told.4.allowance / 8,
            // Spent records count as broken.
            |told| (told.4.broken, told.4.spent) = (told.4.broken + told.4.spent, 0),
            // What is not there is refused, or another is taken for it.
            |told| told.4.refusal = if told.1 > 12 { 9 } else { told.4.refusal },
            |(stream, packet, record, band, answer)| *answer = Mock.record(stream, packet % 16, record, band),
            |(stream, packet, record, band, answer)| {
                *answer = Mock.record(stream, packet, record as u32 as usize, band)
            },
            |(stream, packet, record, band, answer)| {
                let (first, second) = (answer.refusal == 0 && band.is_empty(), Inspected::refused(4));
                *answer = if first { second } else { Mock.record(stream, packet, record, band) }
            },
            // Packets go by group and not by index.
            |(stream, packet, record, band, answer)| {
                let by_group = if packet < 12 { packet % 3 * 4 + packet / 3 } else { packet };
                *answer = Mock.record(stream, by_group, record, band)
            },
            // Number 4 comes first.
            |told| told.4.refusal = if told.3.is_empty() { 4 } else { told.4.refusal },
            // Numbers change where nothing is written.
            |told| {
                if told.4.refusal > 0 {
                    clear(told, 0)
                }
            },
            |told| {
                if *told.4 == Inspected::default() {
                    clear(told, 0)
                }
            },
            |told| {
                if is_there(&told) {
                    told.3.last_mut().into_iter().for_each(|number| *number ^= 1)
                }
            },
        ];
        for (i, mistake) in mistakes.into_iter().enumerate() {
            let (tally, failing) = run(&Misread(mistake), 5, 300);
            assert!(tally.mismatches > 2, "mistake {i}: {}", tally.mismatches);
            assert!(failing.is_some_and(|(_, what)| what.starts_with("Query")), "mistake {i}");
        }
    }

    /// A tile's answer that is not the sum of its records.
    #[test]
    fn sums_are_compared() {
        let mistakes: [fn(&[u8], &mut Slices, &mut Decoded); 3] = [
            |_, _, decoded| decoded.bits += 1,
            |_, _, decoded| decoded.spent += decoded.broken,
            |_, _, decoded| decoded.broken += decoded.spent,
        ];
        for mistake in mistakes {
            let (tally, failing) = run(&Mistaken(mistake), 5, 300);
            let (_, what) = failing.expect("the mistake shows");
            assert!(tally.mismatches > 20 && what.starts_with("refusal, bits, broken, spent: "), "{what}");
        }
    }

    /// The last record of each packet, by the place of its packet in the stream.
    #[test]
    fn packets_are_numbered_in_the_order_of_the_checks() {
        let (rng, size) = (&mut Rng::new(1), Size { width: 32, half: 13 });
        let recipe = Recipe { fewer: 2, ..Recipe::ordinary(9.0, [0, 4]) };
        let Stream { bytes, packets, .. } = assemble(&draw_parts(rng, size, &recipe));
        let places = (0..3).flat_map(|index| (0..4).map(move |group| (group, index))).chain([(4, 0)]);
        let mut fewer = 0;
        for (number, (group, index)) in places.enumerate() {
            let (start, length) = packets[group][index];
            let (packet, shape) = (&bytes[start..start + length], size.shape(group));
            let records = u16::from_be_bytes([packet[7], packet[8]]) as usize;
            let (coefficients, _) = oracle::packet_coefficients(packet, shape, records).unwrap();
            let mut band = vec![7; shape.numbers() + 1];
            let answer = Mock.record(&bytes, number, records - 1, &mut band);
            assert_eq!(band[..shape.numbers()], coefficients[(records - 1) * shape.numbers()..]);
            assert_eq!((band[shape.numbers()], answer.refusal), (7, 0));
            assert!(answer.bits > 0 && answer.bits <= answer.allowance);
            assert_eq!(Mock.record(&bytes, number, records, &mut band), Inspected::default());
            fewer += (records == size.n()) as usize;
        }
        assert!(fewer > 0 && fewer < 13);
    }
}
