//! The command `bench`: thread CPU time of whole tiles and of their coefficients alone, the
//! original in serial order and ours, and of writing the planes again, which the original cannot.

use crate::oracle::{packet_coefficients, Counts};
use crate::original::{decode_stream, packet_planes, parse_directory, DirEntry, Plane};
use crate::ours::{Decoder, PacketDecoder, Slices, Writer};
use crate::records::Recipe;
use crate::rng::Rng;
use crate::size::Size;
use crate::streams::{assemble, draw_parts, Stream};
use std::hint::black_box;

const ROUNDS: usize = 9;

/// Least and greatest selectors, and the means that give about 1, 3 and 5 bits for each
/// coefficient.
const SELECTORS: [[u32; 2]; 3] = [[0, 0], [0, 2], [1, 4]];
const MEANS: [f64; 3] = [0.46, 1.42, 4.5];

/// The means that give about 9, 15 and 18 bits, and selectors under which values are cut.
const WIDE: [f64; 3] = [70.0, 6000.0, 60_000.0];
const HIGH: [u32; 2] = [12, 15];

/// What is measured: whole tiles, their coefficients alone, or writing their planes.
#[derive(Debug, Clone, Copy, PartialEq, Eq)]
pub enum Part {
    Tile,
    Coefficients,
    Write,
}

impl Part {
    pub fn named(word: &str) -> Option<Part> {
        match word {
            "tile" => Some(Part::Tile),
            "coefficients" => Some(Part::Coefficients),
            "write" => Some(Part::Write),
            _ => None,
        }
    }
}

#[repr(C)]
#[derive(Default)]
struct Timespec {
    seconds: i64,
    nanoseconds: i64,
}

extern "C" {
    fn clock_gettime(clock: i32, time: *mut Timespec) -> i32;
}

/// CPU time of this thread in milliseconds.
fn thread_time() -> f64 {
    const CLOCK_THREAD_CPUTIME_ID: i32 = 3;
    let mut time = Timespec::default();
    // SAFETY: the call writes one timespec, which lives here.
    unsafe { clock_gettime(CLOCK_THREAD_CPUTIME_ID, &mut time) };
    time.seconds as f64 * 1e3 + time.nanoseconds as f64 / 1e6
}

fn timed(work: impl FnOnce()) -> f64 {
    let start = thread_time();
    work();
    thread_time() - start
}

fn print_times(original: f64, ours: f64) {
    print!("{original:>12.3}{ours:>9.3}{:>8.2}", original / ours);
}

/// The best times of some pieces of work that take turns.
fn by_turns<const N: usize>(mut work: [&mut dyn FnMut(); N]) -> [f64; N] {
    let mut best = [f64::MAX; N];
    for _ in 0..ROUNDS {
        for (best, work) in best.iter_mut().zip(&mut work) {
            *best = best.min(timed(work));
        }
    }
    best
}

/// Whole tiles.
fn measure_tile(decoder: &impl Decoder, stream: &Stream) {
    let mut slices: Slices = stream.size.needed().map(|length| vec![1; length]);
    let [original, ours] =
        by_turns([&mut || assert!(black_box(decode_stream(&stream.bytes, false)).is_ok()), &mut || {
            assert_eq!(decoder.decode_stream(&stream.bytes, &mut slices).refusal, 0)
        }]);
    print_times(original, ours);
}

/// The planes of a tile written, beside decoding the stream that was written; the columns stay empty
/// where the planes are refused, as those of large coefficients are.
fn measure_writing(writer: &impl Writer, stream: &Stream) {
    let [mut green, mut red, mut blue, mut work]: Slices = stream.size.needed().map(|length| vec![1; length]);
    let decode = |stream: &[u8], slices: &mut Slices| writer.decode_stream(stream, slices).refusal;
    let mut slices = [green, red, blue, work];
    assert_eq!(decode(&stream.bytes, &mut slices), 0);
    [green, red, blue, work] = slices;
    let size = stream.size;
    let mut written = vec![1; (size.n() + 1) * (50 * size.width + 480) + 768];
    let mut write = |written: &mut [u8]| {
        writer.write_stream([&green, &red, &blue], (size.width, size.height()), &mut work, written)
    };
    let answer = write(&mut written);
    if answer.refusal != 0 {
        return print!("{:>12}{:>9}{:>8}{:>8}", "-", "-", "-", "-");
    }
    let again = written[..answer.length as usize].to_vec();
    let mut planes: Slices = size.needed().map(|length| vec![1; length]);
    let [writing, decoding] = by_turns([&mut || assert_eq!(write(&mut written).refusal, 0), &mut || {
        assert_eq!(decode(&again, &mut planes), 0)
    }]);
    let bits = again.len() as f64 * 8.0 / size.needed()[3] as f64;
    print!("{writing:>12.3}{decoding:>9.3}{:>8.2}{bits:>8.2}", writing / decoding);
}

/// The packets of some groups of a stream.
struct Packets<'a> {
    stream: &'a Stream,
    directory: Vec<DirEntry>,
    groups: &'a [usize],
}

impl Packets<'_> {
    /// Group and index of each packet.
    fn all(&self) -> impl Iterator<Item = (usize, usize)> + '_ {
        self.groups.iter().flat_map(|&g| (0..self.stream.packets[g].len()).map(move |k| (g, k)))
    }

    fn original(&self, group: usize, index: usize) -> Vec<Plane> {
        let size = self.stream.size;
        let planes = packet_planes(
            &self.stream.bytes,
            &self.directory,
            size.width,
            size.height(),
            group,
            index,
            false,
        );
        black_box(planes).expect("the stream is accepted")
    }

    /// The numbers of the largest packet.
    fn longest(&self) -> usize {
        let size = self.stream.size;
        self.groups.iter().map(|&g| (size.n() + 1) * size.shape(g).numbers()).max().unwrap_or(0)
    }

    /// One packet's coefficients by ours.
    fn ours(&self, decoder: &impl PacketDecoder, group: usize, index: usize, band: &mut [i32]) -> Counts {
        let (size, (start, length)) = (self.stream.size, self.stream.packets[group][index]);
        let (shape, records) = (size.shape(group), size.n() + 1);
        let packet = &self.stream.bytes[start..start + length];
        let counts = decoder.packet(packet, shape, records, &mut band[..records * shape.numbers()]);
        counts.filter(|counts| counts.stopped == 0).expect("the packet is whole")
    }

    /// Whether both give the same coefficients and counts of every packet.
    fn agree(&self, decoder: &impl PacketDecoder, band: &mut [i32]) -> bool {
        self.all().all(|(group, index)| {
            let (start, length) = self.stream.packets[group][index];
            let (shape, records) = (self.stream.size.shape(group), self.stream.size.n() + 1);
            let packet = &self.stream.bytes[start..start + length];
            let found = self.ours(decoder, group, index, band);
            packet_coefficients(packet, shape, records)
                .is_ok_and(|(c, counts)| c == band[..c.len()] && counts == found)
        })
    }
}

/// Coefficients by the original's `packet_planes`, whose planes are dropped after each packet, so
/// that its allocator has their memory at hand, and by ours; then by the original with all planes of
/// the tile kept. Its `decode_stream` lies between: it drops a packet's planes after their level, and
/// allocates those of synthesis beside them.
fn measure_packets(decoder: &impl PacketDecoder, stream: &Stream, groups: &[usize]) {
    let directory = parse_directory(&stream.bytes).expect("the stream is accepted");
    let packets = Packets { stream, directory, groups };
    let mut band = vec![1; packets.longest()];
    assert!(packets.agree(decoder, &mut band));
    let mut drop_each = || packets.all().for_each(|(g, k)| drop(packets.original(g, k)));
    let mut our_each = || {
        for (group, index) in packets.all() {
            packets.ours(decoder, group, index, &mut band);
        }
    };
    let mut keep_all = || drop(packets.all().map(|(g, k)| packets.original(g, k)).collect::<Vec<_>>());
    let [dropped, ours] = by_turns([&mut drop_each, &mut our_each]);
    let [kept] = by_turns([&mut keep_all]);
    print_times(dropped, ours);
    print!("{kept:>12.3}{:>8.2}", kept / ours);
}

/// One line of the table.
struct Line {
    size: Size,
    selectors: [u32; 2],
    mean: f64,
}

impl Line {
    fn new(width: usize, height: usize, selectors: [u32; 2], mean: f64) -> Line {
        Line { size: Size { width, half: height / 2 }, selectors, mean }
    }

    /// The line's stream, with its first columns printed.
    fn stream(&self, rng: &mut Rng) -> Stream {
        let stream = assemble(&draw_parts(rng, self.size, &Recipe::ordinary(self.mean, self.selectors)));
        let bits = stream.bytes.len() as f64 * 8.0 / self.size.needed()[3] as f64;
        let [least, greatest] = self.selectors;
        let size = format!("{} x {}", self.size.width, self.size.height());
        print!("{size:<14}{:>9}{bits:>8.2}", format!("{least} to {greatest}"));
        stream
    }
}

/// Large tiles, plain and guarded; then other widths, small tiles, and wide values.
fn lines() -> Vec<Line> {
    let mut lines = Vec::new();
    for height in [3072, 3064] {
        for selectors in SELECTORS {
            lines.extend(MEANS.map(|mean| Line::new(4608, height, selectors, mean)));
        }
    }
    lines.extend([16, 64, 256, 1024, 8192].map(|width| Line::new(width, 3072, [0, 2], MEANS[1])));
    lines.extend([(16, 16), (16, 26), (64, 48)].map(|(w, h)| Line::new(w, h, [0, 2], MEANS[1])));
    for selectors in [SELECTORS[0], HIGH] {
        lines.extend(WIDE.map(|mean| Line::new(1024, 3072, selectors, mean)));
    }
    lines
}

/// Runs the table, or one part of its columns; then the packets whose rows have 16 columns.
pub fn run<T: PacketDecoder + Writer>(ours: &T, only: Option<Part>) {
    let has = |part: Part| only.is_none_or(|only| only == part);
    println!(
        "thread CPU time in ms, best of {ROUNDS}; ratio is the original's time over ours, in the columns"
    );
    println!("of write the time of writing over that of decoding");
    let mut rng = Rng::new(1);
    print_head(only);
    for line in lines() {
        let stream = line.stream(&mut rng);
        if has(Part::Tile) {
            measure_tile(ours, &stream);
        }
        if has(Part::Coefficients) {
            measure_packets(ours, &stream, &[0, 1, 2, 3, 4]);
        }
        if has(Part::Write) {
            measure_writing(ours, &stream);
        }
        println!();
    }
    if has(Part::Coefficients) {
        println!("\nrows of 16 columns");
        print_head(Some(Part::Coefficients));
        run_short_rows(ours, &mut rng);
    }
}

/// Group 3 at width 64 and groups 0 and 1 at width 256.
fn run_short_rows(decoder: &impl PacketDecoder, rng: &mut Rng) {
    for (width, groups) in [(64, &[3][..]), (256, &[0, 1][..])] {
        for selectors in [SELECTORS[0], SELECTORS[2]] {
            for mean in MEANS {
                let stream = Line::new(width, 3072, selectors, mean).stream(rng);
                measure_packets(decoder, &stream, groups);
                println!();
            }
        }
    }
}

fn print_head(only: Option<Part>) {
    let has = |part: Part| only.is_none_or(|only| only == part);
    print!("{:<14}{:>9}{:>8}", "size", "selectors", "bits");
    if has(Part::Tile) {
        print!("{:>12}{:>9}{:>8}", "tile: Rust", "ours", "ratio");
    }
    if has(Part::Coefficients) {
        print!("{:>12}{:>9}{:>8}{:>12}{:>8}", "coef.: Rust", "ours", "ratio", "kept: Rust", "ratio");
    }
    if has(Part::Write) {
        print!("{:>12}{:>9}{:>8}{:>8}", "write: ours", "decode", "ratio", "bits");
    }
    println!();
}
