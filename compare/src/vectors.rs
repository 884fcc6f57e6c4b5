//! The command `vectors`: fixed cases with the original's answers, for the program `replay`, in the
//! format that README.md describes.

use crate::oracle::{self, Counts, Planes};
use crate::packets::{packet, Room};
use crate::records::{draw_styled, Recipe, Style};
use crate::rng::Rng;
use crate::size::{Shape, Size};
use crate::streams::{assemble, draw_parts, push_directory_into_packet, Stream};
use crate::strips::{draw_fallback_strip, draw_strip, draw_table_strip, edge_strips, Strip};

mod inspected;
mod listings;
mod ordinary;
mod refusals;
#[cfg(test)]
mod tests;
mod written;

pub use written::written_case;

/// Cases of a kind one after the other.
struct Vectors {
    kind: usize,
    cases: u32,
    bytes: Vec<u8>,
}

/// The kinds and their writers; the number of the first is 1.
const KINDS: [(&str, fn(&mut Vectors, &mut Rng)); 7] = [
    ("strips", strips),
    ("refusals", refusals::refusals),
    ("records", records),
    ("tiles", tiles),
    ("listings", listings::listings),
    ("written", written::written),
    ("inspected", inspected::inspected),
];

impl Vectors {
    /// The cases of the kind with a number.
    fn of_kind(kind: usize, seed: u64) -> Vectors {
        let mut out = Vectors { kind, cases: 0, bytes: Vec::new() };
        KINDS[kind - 1].1(&mut out, &mut Rng::new(seed));
        out
    }

    /// Starts a case with its kind and its fields of fixed number.
    fn case(&mut self, fields: &[usize]) {
        self.cases += 1;
        self.words(&[self.kind]);
        self.words(fields);
    }

    fn words(&mut self, words: &[usize]) {
        words.iter().for_each(|&w| self.bytes.extend((w as u32).to_le_bytes()));
    }

    fn bytes(&mut self, bytes: &[u8]) {
        self.bytes.extend(bytes);
    }

    fn numbers(&mut self, numbers: &[i32]) {
        numbers.iter().for_each(|n| self.bytes.extend(n.to_le_bytes()));
    }

    /// Starts the case of an accepted tile; its planes follow.
    fn tile_head(&mut self, stream: &[u8], planes: &Planes) {
        let (size, [broken, spent, bits]) = (planes.size, counted(planes.counts));
        self.case(&[stream.len(), 0, size.width, size.height(), size.rows(), broken, spent, bits]);
        self.bytes(stream);
    }
}

/// All cases, led by their number, and what `replay` prints where each comes out as it should.
pub fn make(seed: u64) -> (Vec<u8>, String) {
    let kinds: Vec<Vectors> = (1..=KINDS.len()).map(|kind| Vectors::of_kind(kind, seed)).collect();
    let cases: u32 = kinds.iter().map(|k| k.cases).sum();
    let mut bytes = cases.to_le_bytes().to_vec();
    kinds.iter().for_each(|k| bytes.extend(&k.bytes));
    let line = |name: &str, cases: u32| format!("{name}: {cases} as they should be, 0 not\n");
    let text: String = kinds.iter().zip(KINDS).map(|(k, (name, _))| line(name, k.cases)).collect();
    (bytes, text + &line("of no kind", 0))
}

/// The counts of a case; the first two make up the stopped records.
fn counted(Counts { stopped, broken, spent, bits }: Counts) -> [usize; 3] {
    assert_eq!(stopped, broken + spent, "broken and spent records are the stopped ones");
    [broken, spent, bits].map(|count| count as usize)
}

fn size(width: usize, height: usize) -> Size {
    Size { width, half: height / 2 }
}

// Strips.

fn strips(out: &mut Vectors, rng: &mut Rng) {
    edge_strips().iter().for_each(|s| put_strip(out, s));
    for count in [1, 2, 3, 4, 8, 15, 16, 17] {
        put_strip(out, &draw_table_strip(rng, count, false));
        put_strip(out, &draw_table_strip(rng, count, true));
        put_strip(out, &draw_fallback_strip(rng, count));
    }
    for _ in 0..40 {
        let mut strip = draw_strip(rng);
        strip.frame = (strip.frame.0.min(65_536), strip.frame.1.min(65_536));
        put_strip(out, &strip);
    }
}

fn put_strip(out: &mut Vectors, strip: &Strip) {
    let tiles = oracle::tiles(&strip.bytes, strip.frame);
    out.case(&[strip.bytes.len(), strip.frame.0, strip.frame.1, tiles.len()]);
    out.bytes(&strip.bytes);
    tiles.iter().for_each(|t| out.words(t));
}

// Records.

fn records(out: &mut Vectors, rng: &mut Rng) {
    let styles = [Style::Coded, Style::Empty, Style::Noise, Style::Wide, Style::Cut, Style::Same];
    for group in [0, 1, 2, 3, 4, 0, 1, 2, 3, 4] {
        for style in styles {
            put_records(out, rng, group, style, false);
        }
        put_records(out, rng, group, Style::Coded, true);
        put_records(out, rng, group, Style::Cut, true);
    }
    for group in [0, 1, 2, 3, 4, 1, 2, 3, 4] {
        for style in [Style::Brink, Style::Brink, Style::Spent, Style::Past] {
            put_records(out, rng, group, style, false);
        }
        put_records(out, rng, group, Style::Brink, true);
    }
}

/// A packet of records, most of them of the style, with one record fewer than expected if so
/// asked.
fn put_records(out: &mut Vectors, rng: &mut Rng, group: usize, style: Style, fewer: bool) {
    let width = rng.pick(&[[16, 48, 512], [16, 80, 256], [16, 48, 64], [16, 32, 48], [16, 32, 48]][group]);
    let shape = size(width, 16).shape(group);
    let recipe =
        Recipe { selectors: [0, rng.pick(&[0, 4, 15])], loose: true, ..Recipe::ordinary(0.0, [0, 0]) };
    let expected = rng.within(2, 4);
    let count = expected - fewer as usize;
    let drawn = |rng: &mut Rng| {
        let means = if style == Style::Cut { [40.0, 1e5, 1e5] } else { [0.3, 10.0, 1e5] };
        let recipe = Recipe { mean: rng.pick(&means), ..recipe.clone() };
        let style = if rng.one_in(3) { Style::Coded } else { style };
        draw_styled(rng, shape, &recipe, style)
    };
    let records: Vec<_> = (0..count).map(|_| drawn(rng)).collect();
    let control = if rng.one_in(4) { Some(1) } else { None };
    put_packet(out, &packet(shape.kind, &records, Room { control, ..Room::default() }), shape, expected);
}

fn put_packet(out: &mut Vectors, packet: &[u8], shape: Shape, records: usize) {
    let (coefficients, counts) =
        oracle::packet_coefficients(packet, shape, records).expect("the packet is well formed");
    let [broken, spent, bits] = counted(counts);
    out.case(&[packet.len(), shape.kind, shape.m, shape.columns, records, broken, spent, bits]);
    out.bytes(packet);
    out.numbers(&coefficients);
}

// Tiles.

fn tiles(out: &mut Vectors, rng: &mut Rng) {
    let sizes = [
        (16, 14),
        (16, 16),
        (16, 26),
        (16, 18),
        (16, 32),
        (16, 40),
        (32, 16),
        (32, 34),
        (48, 30),
        (64, 16),
        (64, 18),
    ];
    for (width, height) in sizes {
        for (mean, selector, odd) in [(0.5, 0, 0), (30.0, 4, 3), (3000.0, 15, 4)] {
            let recipe = Recipe { odd, fewer: 3, loose: true, ..Recipe::ordinary(mean, [0, selector]) };
            put_drawn(out, rng, size(width, height), &recipe);
        }
    }
    put_tile(out, &directory_in_packet(rng).bytes);
    ordinary::put_ordinary(out, rng);
    put_at_end(out, rng);
}

/// Tiles with records at the end of their allowance.
fn put_at_end(out: &mut Vectors, rng: &mut Rng) {
    for (width, height) in [(16, 16), (16, 18), (16, 32), (32, 16), (32, 34), (64, 18)] {
        for (mean, selector) in [(0.3, 0), (30.0, 15)] {
            let recipe = Recipe {
                odd: 2,
                styles: &Style::AT_END,
                fewer: 3,
                loose: true,
                ..Recipe::ordinary(mean, [0, selector])
            };
            put_drawn(out, rng, size(width, height), &recipe);
        }
    }
}

fn put_drawn(out: &mut Vectors, rng: &mut Rng, size: Size, recipe: &Recipe) {
    put_tile(out, &assemble(&draw_parts(rng, size, recipe)).bytes);
}

/// A stream whose fifth directory block is the first packet's header, with bytes after its end.
fn directory_in_packet(rng: &mut Rng) -> Stream {
    let recipe = Recipe::ordinary(0.2, [0, 2]);
    let mut parts = draw_parts(rng, size(16, 16), &recipe);
    push_directory_into_packet(rng, &mut parts, &recipe);
    parts.trailing = rng.bytes(5);
    assemble(&parts)
}

fn put_tile(out: &mut Vectors, stream: &[u8]) {
    let planes = match oracle::decode(stream, [usize::MAX; 4]) {
        Err(refusal) => {
            out.case(&[stream.len(), refusal as usize, 0, 0, 0, 0, 0, 0]);
            return out.bytes(stream);
        }
        Ok(planes) => planes,
    };
    out.tile_head(stream, &planes);
    [&planes.green, &planes.red, &planes.blue].into_iter().for_each(|p| out.numbers(p));
}
