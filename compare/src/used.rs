//! The rows of a record bit by bit, from documents 01 and 02 alone: each read counts what it takes, and
//! the one that runs past the allowance has a name.

use crate::encoder::{scaled, MAX_WIDTH};
use crate::size::Shape;

/// The kinds of read, in the order of document 01's 'Coefficients'.
#[derive(Debug, Clone, Copy, PartialEq, Eq)]
pub enum Read {
    /// The opening bits of a width update.
    First,
    Second,
    /// The unary after 10.
    Growth,
    /// The bits looked through after 11.
    Search,
    /// The zeros of a zero run, with the one after them.
    Run,
    /// The z bits of a zero run.
    Extra,
    /// The unary after a zero run.
    Width,
    Value,
    Sign,
}

impl Read {
    pub const ALL: [Read; 9] = [
        Read::First,
        Read::Second,
        Read::Growth,
        Read::Search,
        Read::Run,
        Read::Extra,
        Read::Width,
        Read::Value,
        Read::Sign,
    ];

    pub fn name(self) -> &'static str {
        match self {
            Read::First => "a first opening bit",
            Read::Second => "a second opening bit",
            Read::Growth => "the unary of an update",
            Read::Search => "the search of an update",
            Read::Run => "the search of a zero run",
            Read::Extra => "the bits of a zero run",
            Read::Width => "the unary after a zero run",
            Read::Value => "a value",
            Read::Sign => "a sign",
        }
    }

    /// Whether it takes one bit, so that it runs out at its start or not at all.
    pub fn is_single(self) -> bool {
        matches!(self, Read::First | Read::Second | Read::Sign)
    }
}

/// Where the allowance ends for a record that is spent.
#[derive(Debug, Clone, Copy, PartialEq, Eq)]
pub struct End {
    pub read: Read,
    /// After some of the read's bits; else before the first.
    pub within: bool,
}

/// One read: where it starts and what it takes.
#[derive(Debug, Clone, Copy, PartialEq, Eq)]
pub struct Taken {
    pub read: Read,
    pub at: usize,
    pub bits: usize,
}

/// What a record comes to.
#[derive(Debug, Clone, Default, PartialEq, Eq)]
pub struct Outcome {
    pub coefficients: Vec<i32>,
    /// The status after each row; none where the byte length is 0.
    pub statuses: Vec<u8>,
    /// Bits taken from the allowance.
    pub bits: u64,
    /// None where the first status that is not 0 is 1, or there is none.
    pub end: Option<End>,
}

/// The reader of one record.
struct Reader<'a, Note: FnMut(Taken)> {
    payload: &'a [u8],
    allowance: usize,
    used: usize,
    status: u8,
    end: Option<End>,
    note: Note,
}

impl<Note: FnMut(Taken)> Reader<'_, Note> {
    /// One bit; None at the allowance. Bytes past the packet are 0.
    fn take(&mut self) -> Option<u32> {
        if self.used == self.allowance {
            return None;
        }
        let byte = self.payload.get(self.used / 8).copied().unwrap_or(0);
        let bit = byte >> (7 - self.used % 8) & 1;
        self.used += 1;
        Some(bit as u32)
    }

    /// A read that started at a place ran past the allowance.
    fn run_out(&mut self, read: Read, at: usize) {
        if self.status == 0 {
            self.end = Some(End { read, within: self.used > at });
        }
        self.status = 2;
    }

    fn told(&mut self, read: Read, at: usize) {
        (self.note)(Taken { read, at, bits: self.used - at });
    }

    /// So many bits; past the allowance zeros.
    fn bits(&mut self, read: Read, count: u32) -> u32 {
        let at = self.used;
        let mut value = 0;
        for _ in 0..count {
            let bit = self.take();
            if bit.is_none() {
                self.run_out(read, at);
            }
            value = 2 * value + bit.unwrap_or(0);
        }
        self.told(read, at);
        value
    }

    /// The zeros before a one among the next bits, at most so many; None if there is no one.
    fn zeros(&mut self, read: Read, most: usize) -> Option<usize> {
        let at = self.used;
        let mut found = None;
        for zeros in 0..most {
            match self.take() {
                Some(0) => continue,
                Some(_) => found = Some(zeros),
                None => self.run_out(read, at),
            }
            break;
        }
        self.told(read, at);
        found
    }

    /// Zeros up to and with the next one, and one more than they are.
    fn unary(&mut self, read: Read) -> u32 {
        let at = self.used;
        let zeros = self.zeros(read, usize::MAX).unwrap_or(self.used - at);
        zeros as u32 + 1
    }

    fn update(&mut self, width: u32) -> u32 {
        if self.bits(Read::First, 1) == 0 || self.status != 0 {
            return width;
        }
        let second = self.bits(Read::Second, 1);
        if self.status != 0 {
            return width;
        }
        if second == 0 {
            return width + self.unary(Read::Growth);
        }
        match self.zeros(Read::Search, width.saturating_sub(1) as usize) {
            Some(zeros) => width - (zeros as u32 + 1),
            None => 0,
        }
    }

    /// A zero run with so many groups left.
    fn run(&mut self, left: usize) -> usize {
        if left == 1 {
            return 1;
        }
        let prefix = usize::BITS - (left - 1).leading_zeros();
        match self.zeros(Read::Run, prefix as usize) {
            Some(zeros) if 1 << zeros < left => {
                let extra = if zeros > 0 { self.bits(Read::Extra, zeros as u32) } else { 0 };
                left.min((1 << zeros) + extra as usize)
            }
            _ => left,
        }
    }

    fn signed(&mut self, u: u32, selector: u32) -> i32 {
        let value = scaled(u, selector);
        if value > 0 && self.bits(Read::Sign, 1) == 1 {
            return -value;
        }
        value
    }

    /// A row, which is all zeros before.
    fn row(&mut self, selector: u32, row: &mut [i32]) {
        let groups = row.len().div_ceil(4);
        let mut width = self.update(0);
        let mut g = 0;
        while g < groups {
            if self.status == 0 && width > MAX_WIDTH {
                self.status = 1;
            }
            if self.status != 0 {
                return;
            }
            if width == 0 {
                g += self.run(groups - g);
                if g < groups {
                    width = self.unary(Read::Width);
                }
                continue;
            }
            let values: [u32; 4] = std::array::from_fn(|_| self.bits(Read::Value, width));
            if g + 1 < groups {
                width = self.update(width);
            }
            let values = values.map(|u| self.signed(u, selector));
            row[4 * g..].iter_mut().zip(values).for_each(|(to, value)| *to = value);
            g += 1;
        }
    }
}

/// A record whose payload starts these bytes of its packet.
pub fn record(payload: &[u8], byte_length: usize, selectors: [u32; 3], shape: Shape) -> Outcome {
    decode(payload, byte_length, selectors, shape, |_| ())
}

/// The reads of a record of which the payload is all.
pub fn reads(payload: &[u8], selectors: [u32; 3], shape: Shape) -> Vec<Taken> {
    let mut reads = Vec::new();
    decode(payload, payload.len(), selectors, shape, |taken| reads.push(taken));
    reads
}

fn decode(
    payload: &[u8],
    byte_length: usize,
    selectors: [u32; 3],
    shape: Shape,
    note: impl FnMut(Taken),
) -> Outcome {
    let mut coefficients = vec![0; shape.numbers()];
    if byte_length == 0 {
        return Outcome { coefficients, ..Outcome::default() };
    }
    let allowance = 128 * byte_length.div_ceil(16);
    let mut reader = Reader { payload, allowance, used: 0, status: 0, end: None, note };
    let mut statuses = Vec::new();
    for (y, row) in coefficients.chunks_mut(shape.columns).enumerate() {
        reader.row(selectors[y / shape.m], row);
        statuses.push(reader.status);
    }
    let (bits, end) = (reader.used as u64, reader.end);
    Outcome { coefficients, statuses, bits, end }
}

#[cfg(test)]
mod tests {
    use super::*;
    use crate::check::Records;
    use crate::oracle::{packet_coefficients, packet_courses};
    use crate::ours::{Ours, PacketDecoder};
    use crate::packets::{packet, Room};
    use crate::records::{draw_styled, Recipe, Style};
    use crate::rng::Rng;
    use crate::size::Size;

    /// A payload of a row of some columns: its statuses, its bits and its end.
    fn row(columns: usize, payload: &[u8]) -> (Vec<u8>, u64, Option<End>) {
        let shape = Shape { kind: 1, m: 1, columns };
        let Outcome { statuses, bits, end, .. } = record(payload, payload.len(), [0; 3], shape);
        (statuses, bits, end)
    }

    #[test]
    fn rows_by_hand() {
        // A width kept at 0, a zero run of the only group: the opening bit alone.
        assert_eq!(row(4, &[0x00]), (vec![0], 1, None));
        // 10 and 01, four values of two bits under width 2, three signs.
        assert_eq!(row(4, &[0b1001_0111, 0b1000_0100]), (vec![0], 4 + 8 + 3, None));
        // 11 looks through nothing at width 0.
        assert_eq!(row(4, &[0xff]), (vec![0], 2, None));
        // Five groups: 0, then three zeros give all five; 0, then 01 and a bit give 2 + 1, and 1 is a width.
        assert_eq!(row(20, &[0x00]), (vec![0], 4, None));
        assert_eq!(row(20, &[0b0011_1000]).1, 1 + 3 + 1 + 4 + 1 + 4);
        // A width of 20: 10 and a unary of 20 bits; the next row takes its opening bit.
        let wide = [0x80, 0x00, 0x04, 0x00];
        assert_eq!(row(4, &wide), (vec![1], 22, None));
        let rows = record(&wide, 4, [0; 3], Shape { kind: 1, m: 3, columns: 4 });
        assert_eq!((rows.statuses, rows.bits), (vec![1, 1, 1], 24));
        // The unary of an update that meets the end counts all 128 bits.
        let end = End { read: Read::Growth, within: true };
        assert_eq!(row(4, &[0x80; 1]), (vec![2], 128, Some(end)));
        // Byte length 0 counts nothing.
        assert_eq!(row(4, &[]), (vec![], 0, None));
    }

    /// The model, the original's reader and, where it is linked, the library count the same bits, in
    /// records of every style and of the shapes of all groups; and each kind of read runs out, at its
    /// start and within it.
    #[test]
    fn all_count_the_same() {
        let mut rng = Rng::new(1);
        let mut met = Records::default();
        for (width, style) in [16, 32, 48, 144, 512].into_iter().flat_map(|w| Style::ALL.map(|s| (w, s))) {
            for group in 0..5 {
                let shape = Size { width, half: 8 }.shape(group);
                for mean in [0.1, 0.3, 4.0, 1000.0] {
                    let recipe = Recipe { loose: true, ..Recipe::ordinary(mean, [0, 15]) };
                    hold(&mut rng, shape, &recipe, style, &mut met);
                }
            }
        }
        for (what, count) in met.lines() {
            assert!(count >= 20, "{what}: {count}");
        }
    }

    /// Some records of a style in one packet, in which their payloads follow each other.
    fn hold(rng: &mut Rng, shape: Shape, recipe: &Recipe, style: Style, met: &mut Records) {
        let records: Vec<_> = (0..24).map(|_| draw_styled(rng, shape, recipe, style)).collect();
        let packet = packet(shape.kind, &records, Room::default());
        let courses = packet_courses(&packet, shape).unwrap();
        let (coefficients, counts) = packet_coefficients(&packet, shape, records.len()).unwrap();
        let mut at = packet.len() - 16 * records.iter().map(|r| r.payload.len()).sum::<usize>().div_ceil(16);
        let mut sum = 0;
        for (i, (record, course)) in records.iter().zip(&courses).enumerate() {
            let length = record.payload.len();
            let model = super::record(&packet[at..], length, record.selectors, shape);
            assert_eq!((&model.statuses, model.bits), (&course.statuses, course.bits), "{style:?} {shape:?}");
            assert_eq!(model.coefficients, coefficients[i * shape.numbers()..][..shape.numbers()]);
            assert_eq!(course.allowance, 128 * length.div_ceil(16) as u64);
            assert!(model.bits <= course.allowance);
            assert_eq!(model.end.is_some(), course.first() == 2);
            assert!(course.first() != 2 || model.bits == course.allowance);
            met.note(course, model.end);
            sum += model.bits;
            at += length;
        }
        let mut band = vec![1; coefficients.len()];
        let ours = Ours.packet(&packet, shape, records.len(), &mut band).unwrap();
        assert_eq!((ours, ours.bits), (counts, sum));
        assert_eq!(band, coefficients);
    }
}
