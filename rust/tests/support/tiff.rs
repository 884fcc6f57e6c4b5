//! A writer of TIFFs, and the files made with it.

use super::header;

pub const SHORT: u16 = 3;
pub const LONG: u16 = 4;
pub const IFD: u16 = 13;
pub const LONG8: u16 = 16;
pub const IFD8: u16 = 18;

pub const WIDTH: u16 = 256;
pub const HEIGHT: u16 = 257;
pub const OFFSETS: u16 = 273;
pub const LENGTHS: u16 = 279;
pub const SUBS: u16 = 330;

pub const ORDERS: [Order; 2] = [Order::Little, Order::Big];

#[derive(Debug, Clone, Copy, PartialEq, Eq)]
pub enum Order {
    Little,
    Big,
}

impl Order {
    /// The last `size` bytes of a number, in this order.
    pub fn bytes(self, number: u64, size: usize) -> Vec<u8> {
        match self {
            Order::Little => number.to_le_bytes()[..size].to_vec(),
            Order::Big => number.to_be_bytes()[8 - size..].to_vec(),
        }
    }
}

/// A field of a directory: its tag, its type and its values.
#[derive(Debug, Clone)]
pub struct Field {
    pub tag: u16,
    pub kind: u16,
    pub values: Vec<u64>,
}

pub fn field(tag: u16, kind: u16, values: &[u64]) -> Field {
    Field { tag, kind, values: values.to_vec() }
}

/// The fields of an image with one strip.
pub fn image(frame: (usize, usize), strip: u64, length: usize) -> Vec<Field> {
    vec![
        field(WIDTH, SHORT, &[frame.0 as u64]),
        field(HEIGHT, LONG, &[frame.1 as u64]),
        field(OFFSETS, LONG, &[strip]),
        field(LENGTHS, LONG, &[length as u64]),
    ]
}

/// An image's fields and its SubIFDs.
pub fn with_subs(mut fields: Vec<Field>, subs: &[u64]) -> Vec<Field> {
    fields.push(field(SUBS, LONG, subs));
    fields
}

/// A TIFF that grows at its end.
#[derive(Debug, Clone)]
pub struct Writer {
    pub order: Order,
    pub bytes: Vec<u8>,
}

impl Writer {
    /// A header that names no directory.
    pub fn new(order: Order) -> Writer {
        let start = match order {
            Order::Little => b"II*\0\0\0\0\0",
            Order::Big => b"MM\0*\0\0\0\0",
        };
        Writer { order, bytes: start.to_vec() }
    }

    pub fn put(&mut self, at: u64, number: u64, size: usize) {
        let at = at as usize;
        self.bytes[at..at + size].copy_from_slice(&self.order.bytes(number, size));
    }

    /// Appends bytes at an even place, which is returned.
    pub fn append(&mut self, bytes: &[u8]) -> u64 {
        self.bytes.resize(self.bytes.len().next_multiple_of(2), 0);
        let at = self.bytes.len();
        self.bytes.extend(bytes);
        at as u64
    }

    fn number(&mut self, number: u64, size: usize) {
        self.bytes.extend(self.order.bytes(number, size));
    }

    /// Appends a directory without a next one, after those values that have no room in it.
    pub fn directory(&mut self, fields: &[Field]) -> u64 {
        let places: Vec<Vec<u8>> = fields.iter().map(|field| self.place(field)).collect();
        let at = self.append(&self.order.bytes(fields.len() as u64, 2));
        for (field, place) in fields.iter().zip(places) {
            self.number(field.tag.into(), 2);
            self.number(field.kind.into(), 2);
            self.number(field.values.len() as u64, 4);
            self.bytes.extend(place);
        }
        self.number(0, 4);
        at
    }

    /// The last four bytes of a field's entry: its values, or where they are written.
    fn place(&mut self, field: &Field) -> Vec<u8> {
        let size = match field.kind {
            SHORT => 2,
            LONG8 | IFD8 => 8,
            _ => 4,
        };
        let mut values: Vec<u8> = field.values.iter().flat_map(|&v| self.order.bytes(v, size)).collect();
        if values.len() > 4 {
            let at = self.append(&values);
            values = self.order.bytes(at, 4);
        }
        values.resize(4, 0);
        values
    }

    /// Names the first directory.
    pub fn first(mut self, directory: u64) -> Vec<u8> {
        self.put(4, directory, 4);
        self.bytes
    }

    /// Names the directory after one with that many fields.
    pub fn next(&mut self, directory: u64, fields: u64, next: u64) {
        self.put(directory + 2 + 12 * fields, next, 4);
    }
}

/// A file with a strip at its end. What stands before is written twice, as the strip's place is known
/// only then.
pub fn strip_last(strip: &[u8], start: impl Fn(u64) -> Vec<u8>) -> Vec<u8> {
    let length = start(0).len() as u64;
    [start(length), strip.to_vec()].concat()
}

/// Document 01's example strip, for a frame of 16 by 16.
pub fn example_strip() -> Vec<u8> {
    [vec![0; 512], header(16, 16)].concat()
}

/// A preview, as its first bytes and its last would be.
pub const PREVIEW: &[u8] = b"\xff\xd8\xff\xe0\0\x10JFIF\0\xff\xd9";

/// A file as cameras write it: a preview and a SubIFD in the first directory, a thumbnail in the
/// second, and the SubIFD's strip at the end.
pub fn camera_file(order: Order, frame: (usize, usize), strip: &[u8]) -> Vec<u8> {
    strip_last(strip, |at| {
        let mut file = Writer::new(order);
        let preview = file.append(PREVIEW);
        let raw = file.directory(&image(frame, at, strip.len()));
        let thumbnail = file.directory(&image((16, 12), preview, PREVIEW.len()));
        let main = file.directory(&with_subs(image((160, 120), preview, PREVIEW.len()), &[raw]));
        file.next(main, 5, thumbnail);
        file.first(main)
    })
}

/// The types of a plain TIFF's offsets, of numbers and of directories; and those with 8 bytes.
pub const KINDS: [[u16; 2]; 2] = [[LONG, IFD], [LONG8, IFD8]];

/// A file whose directories stand after the strip, which is in two parts, in a SubIFD of a SubIFD.
pub fn nested_file(order: Order, [long, ifd]: [u16; 2], frame: (usize, usize), strip: &[u8]) -> Vec<u8> {
    let mut file = Writer::new(order);
    let at = file.append(strip);
    let (half, rest) = (strip.len() as u64 / 2, strip.len().div_ceil(2) as u64);
    let raw = [
        field(WIDTH, SHORT, &[frame.0 as u64]),
        field(HEIGHT, long, &[frame.1 as u64]),
        field(OFFSETS, long, &[at, at + half]),
        field(LENGTHS, LONG, &[half, rest]),
    ];
    let raw = file.directory(&raw);
    let empty = file.directory(&[]);
    let inner = file.directory(&[field(SUBS, ifd, &[empty, raw])]);
    let main = file.directory(&[field(SUBS, ifd, &[inner])]);
    file.first(main)
}

/// Files of each form in both byte orders.
pub fn made_files(frame: (usize, usize), strip: &[u8]) -> Vec<Vec<u8>> {
    let forms = |order: Order| {
        let nested = KINDS.map(|kinds| nested_file(order, kinds, frame, strip));
        [vec![camera_file(order, frame, strip)], nested.to_vec()].concat()
    };
    ORDERS.into_iter().flat_map(forms).collect()
}
