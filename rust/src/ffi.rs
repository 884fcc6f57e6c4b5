//! The C interface of the library `libarw6.a`, called with slices. compare/ takes this file too.

/// What to lend for a stream; refusal 2 or 3 has 0 in all other fields. The height is the coded height H.
#[repr(C)]
#[derive(Debug, Clone, Copy, Default, PartialEq, Eq)]
pub struct Lengths {
    pub refusal: u64,
    pub width: u64,
    pub height: u64,
    pub rows: u64,
    pub green: u64,
    pub red: u64,
    pub blue: u64,
    pub work: u64,
}

/// The answer for a stream; a refusal has 0 in all other fields. The height is the coded height H,
/// `stopped` is the sum of `broken` and `spent`, and `bits` is what the records took from their allowances.
#[repr(C)]
#[derive(Debug, Clone, Copy, Default, PartialEq, Eq)]
pub struct Decoded {
    pub refusal: u64,
    pub width: u64,
    pub height: u64,
    pub rows: u64,
    pub stopped: u64,
    pub broken: u64,
    pub spent: u64,
    pub bits: u64,
}

/// The answer for one record of a stream; a refusal, and a record that isn't there, have 0 in all other
/// fields.
#[repr(C)]
#[derive(Debug, Clone, Copy, Default, PartialEq, Eq)]
pub struct Inspected {
    pub refusal: u64,
    pub bytes: u64,
    pub allowance: u64,
    pub bits: u64,
    pub broken: u64,
    pub spent: u64,
}

/// The answer for planes that are to be written; a refusal has length 0.
#[repr(C)]
#[derive(Debug, Clone, Copy, Default, PartialEq, Eq)]
pub struct Written {
    pub refusal: u64,
    pub length: u64,
}

extern "C" {
    fn arw6_tile_count(strip: *const u8, strip_len: usize, frame_width: usize, frame_height: usize) -> usize;
    fn arw6_tile_field(
        strip: *const u8,
        strip_len: usize,
        frame_width: usize,
        frame_height: usize,
        ordinal: usize,
        field: usize,
    ) -> usize;
    fn arw6_lengths(stream: *const u8, stream_len: usize) -> Lengths;
    fn arw6_decode_stream(
        stream: *const u8,
        stream_len: usize,
        green: *mut i32,
        green_len: usize,
        red: *mut i32,
        red_len: usize,
        blue: *mut i32,
        blue_len: usize,
        work: *mut i32,
        work_len: usize,
    ) -> Decoded;
    fn arw6_record(
        stream: *const u8,
        stream_len: usize,
        packet: usize,
        record: usize,
        band: *mut i32,
        band_len: usize,
    ) -> Inspected;
    fn arw6_write_stream(
        green: *const i32,
        green_len: usize,
        red: *const i32,
        red_len: usize,
        blue: *const i32,
        blue_len: usize,
        width: usize,
        height: usize,
        work: *mut i32,
        work_len: usize,
        stream: *mut u8,
        stream_len: usize,
    ) -> Written;
}

/// How many tiles a strip has in a frame of a width and a height.
pub fn tile_count(strip: &[u8], frame: (usize, usize)) -> usize {
    // SAFETY: the pointer and the length are those of one slice, which the call only reads.
    unsafe { arw6_tile_count(strip.as_ptr(), strip.len(), frame.0, frame.1) }
}

/// Field 0 to 5 of a tile: offset, length, x, y, width, height.
pub fn tile_field(strip: &[u8], frame: (usize, usize), ordinal: usize, field: usize) -> usize {
    // SAFETY: as for the count.
    unsafe { arw6_tile_field(strip.as_ptr(), strip.len(), frame.0, frame.1, ordinal, field) }
}

/// The lengths for one tile.
pub fn lengths(stream: &[u8]) -> Lengths {
    // SAFETY: as for the count.
    unsafe { arw6_lengths(stream.as_ptr(), stream.len()) }
}

/// One tile into the planes' slices, with the work slice.
pub fn decode_stream(
    stream: &[u8],
    green: &mut [i32],
    red: &mut [i32],
    blue: &mut [i32],
    work: &mut [i32],
) -> Decoded {
    // SAFETY: each pointer and length are those of one slice, no two of which share a byte.
    unsafe {
        arw6_decode_stream(
            stream.as_ptr(),
            stream.len(),
            green.as_mut_ptr(),
            green.len(),
            red.as_mut_ptr(),
            red.len(),
            blue.as_mut_ptr(),
            blue.len(),
            work.as_mut_ptr(),
            work.len(),
        )
    }
}

/// One record of a packet, 0 to 12, into the start of the band.
pub fn record(stream: &[u8], packet: usize, record: usize, band: &mut [i32]) -> Inspected {
    // SAFETY: as for decoding.
    unsafe { arw6_record(stream.as_ptr(), stream.len(), packet, record, band.as_mut_ptr(), band.len()) }
}

/// The stream of a tile of a coded width and height from its planes, green, red and blue, with the work
/// slice.
pub fn write_stream(
    [green, red, blue]: [&[i32]; 3],
    (width, height): (usize, usize),
    work: &mut [i32],
    stream: &mut [u8],
) -> Written {
    // SAFETY: as for decoding; the planes are only read.
    unsafe {
        arw6_write_stream(
            green.as_ptr(),
            green.len(),
            red.as_ptr(),
            red.len(),
            blue.as_ptr(),
            blue.len(),
            width,
            height,
            work.as_mut_ptr(),
            work.len(),
            stream.as_mut_ptr(),
            stream.len(),
        )
    }
}
