//! A writer of bits, highest first.

#[derive(Clone, Default)]
pub struct BitWriter {
    bytes: Vec<u8>,
    held: u64,
    count: u32,
}

impl BitWriter {
    /// Writes the low `bits` bits of `value`, at most 32.
    pub fn put(&mut self, value: u32, bits: u32) {
        self.held = (self.held << bits) | (value as u64 & ((1 << bits) - 1));
        self.count += bits;
        while self.count >= 8 {
            self.count -= 8;
            self.bytes.push((self.held >> self.count) as u8);
        }
    }

    /// Writes `n - 1` zeros and a one.
    pub fn unary(&mut self, n: u32) {
        for _ in 1..n {
            self.put(0, 1);
        }
        self.put(1, 1);
    }

    /// How many bits were written.
    pub fn written(&self) -> usize {
        8 * self.bytes.len() + self.count as usize
    }

    /// The bytes, the last one filled up with zeros.
    pub fn finish(mut self) -> Vec<u8> {
        if self.count > 0 {
            self.put(0, 8 - self.count);
        }
        self.bytes
    }
}

/// Overwrites `count` bits of `bytes` from bit `at` on with the low bits of `value`; bits past the
/// end are dropped.
pub fn overwrite(bytes: &mut [u8], at: usize, count: usize, value: u32) {
    for i in 0..count {
        let (bit, place) = ((value >> (count - 1 - i)) as u8 & 1, at + i);
        if let Some(byte) = bytes.get_mut(place / 8) {
            let shift = 7 - place % 8;
            *byte = (*byte & !(1 << shift)) | (bit << shift);
        }
    }
}
