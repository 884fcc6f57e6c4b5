//! NumPy's format: written as version 1.0 with the exact numbers, 32-bit little-endian; read with whole
//! numbers of any size that fit 32 bits.

use std::io::{Result, Write};

/// Numbers that are turned into bytes at a time.
const PART: usize = 4096;

pub fn write(numbers: &[i32], columns: usize, file: &mut impl Write) -> Result<()> {
    let rows = numbers.len() / columns;
    let header = format!("{{'descr': '<i4', 'fortran_order': False, 'shape': ({rows}, {columns}), }}");
    // Ten bytes stand before the header, a line end closes it, and the whole is a multiple of 64.
    let length = (10 + header.len() + 1).next_multiple_of(64) - 10;
    file.write_all(b"\x93NUMPY\x01\x00")?;
    file.write_all(&(length as u16).to_le_bytes())?;
    writeln!(file, "{header:width$}", width = length - 1)?;
    let mut bytes = [0; 4 * PART];
    for part in numbers.chunks(PART) {
        for (four, number) in bytes.chunks_mut(4).zip(part) {
            four.copy_from_slice(&number.to_le_bytes());
        }
        file.write_all(&bytes[..4 * part.len()])?;
    }
    Ok(())
}

/// What a file of two dimensions holds.
#[derive(Debug, PartialEq, Eq)]
pub struct Array {
    pub rows: usize,
    pub columns: usize,
    pub numbers: Vec<i32>,
}

/// Reads an array of whole numbers, or says why it is none.
pub fn read(bytes: &[u8]) -> std::result::Result<Array, String> {
    let (header, data) = header(bytes).ok_or("is no .npy file")?;
    let kind = quoted(field(header, "descr")).ok_or("is no .npy file of plain numbers")?;
    if field(header, "fortran_order").is_none_or(|order| !order.starts_with("False")) {
        return Err("has its columns first; numpy.ascontiguousarray puts the rows first".to_string());
    }
    let (rows, columns) = shape(field(header, "shape")).ok_or("has not two dimensions, rows and columns")?;
    let number =
        Number::of(kind).ok_or_else(|| format!("holds numbers of the kind '{kind}', not whole ones"))?;
    let count = rows.checked_mul(columns).and_then(|count| count.checked_mul(number.bytes));
    if count != Some(data.len()) {
        return Err(format!("has {} bytes of numbers, not those of {rows} rows by {columns}", data.len()));
    }
    let mut numbers = Vec::new();
    numbers.try_reserve_exact(rows * columns).map_err(|_| "the memory for its numbers cannot be had")?;
    for (i, bytes) in data.chunks(number.bytes).enumerate() {
        let value = number.value(bytes);
        let fits = i32::try_from(value);
        let place = || format!("row {}, column {}: {value} does not fit 32 bits", i / columns, i % columns);
        numbers.push(fits.map_err(|_| place())?);
    }
    Ok(Array { rows, columns, numbers })
}

/// The header's text, and the bytes after it; its length has two bytes, from version 2 on four.
fn header(bytes: &[u8]) -> Option<(&str, &[u8])> {
    let rest = bytes.strip_prefix(b"\x93NUMPY")?;
    let (version, rest) = rest.split_at_checked(2)?;
    let (length, rest) = rest.split_at_checked(if version[0] == 1 { 2 } else { 4 })?;
    let length = length.iter().rev().fold(0, |length, &byte| length << 8 | byte as usize);
    let (header, data) = rest.split_at_checked(length)?;
    Some((std::str::from_utf8(header).ok()?, data))
}

/// What follows a name and its colon in the header.
fn field<'a>(header: &'a str, name: &str) -> Option<&'a str> {
    let after = header.split_once(&format!("'{name}'"))?.1.trim_start();
    Some(after.strip_prefix(':')?.trim_start())
}

fn quoted(text: Option<&str>) -> Option<&str> {
    Some(text?.strip_prefix('\'')?.split_once('\'')?.0)
}

/// Rows and columns, both above 0.
fn shape(text: Option<&str>) -> Option<(usize, usize)> {
    let inner = text?.strip_prefix('(')?.split_once(')')?.0;
    let (rows, columns) = inner.split_once(',')?;
    let side = |text: &str| text.trim().parse().ok().filter(|&side| side > 0);
    Some((side(rows)?, side(columns.trim_end().trim_end_matches(','))?))
}

/// How a whole number is laid down.
struct Number {
    bytes: usize,
    signed: bool,
    big_endian: bool,
}

impl Number {
    /// Of a kind such as `<i4`: byte order, signed or not, bytes.
    fn of(kind: &str) -> Option<Number> {
        let [order, sign, bytes @ b'1'..=b'8'] = kind.as_bytes() else { return None };
        let bytes = Some((bytes - b'0') as usize).filter(|bytes| bytes.is_power_of_two())?;
        let signed = match sign {
            b'i' => true,
            b'u' => false,
            _ => return None,
        };
        matches!(order, b'<' | b'>' | b'|').then_some(Number { bytes, signed, big_endian: *order == b'>' })
    }

    fn value(&self, bytes: &[u8]) -> i128 {
        let join = |value: u64, &byte: &u8| value << 8 | byte as u64;
        let value = match self.big_endian {
            true => bytes.iter().fold(0, join),
            false => bytes.iter().rev().fold(0, join),
        };
        let unused = 64 - 8 * self.bytes as u32;
        match self.signed {
            true => ((value << unused) as i64 >> unused) as i128,
            false => value as i128,
        }
    }
}

#[cfg(test)]
mod tests {
    use super::*;

    fn file(header: &str, data: &[u8]) -> Vec<u8> {
        [b"\x93NUMPY\x01\x00", &(header.len() as u16).to_le_bytes()[..], header.as_bytes(), data].concat()
    }

    #[test]
    fn read_back() {
        let numbers = [i32::MIN, -1, 0, 7, 4096, i32::MAX];
        let mut bytes = Vec::new();
        write(&numbers, 3, &mut bytes).unwrap();
        assert_eq!(read(&bytes), Ok(Array { rows: 2, columns: 3, numbers: numbers.to_vec() }));
        assert!((0..bytes.len()).all(|length| read(&bytes[..length]).is_err()));
    }

    #[test]
    fn kinds_of_numbers() {
        let header =
            |kind: &str| format!("{{'descr': '{kind}', 'fortran_order': False, 'shape': (1, 2), }}\n");
        let read = |kind: &str, data: &[u8]| read(&file(&header(kind), data)).map(|array| array.numbers);
        assert_eq!(read("|i1", &[255, 127]), Ok(vec![-1, 127]));
        assert_eq!(read("|u1", &[255, 127]), Ok(vec![255, 127]));
        assert_eq!(read("<i2", &[0, 0x80, 1, 0]), Ok(vec![-32_768, 1]));
        assert_eq!(read(">u2", &[0x80, 0, 0, 1]), Ok(vec![32_768, 1]));
        assert_eq!(read(">i4", &[255, 255, 255, 254, 0, 0, 0, 3]), Ok(vec![-2, 3]));
        let long = [(-9i64).to_le_bytes(), 5i64.to_le_bytes()].concat();
        assert_eq!(read("<i8", &long), Ok(vec![-9, 5]));
        let told = "row 0, column 0: 18446744073709551607 does not fit 32 bits";
        assert_eq!(read("<u8", &long), Err(told.to_string()));
        for kind in ["<f4", "<i3", "=i4", "i4", "<i9", "", "<i16"] {
            assert!(read(kind, &[0; 8]).is_err(), "{kind}");
        }
    }

    #[test]
    fn what_is_no_array_of_rows() {
        let with = |order: &str, shape: &str| {
            let header = format!("{{'descr': '<i4', 'fortran_order': {order}, 'shape': {shape}, }}");
            read(&file(&header, &[0; 16]))
        };
        assert!(with("False", "(2, 2)").is_ok() && with("False", "(1,4)").is_ok());
        for shape in ["(4,)", "(2, 2, 1)", "(0, 4)", "()", "(2, 3)", "(-1, 4)", "(9223372036854775807, 4)"] {
            assert!(with("False", shape).is_err(), "{shape}");
        }
        assert!(with("True", "(2, 2)").is_err());
        assert!(read(b"").is_err() && read(b"PK\x03\x04").is_err());
    }

    #[test]
    fn header_and_numbers() {
        let mut bytes = Vec::new();
        write(&[i32::MIN, -2047, 1, i32::MAX], 4, &mut bytes).unwrap();
        let (head, numbers) = bytes.split_at(128);
        assert_eq!(&head[..10], b"\x93NUMPY\x01\x00\x76\x00");
        assert!(head[10..].starts_with(b"{'descr': '<i4', 'fortran_order': False, 'shape': (1, 4), } "));
        assert!(head.ends_with(b" \n"));
        assert_eq!(numbers, b"\0\0\0\x80\x01\xf8\xff\xff\x01\0\0\0\xff\xff\xff\x7f");
    }
}
