//! Numbers: the crate's strict readers, and writers of ours that they check.

use crate::storage::parse::{self, Input, ParseError, ParseResult};
use crate::Refusal;

/// A value, signed ones by their bits, and how many bytes it took.
pub type Reading = Result<(u64, usize), Refusal>;

fn read<T>(
    bytes: &[u8],
    reader: impl for<'a> Fn(Input<'a>) -> ParseResult<'a, T, parse::leb128::Error>,
    bits: impl Fn(T) -> u64,
) -> Reading {
    match reader(Input::new(bytes)) {
        Ok((rest, value)) => Ok((bits(value), bytes.len() - rest.unconsumed_bytes().len())),
        Err(ParseError::Incomplete(_)) => Err(ended(bytes)),
        Err(ParseError::Error(e)) => Err(refusal(&e)),
    }
}

/// Document 02, [8]: where the crate says that the bytes end, they end within a number (1), behind a byte with bit 7 set, or
/// where a number is due (21). The crate has one error for both; the last byte tells them apart.
pub(crate) fn ended(bytes: &[u8]) -> Refusal {
    match bytes.last() {
        Some(0x80..) => 1,
        _ => 21,
    }
}

pub(crate) fn refusal(error: &parse::leb128::Error) -> Refusal {
    match error {
        parse::leb128::Error::Leb128TooLarge => 2,
        parse::leb128::Error::Leb128Overlong => 3,
        parse::leb128::Error::UnexpectedZero => 4,
    }
}

pub fn leb128_u64(bytes: &[u8]) -> Reading {
    read(bytes, parse::leb128_u64, |v| v)
}

pub fn leb128_i64(bytes: &[u8]) -> Reading {
    read(bytes, parse::leb128_i64, |v| v as u64)
}

pub fn leb128_u32(bytes: &[u8]) -> Reading {
    read(bytes, parse::leb128_u32, u64::from)
}

pub fn nonzero_leb128_u64(bytes: &[u8]) -> Reading {
    read(bytes, parse::nonzero_leb128_u64, |v| v.get())
}

/// A reader and its name.
pub type Reader = (&'static str, fn(&[u8]) -> Reading);

pub const READERS: [Reader; 4] = [
    ("leb128_u64", leb128_u64),
    ("leb128_i64", leb128_i64),
    ("leb128_u32", leb128_u32),
    ("nonzero_leb128_u64", nonzero_leb128_u64),
];

/// Behaviour of ours: the stand-in writer.
pub fn write_u64(value: u64) -> Vec<u8> {
    let mut bytes = vec![];
    ::leb128::write::unsigned(&mut bytes, value).unwrap();
    bytes
}

/// Behaviour of ours: the stand-in writer.
pub fn write_i64(value: i64) -> Vec<u8> {
    let mut bytes = vec![];
    ::leb128::write::signed(&mut bytes, value).unwrap();
    bytes
}
