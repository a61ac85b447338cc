//! String columns: the crate's RLE encoder and decoder over strings; the length numbers by the crate's strict reader, the
//! bytes by Rust's own test of UTF-8.

use crate::columnar::encoding::{RleDecoder, RleEncoder};
use crate::{column_refusal, readings, Refusal, Walk};

/// A name, or none.
pub type Name = Option<String>;

pub fn encode(list: &[Name]) -> Vec<u8> {
    let mut encoder = RleEncoder::<_, String>::new(Vec::new());
    for name in list {
        encoder.append(name.as_ref());
    }
    let (bytes, written) = encoder.finish();
    assert_eq!(written, bytes.len());
    bytes
}

pub fn decode(column: &[u8], most: usize) -> Result<Vec<Name>, Refusal> {
    readings(RleDecoder::<String>::from(column), most)
}

pub fn walk(column: &[u8], most: usize) -> Walk<Name> {
    crate::walk(RleDecoder::<String>::from(column), most)
}

/// What the decoder gives at each of so many calls of its `next`, behind a fault too.
pub fn answers(column: &[u8], calls: usize) -> Vec<Option<Result<Name, Refusal>>> {
    let mut decoder = RleDecoder::<String>::from(column);
    (0..calls)
        .map(|_| Some(decoder.next()?.map_err(|e| column_refusal(&e))))
        .collect()
}

/// The column with the names from `start` up to `end` replaced: decoded, changed as a list and encoded again, as for integers.
pub fn splice(column: &[u8], start: usize, end: usize, new: &[Name]) -> Result<Vec<u8>, Refusal> {
    let mut list = decode(column, usize::MAX)?;
    list.splice(start..end, new.iter().cloned());
    Ok(encode(&list))
}

pub fn is_utf8(bytes: &[u8]) -> bool {
    std::str::from_utf8(bytes).is_ok()
}
