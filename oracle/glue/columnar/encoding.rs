// The crate's encoding.rs is not at hand. The traits are names, taken from what its files ask of them; how numbers are
// read and written under them is behaviour of ours.
pub(crate) mod raw;
pub(crate) use raw::RawDecoder;
mod rle;
pub(crate) use rle::{RleDecoder, RleEncoder};
mod boolean;
pub(crate) use boolean::{
    BooleanDecoder, BooleanEncoder, MaybeBooleanDecoder, MaybeBooleanEncoder,
};
mod delta;
pub(crate) use delta::{DeltaDecoder, DeltaEncoder};

use crate::storage::parse::{self, Input, ParseError, ParseResult};
use std::io::Read;

/// Name.
pub(crate) trait Sink {
    fn append(&mut self, bytes: &[u8]);
}

impl Sink for Vec<u8> {
    fn append(&mut self, bytes: &[u8]) {
        self.extend_from_slice(bytes)
    }
}

impl Sink for &mut Vec<u8> {
    fn append(&mut self, bytes: &[u8]) {
        self.extend_from_slice(bytes)
    }
}

/// Name.
pub(crate) trait Encodable {
    fn encode<S: Sink>(&self, out: &mut S) -> usize;
}

fn put<S: Sink>(bytes: Vec<u8>, out: &mut S) -> usize {
    out.append(&bytes);
    bytes.len()
}

/// Behaviour of ours: numbers are written by the stand-in writer.
impl Encodable for u64 {
    fn encode<S: Sink>(&self, out: &mut S) -> usize {
        put(crate::numbers::write_u64(*self), out)
    }
}

/// Behaviour of ours.
impl Encodable for usize {
    fn encode<S: Sink>(&self, out: &mut S) -> usize {
        (*self as u64).encode(out)
    }
}

/// Behaviour of ours.
impl Encodable for i64 {
    fn encode<S: Sink>(&self, out: &mut S) -> usize {
        put(crate::numbers::write_i64(*self), out)
    }
}

/// Behaviour of ours: a name is its length and its bytes.
impl Encodable for String {
    fn encode<S: Sink>(&self, out: &mut S) -> usize {
        self.len().encode(out) + put(self.clone().into_bytes(), out)
    }
}

/// Behaviour of ours: the crate reads numbers inside columns by a laxer reader that is not at hand. Here they are read
/// by its strict one (storage/parse/leb128.rs), which document 01 prescribes there.
#[derive(Debug)]
pub(crate) enum DecodeError {
    /// within a number, or where one is due
    Ended(crate::Refusal),
    Strict(parse::leb128::Error),
    /// a name with fewer bytes than its length says
    Cut,
    NotUtf8,
}

impl std::fmt::Display for DecodeError {
    fn fmt(&self, f: &mut std::fmt::Formatter<'_>) -> std::fmt::Result {
        write!(f, "{self:?}")
    }
}

impl std::error::Error for DecodeError {}

/// Name.
pub(crate) trait Decodable: Sized {
    fn decode<R: Read>(bytes: &mut R) -> Result<Self, DecodeError>;
}

/// Takes the bytes up to the first without bit 7, at most ten, and has the crate's strict reader read them.
fn strict<R: Read, T>(
    bytes: &mut R,
    reader: impl for<'a> Fn(Input<'a>) -> ParseResult<'a, T, parse::leb128::Error>,
) -> Result<T, DecodeError> {
    let mut number = Vec::with_capacity(10);
    let mut byte = [0x80];
    while byte[0] & 0x80 != 0 && number.len() < 10 && matches!(bytes.read(&mut byte), Ok(1)) {
        number.push(byte[0]);
    }
    match reader(Input::new(&number)) {
        Ok((_, value)) => Ok(value),
        Err(ParseError::Incomplete(_)) => Err(DecodeError::Ended(crate::numbers::ended(&number))),
        Err(ParseError::Error(e)) => Err(DecodeError::Strict(e)),
    }
}

/// Behaviour of ours.
impl Decodable for u64 {
    fn decode<R: Read>(bytes: &mut R) -> Result<Self, DecodeError> {
        strict(bytes, parse::leb128_u64)
    }
}

/// Behaviour of ours.
impl Decodable for usize {
    fn decode<R: Read>(bytes: &mut R) -> Result<Self, DecodeError> {
        u64::decode(bytes).map(|value| value as usize)
    }
}

/// Behaviour of ours.
impl Decodable for i64 {
    fn decode<R: Read>(bytes: &mut R) -> Result<Self, DecodeError> {
        strict(bytes, parse::leb128_i64)
    }
}

/// Behaviour of ours: the length by the strict reader, then the bytes, all of them, then Rust's own test of UTF-8. The bytes are
/// read as they come: no length asks for room.
impl Decodable for String {
    fn decode<R: Read>(bytes: &mut R) -> Result<Self, DecodeError> {
        let length = u64::decode(bytes)?;
        let mut name = vec![];
        let taken = bytes.by_ref().take(length).read_to_end(&mut name);
        if taken.ok() != Some(length as usize) {
            return Err(DecodeError::Cut);
        }
        String::from_utf8(name).map_err(|_| DecodeError::NotUtf8)
    }
}
