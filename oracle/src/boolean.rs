//! Boolean columns: the crate's encoders and decoders, the form that writes nothing when all is false among them.

use crate::columnar::encoding::{
    BooleanDecoder, BooleanEncoder, MaybeBooleanDecoder, MaybeBooleanEncoder,
};
use crate::{readings, Refusal, Walk};

pub fn encode(list: &[bool]) -> Vec<u8> {
    let mut encoder = BooleanEncoder::new();
    for value in list {
        encoder.append(*value);
    }
    encoder.finish().0
}

pub fn encode_maybe(list: &[bool]) -> Vec<u8> {
    let mut encoder = MaybeBooleanEncoder::new();
    for value in list {
        encoder.append(*value);
    }
    encoder.finish().0
}

pub fn decode(column: &[u8], most: usize) -> Result<Vec<bool>, Refusal> {
    readings(BooleanDecoder::from(column), most)
}

pub fn walk(column: &[u8], most: usize) -> Walk<bool> {
    crate::walk(BooleanDecoder::from(column), most)
}

pub fn decode_maybe(column: &[u8], most: usize) -> Result<Vec<Option<bool>>, Refusal> {
    readings(MaybeBooleanDecoder::from(column), most)
}

/// The column with the values from `start` up to `end` replaced: the crate's own splice of these columns is not in the
/// text, so the list is decoded, changed as a list and encoded again.
pub fn splice(column: &[u8], start: usize, end: usize, new: &[bool]) -> Result<Vec<u8>, Refusal> {
    let mut list = decode(column, usize::MAX)?;
    list.splice(start..end.min(list.len()), new.iter().copied());
    Ok(encode(&list))
}

/// The values as the crate's decoder, an iterator, gives them, for measuring.
pub fn iter(column: &[u8]) -> impl Iterator<Item = bool> + '_ {
    BooleanDecoder::from(column).map(|value| value.ok().unwrap())
}
