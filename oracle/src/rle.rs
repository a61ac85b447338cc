//! RLE columns: the crate's encoder and decoder; the numbers inside by the crate's strict reader.

use crate::columnar::encoding::{raw, RleDecoder, RleEncoder};
use crate::{column_refusal, readings, Refusal, Walk};

pub fn encode(list: &[Option<u64>]) -> Vec<u8> {
    let mut encoder = RleEncoder::new(Vec::new());
    for reading in list {
        encoder.append(*reading);
    }
    let (bytes, written) = encoder.finish();
    assert_eq!(written, bytes.len());
    bytes
}

pub fn decode(column: &[u8], most: usize) -> Result<Vec<Option<u64>>, Refusal> {
    readings(RleDecoder::<u64>::from(column), most)
}

pub fn walk(column: &[u8], most: usize) -> Walk<Option<u64>> {
    crate::walk(RleDecoder::<u64>::from(column), most)
}

/// What the decoder gives at each of so many calls of its `next`, behind a fault too.
pub fn answers(column: &[u8], calls: usize) -> Vec<Option<Result<Option<u64>, Refusal>>> {
    let mut decoder = RleDecoder::<u64>::from(column);
    let refusal = |reading: Result<_, raw::Error>| reading.map_err(|e| column_refusal(&e));
    (0..calls).map(|_| decoder.next().map(refusal)).collect()
}

/// The column with the readings from `start` up to `end` replaced: the crate's own splice of these columns is not in the
/// text, so the list is decoded, changed as a list and encoded again.
pub fn splice(
    column: &[u8],
    start: usize,
    end: usize,
    new: &[Option<u64>],
) -> Result<Vec<u8>, Refusal> {
    let mut list = decode(column, usize::MAX)?;
    list.splice(start..end.min(list.len()), new.iter().copied());
    Ok(encode(&list))
}

/// The readings as the crate's decoder, an iterator, gives them, for measuring.
pub fn iter(column: &[u8]) -> impl Iterator<Item = Option<u64>> + '_ {
    RleDecoder::<u64>::from(column).map(|reading| reading.ok().unwrap())
}
