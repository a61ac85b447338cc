//! Delta columns: the crate's splice over its own RLE; the sums and differences are ours, from document 01.

use crate::columnar::column_range::DeltaRange;
use crate::columnar::encoding::RleDecoder;
use crate::columnar::SpliceError;
use crate::{column_refusal, readings, Refusal, Walk};
use std::convert::Infallible;

pub fn encode(list: &[Option<i64>]) -> Vec<u8> {
    let mut out = vec![];
    DeltaRange::encode(list.iter().copied(), &mut out);
    out
}

pub fn decode(column: &[u8], most: usize) -> Result<Vec<Option<i64>>, Refusal> {
    let decoder = DeltaRange::from(0..column.len()).decoder(column);
    readings(decoder, most)
}

/// The index of the first reading, of those up to the column's first fault, whose sum leaves i64. There `decode` panics.
fn leaving(column: &[u8], most: usize) -> Option<usize> {
    let mut sum = 0i64;
    for (index, delta) in RleDecoder::<i64>::from(column).take(most + 1).enumerate() {
        let Some(next) = sum.checked_add(delta.ok()?.unwrap_or(0)) else {
            return Some(index);
        };
        sum = next;
    }
    None
}

/// The walk ends with document 01's 6 where a sum leaves i64.
pub fn walk(column: &[u8], most: usize) -> Walk<Option<i64>> {
    let decoder = DeltaRange::from(0..column.len()).decoder(column);
    let Some(index) = leaving(column, most) else {
        return crate::walk(decoder, most);
    };
    let mut walk = crate::walk(decoder.take(index), most);
    walk.ending = walk.ending.and(Err(6));
    walk
}

/// The column with the readings from `start` up to `end` replaced. A start past the list panics in the crate.
pub fn splice(
    column: &[u8],
    start: usize,
    end: usize,
    new: &[Option<i64>],
) -> Result<Vec<u8>, Refusal> {
    let mut out = vec![];
    let new = new.iter().map(|reading| Ok::<_, Infallible>(*reading));
    match DeltaRange::from(0..column.len()).splice(column, start..end, new, &mut out) {
        Ok(_) => Ok(out),
        Err(SpliceError::ReadExisting(e)) => Err(column_refusal(&e)),
        Err(SpliceError::ReadReplace(e)) => match e {},
    }
}

/// The readings as the crate's decoder, an iterator, gives them, for measuring.
pub fn iter(column: &[u8]) -> impl Iterator<Item = Option<i64>> + '_ {
    let decoder = DeltaRange::from(0..column.len()).decoder(column);
    decoder.map(|reading| reading.ok().unwrap())
}
