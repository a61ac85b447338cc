//! The table of raw columns: the crate's `RawColumns`; its LEB128 writer is the stand-in.

use crate::numbers::{self, write_u64};
use crate::storage::columns::{compression, raw_column, RawColumns};
use crate::storage::parse::{Input, ParseError};
use crate::Refusal;

/// A specification, where its column's data starts, and how long that is.
pub type Row = (u32, usize, usize);

/// How many bytes the table took, and its rows.
pub fn parse(bytes: &[u8]) -> Result<(usize, Vec<Row>), Refusal> {
    let (consumed, columns) = columns(bytes)?;
    let rows = columns
        .iter()
        .map(|c| (c.spec().into(), c.data().start, c.data().len()))
        .collect();
    Ok((consumed, rows))
}

/// Is no row marked compressed?
pub fn is_uncompressed(bytes: &[u8]) -> Result<bool, Refusal> {
    Ok(columns(bytes)?.1.uncompressed().is_some())
}

/// The part of `data` of a specification. A range beyond the data panics in the crate.
pub fn lookup<'a>(bytes: &[u8], spec: u32, data: &'a [u8]) -> Result<&'a [u8], Refusal> {
    Ok(columns(bytes)?.1.bytes(spec.into(), data))
}

/// The table of these specifications and lengths.
pub fn write(rows: &[(u32, usize)]) -> Vec<u8> {
    let mut bytes = write_u64(rows.len() as u64);
    for (spec, length) in rows {
        bytes.extend(write_u64(u64::from(*spec)));
        bytes.extend(write_u64(*length as u64));
    }
    bytes
}

/// The table as the crate writes it again.
pub fn rewrite(bytes: &[u8]) -> Result<Vec<u8>, Refusal> {
    let mut out = vec![];
    let written = columns(bytes)?.1.write(&mut out);
    assert_eq!(written, out.len());
    Ok(out)
}

fn columns(bytes: &[u8]) -> Result<(usize, RawColumns<compression::Unknown>), Refusal> {
    match RawColumns::parse::<raw_column::ParseError>(Input::new(bytes)) {
        Ok((rest, columns)) => Ok((bytes.len() - rest.unconsumed_bytes().len(), columns)),
        Err(ParseError::Incomplete(_)) => Err(numbers::ended(bytes)),
        Err(ParseError::Error(raw_column::ParseError::Leb128(e))) => Err(numbers::refusal(&e)),
        Err(ParseError::Error(raw_column::ParseError::NotInNormalOrder)) => Err(12),
        Err(ParseError::Error(raw_column::ParseError::Deflate(_))) => {
            unreachable!("parsing decompresses nothing")
        }
    }
}
