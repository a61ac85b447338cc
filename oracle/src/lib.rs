//! The crate's own code as the judge of ours: plain bytes and numbers in, plain bytes and numbers out, a module a family.

include!(concat!(env!("OUT_DIR"), "/automerge/root.rs"));

pub mod boolean;
pub mod delta;
pub mod numbers;
pub mod random;
pub mod records;
pub mod rle;
pub mod specifications;
pub mod table;
pub mod text;

use columnar::encoding::{raw, DecodeError};

/// A refusal's number in documents 01 and 02. The Rust has no places.
pub type Refusal = u8;

/// No number of document 01: the list is longer than the caller asked for.
pub const TOO_MANY: Refusal = 200;

/// What a decoder, an iterator, gives: the readings in order, at most as many as the caller asked for, and behind them the
/// end, the number of the first fault, or `TOO_MANY`.
pub struct Walk<T> {
    pub readings: Vec<T>,
    pub ending: Result<(), Refusal>,
}

/// The readings of a column one by one, and then its end, which has to come again when it is asked for again.
fn walk<T>(mut decoder: impl Iterator<Item = Result<T, raw::Error>>, most: usize) -> Walk<T> {
    let mut readings = vec![];
    let ending = loop {
        match decoder.next() {
            None => {
                assert!(decoder.next().is_none() && decoder.next().is_none());
                break Ok(());
            }
            Some(Err(e)) => break Err(column_refusal(&e)),
            Some(Ok(_)) if readings.len() == most => break Err(TOO_MANY),
            Some(Ok(reading)) => readings.push(reading),
        }
    };
    Walk { readings, ending }
}

/// At most `most` readings of a column, or the number of the first fault.
fn readings<T>(
    decoder: impl Iterator<Item = Result<T, raw::Error>>,
    most: usize,
) -> Result<Vec<T>, Refusal> {
    let walk = walk(decoder, most);
    walk.ending.map(|()| walk.readings)
}

fn column_refusal(error: &raw::Error) -> Refusal {
    match error {
        raw::Error::Decode(DecodeError::Strict(e)) => numbers::refusal(e),
        raw::Error::Decode(DecodeError::Ended(refusal)) => *refusal,
        raw::Error::Decode(DecodeError::Cut) => 1,
        raw::Error::Decode(DecodeError::NotUtf8) => 20,
        raw::Error::BufferSizeDidNotChange | raw::Error::TryingToReadPastEnd => {
            unreachable!("no reading takes no byte, and nothing asks for raw bytes")
        }
    }
}
