//! Safe Rust over the boundary of Grundavok (`include/grundavok.h`): slices in, lists out, names as in the crate automerge.
//!
//! Any bytes, lists and ranges may go to any function. What is refused gets a [`Refusal`], a number and a place: the header lists them,
//! and `docs/FORMAT.md` has the rules and the order of checks of every call.
//!
//! A few bytes can stand for 4,294,967,295 readings. A call that gives a list therefore takes the most readings that the caller will hold, and is
//! refused with 9 where there are more; `readings` of [`rle`], [`delta`] and [`boolean`] gives them one by one and holds none.
//!
//! [`block::Block`] keeps a block's bytes with a table that remembers how many readings each column has, and edits it.
//!
//! A column that was cut is refused by the calls that read all of it; `salvage` of each kind keeps what stands before the fault ([`salvage`]).
//!
//! [`corrections`] finds a column in two blocks, later corrections over a first scan.
//!
//! [`log`] replays the pen's log of a tracing session over a delta column.
//!
//! [`form`] says whether a column is what our writer gives for the list it reads as.
//!
//! [`reason`] says why a table or a column is refused: which row or which run, and the facts.
//!
//! Names ([`text`]) are parts of the bytes that they were found in, since one that repeats stands there once.

pub mod block;
pub mod boolean;
pub mod column_specification;
pub mod corrections;
pub mod delta;
pub mod form;
pub mod leb128;
mod lists;
pub mod log;
/// The boundary itself, for callers that lend buffers of their own.
pub mod raw;
pub mod raw_column;
mod readings;
pub mod reason;
pub mod rle;
pub mod salvage;
pub mod text;

use std::fmt;

/// Why a call was refused, and where: `include/grundavok.h` lists the numbers.
#[derive(Clone, Copy, Debug, PartialEq, Eq)]
pub struct Refusal {
    pub number: u8,
    pub place: usize,
}

impl fmt::Display for Refusal {
    fn fmt(&self, f: &mut fmt::Formatter<'_>) -> fmt::Result {
        write!(f, "refusal {} at {}", self.number, self.place)
    }
}

impl std::error::Error for Refusal {}

/// An answer of the boundary: `value` where its number is 0.
fn judged<T>(number: u8, place: usize, value: T) -> Result<T, Refusal> {
    if number == 0 {
        Ok(value)
    } else {
        Err(Refusal { number, place })
    }
}
