//! Lookup by specification in two blocks: later corrections over a first scan.

use crate::{column_specification::ColumnSpec, raw, Refusal};

/// Which of the two blocks an answer is about.
#[derive(Clone, Copy, Debug, PartialEq, Eq, Hash)]
pub enum Layer {
    Corrections,
    First,
}

/// The first column of exactly this specification: a part of the corrections if they have the row, also one of no bytes, which hides the older
/// column, else of the first scan; `None` where neither has it.
///
/// A refusal says whose table it is of: the corrections are judged first, and the first scan is judged even where they have the row. Refusals:
/// those of `raw_column::read_table`.
pub fn bytes<'a>(corrections: &'a [u8], first: &'a [u8], spec: ColumnSpec) -> Result<Option<(Layer, &'a [u8])>, (Layer, Refusal)> {
    let r = unsafe { raw::grundavok_locate_over(corrections.as_ptr(), corrections.len(), first.as_ptr(), first.len(), spec.0) };
    let (layer, block) = match r.block {
        1 => (Layer::Corrections, corrections),
        2 => (Layer::First, first),
        _ => return Ok(None),
    };
    match r.number {
        0 => Ok(Some((layer, &block[r.start..r.start + r.len]))),
        number => Err((layer, Refusal { number, place: r.place })),
    }
}
