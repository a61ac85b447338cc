//! The table of a block, and its columns as parts of the block.

use crate::{column_specification::ColumnSpec, judged, lists::length, raw, Refusal};

/// A column's specification, where it begins in the data behind the table, and its length.
#[derive(Clone, Copy, Debug, PartialEq, Eq)]
pub struct Row {
    pub spec: ColumnSpec,
    pub start: usize,
    pub len: usize,
}

/// The room for the new column of a new block: where it is, and how long the block is.
#[derive(Clone, Copy, Debug, PartialEq, Eq)]
pub struct Frame {
    pub at: usize,
    pub len: usize,
}

pub(crate) fn rows(table: &raw::Table) -> Vec<Row> {
    let row = |i: usize| Row {
        spec: ColumnSpec(table.specs[i]),
        start: length(table.starts[i]),
        len: length(table.lens[i]),
    };
    (0..table.rows).map(row).collect()
}

fn part(block: &[u8], r: raw::Part) -> Result<&[u8], Refusal> {
    judged(r.number, r.place, &block[r.start..r.start + r.len])
}

/// The rows, and where the data behind the table begin. Refusals: 1, 2, 3, 21 and 11, then 12, 13, 14, 15.
pub fn read_table(block: &[u8]) -> Result<(Vec<Row>, usize), Refusal> {
    let r = unsafe { raw::grundavok_read_table(block.as_ptr(), block.len()) };
    judged(r.number, r.place, (rows(&r.table), r.start))
}

/// The column at a position. Refusals: those of `read_table`, 16.
pub fn column(block: &[u8], position: usize) -> Result<&[u8], Refusal> {
    part(block, unsafe { raw::grundavok_locate(block.as_ptr(), block.len(), position) })
}

/// The first column of exactly this specification; empty where there is none. Refusals: those of `read_table`.
pub fn bytes(block: &[u8], spec: ColumnSpec) -> Result<&[u8], Refusal> {
    part(block, unsafe { raw::grundavok_locate_spec(block.as_ptr(), block.len(), spec.0) })
}

/// A new block in which the column at a position is to have `size` bytes, but for that column. Refusals: those of `read_table`, 16, 10;
/// `out` is then unchanged.
pub fn put_frame(block: &[u8], position: usize, size: usize, out: &mut [u8]) -> Result<Frame, Refusal> {
    let r = unsafe { raw::grundavok_put_frame(block.as_ptr(), block.len(), position, size, out.as_mut_ptr(), out.len()) };
    judged(r.number, r.place, Frame { at: r.at, len: r.len })
}
