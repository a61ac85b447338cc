//! Column specifications: the crate's `ColumnSpec`.

use crate::storage::columns::{ColumnId, ColumnSpec, ColumnType};

pub fn new(id: u32, col_type: u8, deflate: bool) -> u32 {
    ColumnSpec::new(ColumnId::new(id), ColumnType::from(col_type), deflate).into()
}

pub fn id(spec: u32) -> u32 {
    // the field is private, and the text is the field
    format!("{:?}", ColumnSpec::from(spec).id())
        .parse()
        .unwrap()
}

pub fn col_type(spec: u32) -> u8 {
    ColumnSpec::from(spec).col_type().into()
}

pub fn deflate(spec: u32) -> bool {
    ColumnSpec::from(spec).deflate()
}

/// Ours, from document 02, [2]: the whole specification with only the compressed bit cleared.
pub fn whole_key(spec: u32) -> u32 {
    spec & !8
}

/// The crate's sorting key: the least specification that its order does not tell from this one. (The key's own field is
/// private; that it is the low byte with bit 3 cleared is what `tests/doc01.rs` checks.)
pub fn key(spec: u32) -> u32 {
    (0..=spec)
        .find(|&least| ColumnSpec::from(least).normalize() == ColumnSpec::from(spec).normalize())
        .unwrap()
}

/// How the crate orders two specifications.
pub fn order(a: u32, b: u32) -> std::cmp::Ordering {
    ColumnSpec::from(a).cmp(&ColumnSpec::from(b))
}
