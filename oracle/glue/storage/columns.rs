// Names: the crate's columns.rs leans on column.rs and column_builder.rs, which are not at hand.
mod column_specification;
pub(crate) use column_specification::{ColumnId, ColumnSpec, ColumnType};
pub(crate) mod raw_column;
pub(crate) use raw_column::{RawColumn, RawColumns};
// Verbatim from the crate's columns.rs, cut out by build.rs.
include!("compression.rs");
