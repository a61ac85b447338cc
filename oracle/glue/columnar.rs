// Names: the crate's columnar.rs mentions files that are not at hand.
pub(crate) mod column_range;
pub(crate) mod encoding;
mod splice_error;
pub(crate) use splice_error::SpliceError;
