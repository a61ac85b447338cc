// Names: of the crate's column ranges only delta.rs is compiled.
mod delta;
pub(crate) use delta::DeltaRange;
