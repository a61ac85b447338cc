// Names: of the crate's storage only columns and parse are compiled.
pub(crate) mod columns;
pub(crate) mod parse;
