/// Name: delta.rs mentions the two cases.
#[derive(Debug)]
pub(crate) enum SpliceError<E, R> {
    ReadExisting(E),
    ReadReplace(R),
}
