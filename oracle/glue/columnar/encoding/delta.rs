// Behaviour of ours: the encoder and the decoder behind the crate's delta.rs are not at hand. These are the crate's own
// RLE of differences, from document 01.
use super::{raw, RleDecoder, RleEncoder, Sink};
use std::borrow::Cow;

pub(crate) struct DeltaEncoder<S: Sink> {
    rle: RleEncoder<S, i64>,
    last: i64,
}

impl<S: Sink> From<S> for DeltaEncoder<S> {
    fn from(sink: S) -> Self {
        let rle = RleEncoder::new(sink);
        Self { rle, last: 0 }
    }
}

impl<S: Sink> DeltaEncoder<S> {
    pub(crate) fn append(&mut self, value: Option<i64>) {
        let Some(value) = value else {
            self.rle.append_null();
            return;
        };
        let difference = value.checked_sub(self.last);
        self.rle
            .append_value(difference.expect("outside the domain: a difference leaves i64"));
        self.last = value;
    }

    pub(crate) fn finish(self) -> (S, usize) {
        self.rle.finish()
    }
}

#[derive(Clone, Debug)]
pub(crate) struct DeltaDecoder<'a> {
    rle: RleDecoder<'a, i64>,
    sum: i64,
}

impl<'a> From<Cow<'a, [u8]>> for DeltaDecoder<'a> {
    fn from(bytes: Cow<'a, [u8]>) -> Self {
        let rle = bytes.into();
        Self { rle, sum: 0 }
    }
}

impl Iterator for DeltaDecoder<'_> {
    type Item = Result<Option<i64>, raw::Error>;

    fn next(&mut self) -> Option<Self::Item> {
        let delta = match self.rle.next()? {
            Ok(Some(delta)) => delta,
            other => return Some(other),
        };
        let sum = self.sum.checked_add(delta);
        self.sum = sum.expect("outside the domain: a sum leaves i64");
        Some(Ok(Some(self.sum)))
    }
}
