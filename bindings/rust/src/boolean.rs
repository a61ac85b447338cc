//! Yes/no columns, and the all-false form.

use crate::readings::Counted;
use crate::{judged, lists, raw, Refusal};

crate::readings::readings!(
    bool,
    BooleanCursor,
    grundavok_boolean_cursor_new,
    raw::Piece<u8>,
    grundavok_boolean_piece
);

crate::salvage::salvage!(
    salvage,
    bool,
    grundavok_boolean_survey,
    grundavok_boolean_salvage,
    Boolean,
    [values],
    |_, values: Vec<u8>| lists::booleans(&values)
);

/// How many values a column has, or its first fault: 1, 2, 3 or 5. It costs what the bytes cost.
pub fn count(s: &[u8]) -> Result<usize, Refusal> {
    let r = unsafe { raw::grundavok_boolean_count(s.as_ptr(), s.len()) };
    judged(r.number, r.place, lists::length(r.count))
}

/// The column's values, of which the caller will hold `most`. Refusals: those of `count`; 9 where there are more.
pub fn decode(s: &[u8], most: usize) -> Result<Vec<bool>, Refusal> {
    let n = count(s)?.min(most);
    let mut values = vec![0; n];
    let r = unsafe { raw::grundavok_boolean_decode(s.as_ptr(), s.len(), values.as_mut_ptr(), n) };
    judged(r.number, r.place, lists::booleans(&values))
}

pub(crate) fn size(values: &[u8]) -> Result<usize, Refusal> {
    let r = unsafe { raw::grundavok_boolean_encoded_len(values.as_ptr(), values.len()) };
    judged(r.number, r.place, lists::length(r.count))
}

/// How many bytes the list takes as a column. Refusal: 5.
pub fn encoded_len(list: &[bool]) -> Result<usize, Refusal> {
    size(&lists::bytes(list))
}

/// The list as a column. Refusal: 5.
pub fn encode(list: &[bool]) -> Result<Vec<u8>, Refusal> {
    let values = lists::bytes(list);
    let mut out = vec![0; size(&values)?];
    let r = unsafe { raw::grundavok_boolean_encode(values.as_ptr(), values.len(), out.as_mut_ptr(), out.len()) };
    judged(r.number, r.place, out)
}

/// How many bytes the list takes in the all-false form. Refusal: 5.
pub fn maybe_encoded_len(list: &[bool]) -> Result<usize, Refusal> {
    let values = lists::bytes(list);
    let r = unsafe { raw::grundavok_boolean_maybe_encoded_len(values.as_ptr(), values.len()) };
    judged(r.number, r.place, lists::length(r.count))
}

/// No bytes where no value is true, otherwise the bytes of `encode`. Refusal: 5.
pub fn maybe_encode(list: &[bool]) -> Result<Vec<u8>, Refusal> {
    let values = lists::bytes(list);
    let mut out = vec![0; maybe_encoded_len(list)?];
    let r = unsafe { raw::grundavok_boolean_maybe_encode(values.as_ptr(), values.len(), out.as_mut_ptr(), out.len()) };
    judged(r.number, r.place, out)
}
