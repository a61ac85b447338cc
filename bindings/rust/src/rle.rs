//! Run-length columns of optional u64: Actor and Integer columns.

/// The calls over a column of optional readings; `delta` has the same over i64.
macro_rules! optional_column {
    (
        $element:ty, $count:ident, $decode:ident, $encoded_len:ident, $encode:ident, $cursor:ident, $new:ident, $piece:ty,
        $next_piece:ident, $survey:ident, $salvage:ident, $typ:ident
    ) => {
        use crate::readings::Counted;
        use crate::{judged, lists, raw, Refusal};

        crate::readings::readings!(Option<$element>, $cursor, $new, $piece, $next_piece);

        crate::salvage::salvage!(
            salvage,
            Option<$element>,
            $survey,
            $salvage,
            $typ,
            [values, present],
            |_, values: Vec<$element>, present: Vec<u8>| lists::together(&values, &present)
        );

        /// How many readings a column has, or its first fault: 1, 2, 3, 21, 5 or, of a delta column, 6. It costs what the bytes cost.
        pub fn count(s: &[u8]) -> Result<usize, Refusal> {
            let r = unsafe { raw::$count(s.as_ptr(), s.len()) };
            judged(r.number, r.place, lists::length(r.count))
        }

        /// The column's readings, of which the caller will hold `most`. Refusals: those of `count`; 9 where there are more.
        pub fn decode(s: &[u8], most: usize) -> Result<Vec<Option<$element>>, Refusal> {
            let n = count(s)?.min(most);
            let (mut values, mut present) = (vec![0; n], vec![0; n]);
            let r = unsafe { raw::$decode(s.as_ptr(), s.len(), values.as_mut_ptr(), n, present.as_mut_ptr(), n) };
            judged(r.number, r.place, lists::together(&values, &present))
        }

        pub(crate) fn size(values: &[$element], present: &[u8]) -> Result<usize, Refusal> {
            let r = unsafe { raw::$encoded_len(values.as_ptr(), values.len(), present.as_ptr(), present.len()) };
            judged(r.number, r.place, lists::length(r.count))
        }

        /// How many bytes the list takes as a column. Refusals: 5 and, of a delta column, 7.
        pub fn encoded_len(list: &[Option<$element>]) -> Result<usize, Refusal> {
            let (values, present) = lists::apart(list);
            size(&values, &present)
        }

        /// The list as a column. Refusals: 5 and, of a delta column, 7.
        pub fn encode(list: &[Option<$element>]) -> Result<Vec<u8>, Refusal> {
            let (values, present) = lists::apart(list);
            let mut out = vec![0; size(&values, &present)?];
            let r = unsafe {
                raw::$encode(
                    values.as_ptr(),
                    values.len(),
                    present.as_ptr(),
                    present.len(),
                    out.as_mut_ptr(),
                    out.len(),
                )
            };
            judged(r.number, r.place, out)
        }
    };
}

pub(crate) use optional_column;

optional_column!(
    u64,
    grundavok_rle_count,
    grundavok_rle_decode,
    grundavok_rle_encoded_len,
    grundavok_rle_encode,
    RleCursor,
    grundavok_rle_cursor_new,
    raw::Piece<u64>,
    grundavok_rle_piece,
    grundavok_rle_survey,
    grundavok_rle_salvage,
    Integer
);
