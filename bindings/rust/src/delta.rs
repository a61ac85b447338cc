//! Delta columns: optional i64 as the run-length column of their differences.

crate::rle::optional_column!(
    i64,
    grundavok_delta_count,
    grundavok_delta_decode,
    grundavok_delta_encoded_len,
    grundavok_delta_encode,
    DeltaCursor,
    grundavok_delta_cursor_new,
    raw::PieceI64,
    grundavok_delta_piece,
    grundavok_delta_survey,
    grundavok_delta_salvage,
    DeltaInteger
);
