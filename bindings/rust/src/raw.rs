//! The boundary as it is linked: the structs and functions of `include/grundavok.h`, in its order.

#[repr(C)]
pub struct Number<T> {
    pub number: u8,
    pub place: usize,
    pub value: T,
    pub next: usize,
}

#[repr(C)]
pub struct Counted {
    pub number: u8,
    pub place: usize,
    pub count: u64,
}

/// What survives of a column, and its first fault, 0 of a sound one.
#[repr(C)]
pub struct Survey {
    pub fault: u8,
    pub place: usize,
    pub readings: u64,
}

/// What a salvage came to: the call's own refusal and, apart from it, the column's first fault.
#[repr(C)]
pub struct Salvaged {
    pub number: u8,
    pub fault: u8,
    pub place: usize,
    pub fault_place: usize,
    pub kept: u64,
    pub written: usize,
}

/// An entry of the pen's log by its kind's number, and the position of the log behind it.
#[repr(C)]
pub struct Entry {
    pub number: u8,
    pub kind: u8,
    pub position: u32,
    pub place: usize,
    pub depth: i64,
    pub next: usize,
}

/// What a replay came to: how many readings the final list has, and how many bytes were written.
#[repr(C)]
pub struct Replayed {
    pub number: u8,
    pub place: usize,
    pub readings: u64,
    pub written: usize,
}

/// Whether a column is in our form, 1 or 0, and the place of the first byte that differs.
#[repr(C)]
pub struct Form {
    pub number: u8,
    pub ours: u8,
    pub place: usize,
    pub differs: usize,
}

/// Why a table or a column is refused: the header says which numbers apply under which `about`, `sign` and `facts`.
#[repr(C)]
pub struct Reason {
    pub number: u8,
    pub fault: u8,
    pub about: u8,
    pub sign: u8,
    pub facts: u8,
    pub place: usize,
    pub fault_place: usize,
    pub which: u64,
    pub begins: usize,
    pub count: u64,
    pub index: u64,
    pub first: u64,
    pub second: u64,
    pub third: u64,
    pub sum: i64,
    pub delta: i64,
}

pub const TABLE: u8 = 1;
pub const ROW: u8 = 2;
pub const RUN: u8 = 3;

pub const PLUS: u8 = 1;
pub const MINUS: u8 = 2;

pub const BYTES: u8 = 1;
pub const NAME: u8 = 2;
pub const PASSES: u8 = 3;
pub const SUM: u8 = 4;
pub const COLUMNS: u8 = 5;
pub const FALLS: u8 = 6;
pub const COMPRESSED: u8 = 7;
pub const LENGTHS: u8 = 8;

/// What comes next in a column: `what` is `PRESENT`, `ABSENT` or `END`, and 0 in a refusal.
#[repr(C)]
pub struct Next<T> {
    pub number: u8,
    pub what: u8,
    pub place: usize,
    pub value: T,
}

pub const PRESENT: u8 = 1;
pub const ABSENT: u8 = 2;
pub const END: u8 = 3;

/// A piece of a column: what comes next, and how many times it stands there at once, which is 0 where there is no reading.
#[repr(C)]
#[derive(Clone, Copy, Debug, Default, PartialEq, Eq)]
pub struct Piece<T> {
    pub number: u8,
    pub what: u8,
    pub place: usize,
    pub value: T,
    pub times: u64,
}

/// A piece of a delta column: each reading is by `difference` larger than the one before it.
#[repr(C)]
#[derive(Clone, Copy, Debug, Default, PartialEq, Eq)]
pub struct PieceI64 {
    pub number: u8,
    pub what: u8,
    pub place: usize,
    pub value: i64,
    pub difference: i64,
    pub times: u64,
}

#[repr(C)]
pub struct Specification {
    pub number: u8,
    pub place: usize,
    pub spec: u32,
}

#[repr(C)]
#[derive(Clone, Copy, Debug, PartialEq, Eq)]
pub struct Table {
    pub specs: [u32; 64],
    pub starts: [u64; 64],
    pub lens: [u64; 64],
    pub rows: usize,
}

#[repr(C)]
pub struct Opened {
    pub number: u8,
    pub place: usize,
    pub start: usize,
    pub table: Table,
}

/// A table that remembers counts: `counts` where `known` is not 0. Any numbers may be lent; what is lent is not checked again.
#[repr(C)]
#[derive(Clone, Copy, Debug, PartialEq, Eq)]
pub struct CountedTable {
    pub table: Table,
    pub counts: [u64; 64],
    pub known: [u8; 64],
}

#[repr(C)]
pub struct CountedOpened {
    pub number: u8,
    pub place: usize,
    pub start: usize,
    pub table: CountedTable,
}

/// In a refusal the table is as it was lent; so it is of an edit.
#[repr(C)]
pub struct CountedColumn {
    pub number: u8,
    pub place: usize,
    pub count: u64,
    pub table: CountedTable,
}

#[repr(C)]
pub struct CountedSpliced {
    pub number: u8,
    pub place: usize,
    pub len: usize,
    pub table: CountedTable,
}

#[repr(C)]
pub struct Part {
    pub number: u8,
    pub place: usize,
    pub start: usize,
    pub len: usize,
}

#[repr(C)]
pub struct Layered {
    pub number: u8,
    pub block: u8,
    pub place: usize,
    pub start: usize,
    pub len: usize,
}

#[repr(C)]
pub struct Frame {
    pub number: u8,
    pub place: usize,
    pub at: usize,
    pub len: usize,
}

/// Where a reader stands in a column. The header says what each number is; any numbers may be lent.
#[repr(C)]
#[derive(Clone, Copy, Debug, PartialEq, Eq)]
pub struct RleCursor {
    pub len: usize,
    pub at: usize,
    pub had: u64,
    pub left: u64,
    pub sort: u64,
    pub value: u64,
    pub place: usize,
}

#[repr(C)]
#[derive(Clone, Copy, Debug, PartialEq, Eq)]
pub struct DeltaCursor {
    pub len: usize,
    pub at: usize,
    pub had: u64,
    pub left: u64,
    pub sort: u64,
    pub difference: i64,
    pub place: usize,
    pub sum: i64,
}

#[repr(C)]
#[derive(Clone, Copy, Debug, PartialEq, Eq)]
pub struct BooleanCursor {
    pub len: usize,
    pub at: usize,
    pub had: u64,
    pub left: u64,
    pub flag: u64,
}

// Every pointer is that of a slice of its length, or of one cursor: never null, aligned, and, where it is `*mut`, lent by one `&mut`. That is
// all that the boundary asks of its callers.
extern "C" {
    pub fn grundavok_leb128_u64(s: *const u8, s_len: usize, at: usize) -> Number<u64>;
    pub fn grundavok_leb128_i64(s: *const u8, s_len: usize, at: usize) -> Number<i64>;
    pub fn grundavok_leb128_u32(s: *const u8, s_len: usize, at: usize) -> Number<u32>;
    pub fn grundavok_nonzero_leb128_u64(s: *const u8, s_len: usize, at: usize) -> Number<u64>;
    pub fn grundavok_len_u64(v: u64) -> usize;
    pub fn grundavok_len_i64(x: i64) -> usize;
    pub fn grundavok_put_u64(v: u64, out: *mut u8, out_len: usize, at: usize) -> Counted;
    pub fn grundavok_put_i64(x: i64, out: *mut u8, out_len: usize, at: usize) -> Counted;
    pub fn grundavok_write_u64(v: u64, out: *mut u8, out_len: usize) -> Counted;
    pub fn grundavok_write_i64(x: i64, out: *mut u8, out_len: usize) -> Counted;

    pub fn grundavok_spec_new(id: u32, col_type: u8, deflate: bool) -> Specification;
    pub fn grundavok_spec_id(spec: u32) -> u32;
    pub fn grundavok_spec_col_type(spec: u32) -> u8;
    pub fn grundavok_spec_deflate(spec: u32) -> bool;
    pub fn grundavok_spec_normalize(spec: u32) -> u32;

    pub fn grundavok_rle_count(s: *const u8, s_len: usize) -> Counted;
    pub fn grundavok_delta_count(s: *const u8, s_len: usize) -> Counted;
    pub fn grundavok_boolean_count(s: *const u8, s_len: usize) -> Counted;
    pub fn grundavok_rle_decode(
        s: *const u8,
        s_len: usize,
        values: *mut u64,
        values_len: usize,
        present: *mut u8,
        present_len: usize,
    ) -> Counted;
    pub fn grundavok_delta_decode(
        s: *const u8,
        s_len: usize,
        values: *mut i64,
        values_len: usize,
        present: *mut u8,
        present_len: usize,
    ) -> Counted;
    pub fn grundavok_boolean_decode(s: *const u8, s_len: usize, values: *mut u8, values_len: usize) -> Counted;
    pub fn grundavok_rle_cursor_new(column: *const u8, column_len: usize) -> RleCursor;
    pub fn grundavok_delta_cursor_new(column: *const u8, column_len: usize) -> DeltaCursor;
    pub fn grundavok_boolean_cursor_new(column: *const u8, column_len: usize) -> BooleanCursor;
    pub fn grundavok_rle_next(column: *const u8, column_len: usize, cursor: *mut RleCursor) -> Next<u64>;
    pub fn grundavok_delta_next(column: *const u8, column_len: usize, cursor: *mut DeltaCursor) -> Next<i64>;
    pub fn grundavok_boolean_next(column: *const u8, column_len: usize, cursor: *mut BooleanCursor) -> Next<u8>;
    pub fn grundavok_rle_piece(column: *const u8, column_len: usize, cursor: *mut RleCursor) -> Piece<u64>;
    pub fn grundavok_delta_piece(column: *const u8, column_len: usize, cursor: *mut DeltaCursor) -> PieceI64;
    pub fn grundavok_boolean_piece(column: *const u8, column_len: usize, cursor: *mut BooleanCursor) -> Piece<u8>;
    pub fn grundavok_rle_encoded_len(values: *const u64, values_len: usize, present: *const u8, present_len: usize) -> Counted;
    pub fn grundavok_delta_encoded_len(values: *const i64, values_len: usize, present: *const u8, present_len: usize) -> Counted;
    pub fn grundavok_boolean_encoded_len(values: *const u8, values_len: usize) -> Counted;
    pub fn grundavok_rle_encode(
        values: *const u64,
        values_len: usize,
        present: *const u8,
        present_len: usize,
        out: *mut u8,
        out_len: usize,
    ) -> Counted;
    pub fn grundavok_delta_encode(
        values: *const i64,
        values_len: usize,
        present: *const u8,
        present_len: usize,
        out: *mut u8,
        out_len: usize,
    ) -> Counted;
    pub fn grundavok_boolean_encode(values: *const u8, values_len: usize, out: *mut u8, out_len: usize) -> Counted;
    pub fn grundavok_boolean_maybe_encoded_len(values: *const u8, values_len: usize) -> Counted;
    pub fn grundavok_boolean_maybe_encode(values: *const u8, values_len: usize, out: *mut u8, out_len: usize) -> Counted;

    pub fn grundavok_text_count(s: *const u8, s_len: usize) -> Counted;
    pub fn grundavok_text_decode(
        s: *const u8,
        s_len: usize,
        starts: *mut u64,
        starts_len: usize,
        lens: *mut u64,
        lens_len: usize,
        present: *mut u8,
        present_len: usize,
    ) -> Counted;
    pub fn grundavok_text_encoded_len(
        bytes: *const u8,
        bytes_len: usize,
        starts: *const u64,
        starts_len: usize,
        lens: *const u64,
        lens_len: usize,
        present: *const u8,
        present_len: usize,
    ) -> Counted;
    pub fn grundavok_text_encode(
        bytes: *const u8,
        bytes_len: usize,
        starts: *const u64,
        starts_len: usize,
        lens: *const u64,
        lens_len: usize,
        present: *const u8,
        present_len: usize,
        out: *mut u8,
        out_len: usize,
    ) -> Counted;

    pub fn grundavok_rle_survey(s: *const u8, s_len: usize) -> Survey;
    pub fn grundavok_delta_survey(s: *const u8, s_len: usize) -> Survey;
    pub fn grundavok_boolean_survey(s: *const u8, s_len: usize) -> Survey;
    pub fn grundavok_text_survey(s: *const u8, s_len: usize) -> Survey;
    pub fn grundavok_rle_salvage(
        typ: u8,
        s: *const u8,
        s_len: usize,
        values: *mut u64,
        values_len: usize,
        present: *mut u8,
        present_len: usize,
        out: *mut u8,
        out_len: usize,
    ) -> Salvaged;
    pub fn grundavok_delta_salvage(
        typ: u8,
        s: *const u8,
        s_len: usize,
        values: *mut i64,
        values_len: usize,
        present: *mut u8,
        present_len: usize,
        out: *mut u8,
        out_len: usize,
    ) -> Salvaged;
    pub fn grundavok_boolean_salvage(
        typ: u8,
        s: *const u8,
        s_len: usize,
        values: *mut u8,
        values_len: usize,
        out: *mut u8,
        out_len: usize,
    ) -> Salvaged;
    pub fn grundavok_text_salvage(
        typ: u8,
        s: *const u8,
        s_len: usize,
        starts: *mut u64,
        starts_len: usize,
        lens: *mut u64,
        lens_len: usize,
        present: *mut u8,
        present_len: usize,
        out: *mut u8,
        out_len: usize,
    ) -> Salvaged;

    pub fn grundavok_log_entry(log: *const u8, log_len: usize, at: usize) -> Entry;
    pub fn grundavok_delta_replay(
        column: *const u8,
        column_len: usize,
        log: *const u8,
        log_len: usize,
        values: *mut i64,
        values_len: usize,
        present: *mut u8,
        present_len: usize,
        out: *mut u8,
        out_len: usize,
    ) -> Replayed;

    pub fn grundavok_column_form(typ: u8, s: *const u8, s_len: usize) -> Form;

    pub fn grundavok_read_table(block: *const u8, block_len: usize) -> Opened;
    pub fn grundavok_locate(block: *const u8, block_len: usize, position: usize) -> Part;
    pub fn grundavok_locate_spec(block: *const u8, block_len: usize, spec: u32) -> Part;
    pub fn grundavok_locate_over(corrections: *const u8, corrections_len: usize, first: *const u8, first_len: usize, spec: u32) -> Layered;
    pub fn grundavok_put_frame(block: *const u8, block_len: usize, position: usize, size: usize, out: *mut u8, out_len: usize) -> Frame;

    pub fn grundavok_open_table(block: *const u8, block_len: usize) -> CountedOpened;
    pub fn grundavok_count(block: *const u8, block_len: usize, table: CountedTable, position: usize) -> CountedColumn;

    pub fn grundavok_table_reason(block: *const u8, block_len: usize) -> Reason;
    pub fn grundavok_column_reason(typ: u8, s: *const u8, s_len: usize) -> Reason;
    pub fn grundavok_block_reason(block: *const u8, block_len: usize, position: usize) -> Reason;

    pub fn grundavok_splice_integer(
        block: *const u8,
        block_len: usize,
        table: CountedTable,
        position: usize,
        start: usize,
        end: usize,
        new_values: *const u64,
        new_values_len: usize,
        new_present: *const u8,
        new_present_len: usize,
        values: *mut u64,
        values_len: usize,
        present: *mut u8,
        present_len: usize,
        out: *mut u8,
        out_len: usize,
    ) -> CountedSpliced;
    pub fn grundavok_splice_integer_to_end(
        block: *const u8,
        block_len: usize,
        table: CountedTable,
        position: usize,
        start: usize,
        new_values: *const u64,
        new_values_len: usize,
        new_present: *const u8,
        new_present_len: usize,
        values: *mut u64,
        values_len: usize,
        present: *mut u8,
        present_len: usize,
        out: *mut u8,
        out_len: usize,
    ) -> CountedSpliced;
    pub fn grundavok_splice_delta(
        block: *const u8,
        block_len: usize,
        table: CountedTable,
        position: usize,
        start: usize,
        end: usize,
        new_values: *const i64,
        new_values_len: usize,
        new_present: *const u8,
        new_present_len: usize,
        values: *mut i64,
        values_len: usize,
        present: *mut u8,
        present_len: usize,
        out: *mut u8,
        out_len: usize,
    ) -> CountedSpliced;
    pub fn grundavok_splice_delta_to_end(
        block: *const u8,
        block_len: usize,
        table: CountedTable,
        position: usize,
        start: usize,
        new_values: *const i64,
        new_values_len: usize,
        new_present: *const u8,
        new_present_len: usize,
        values: *mut i64,
        values_len: usize,
        present: *mut u8,
        present_len: usize,
        out: *mut u8,
        out_len: usize,
    ) -> CountedSpliced;
    pub fn grundavok_splice_boolean(
        block: *const u8,
        block_len: usize,
        table: CountedTable,
        position: usize,
        start: usize,
        end: usize,
        new_values: *const u8,
        new_values_len: usize,
        values: *mut u8,
        values_len: usize,
        out: *mut u8,
        out_len: usize,
    ) -> CountedSpliced;
    pub fn grundavok_splice_boolean_to_end(
        block: *const u8,
        block_len: usize,
        table: CountedTable,
        position: usize,
        start: usize,
        new_values: *const u8,
        new_values_len: usize,
        values: *mut u8,
        values_len: usize,
        out: *mut u8,
        out_len: usize,
    ) -> CountedSpliced;
    pub fn grundavok_splice_text(
        block: *const u8,
        block_len: usize,
        table: CountedTable,
        position: usize,
        start: usize,
        end: usize,
        bytes: *const u8,
        bytes_len: usize,
        new_starts: *const u64,
        new_starts_len: usize,
        new_lens: *const u64,
        new_lens_len: usize,
        new_present: *const u8,
        new_present_len: usize,
        starts: *mut u64,
        starts_len: usize,
        lens: *mut u64,
        lens_len: usize,
        present: *mut u8,
        present_len: usize,
        out: *mut u8,
        out_len: usize,
    ) -> CountedSpliced;
    pub fn grundavok_splice_text_to_end(
        block: *const u8,
        block_len: usize,
        table: CountedTable,
        position: usize,
        start: usize,
        bytes: *const u8,
        bytes_len: usize,
        new_starts: *const u64,
        new_starts_len: usize,
        new_lens: *const u64,
        new_lens_len: usize,
        new_present: *const u8,
        new_present_len: usize,
        starts: *mut u64,
        starts_len: usize,
        lens: *mut u64,
        lens_len: usize,
        present: *mut u8,
        present_len: usize,
        out: *mut u8,
        out_len: usize,
    ) -> CountedSpliced;
}

/// A call of the boundary: slices, numbers, slices that it reads and slices that it writes, each slice as its pointer and its length.
#[doc(hidden)]
#[macro_export]
macro_rules! raw_call {
    ($call:ident, [$($first:expr),*], ($($number:expr),*), [$($read:expr),*], [$($write:expr),*]) => {
        unsafe {
            $crate::raw::$call(
                $($first.as_ptr(), $first.len(),)*
                $($number,)*
                $($read.as_ptr(), $read.len(),)*
                $($write.as_mut_ptr(), $write.len(),)*
            )
        }
    };
}
