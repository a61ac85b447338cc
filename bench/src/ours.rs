//! The proved library by its C boundary, as `bindings/rust` declares it, with buffers lent by the caller.

use grundavok::raw::{CountedTable, Number, Opened, ABSENT, END, PRESENT};
use grundavok::raw_call;

pub fn leb128_u64(s: &[u8], at: usize) -> Number<u64> {
    raw_call!(grundavok_leb128_u64, [s], (at), [], [])
}

pub fn leb128_i64(s: &[u8], at: usize) -> Number<i64> {
    raw_call!(grundavok_leb128_i64, [s], (at), [], [])
}

/// A column's readings one by one to its end, each by a call over the boundary: `see` is handed each, `None` where it is absent.
macro_rules! walk {
    ($walk:ident, $c_new:ident, $c_next:ident, $t:ty) => {
        pub fn $walk(s: &[u8], mut see: impl FnMut(Option<$t>)) {
            let mut cursor = raw_call!($c_new, [s], (), [], []);
            loop {
                let a = raw_call!($c_next, [s], (&mut cursor), [], []);
                match a.what {
                    PRESENT => see(Some(a.value)),
                    ABSENT => see(None),
                    what => break assert_eq!(what, END),
                }
            }
        }
    };
}

walk!(rle_walk, grundavok_rle_cursor_new, grundavok_rle_next, u64);
walk!(delta_walk, grundavok_delta_cursor_new, grundavok_delta_next, i64);
walk!(boolean_walk, grundavok_boolean_cursor_new, grundavok_boolean_next, u8);

macro_rules! optional {
    ($decode:ident, $encode:ident, $splice:ident, $c_decode:ident, $c_encode:ident, $c_splice:ident, $t:ty) => {
        pub fn $decode(s: &[u8], v: &mut [$t], p: &mut [u8]) -> u64 {
            let a = raw_call!($c_decode, [s], (), [], [v, p]);
            assert_eq!(a.number, 0);
            a.count
        }

        pub fn $encode(v: &[$t], p: &[u8], out: &mut [u8]) -> usize {
            let a = raw_call!($c_encode, [], (), [v, p], [out]);
            assert_eq!(a.number, 0);
            a.count as usize
        }

        #[allow(clippy::too_many_arguments)]
        pub fn $splice(
            s: &[u8],
            table: &CountedTable,
            start: usize,
            end: usize,
            new: &[$t],
            f: &[u8],
            v: &mut [$t],
            p: &mut [u8],
            out: &mut [u8],
        ) -> usize {
            let a = raw_call!($c_splice, [s], (*table, 0, start, end), [new, f], [v, p, out]);
            assert_eq!(a.number, 0);
            a.len
        }
    };
}

optional!(
    rle_decode,
    rle_encode,
    splice_integer,
    grundavok_rle_decode,
    grundavok_rle_encode,
    grundavok_splice_integer,
    u64
);
optional!(
    delta_decode,
    delta_encode,
    splice_delta,
    grundavok_delta_decode,
    grundavok_delta_encode,
    grundavok_splice_delta,
    i64
);

pub fn boolean_decode(s: &[u8], v: &mut [u8]) -> u64 {
    let a = raw_call!(grundavok_boolean_decode, [s], (), [], [v]);
    assert_eq!(a.number, 0);
    a.count
}

pub fn boolean_encode(v: &[u8], out: &mut [u8]) -> usize {
    let a = raw_call!(grundavok_boolean_encode, [], (), [v], [out]);
    assert_eq!(a.number, 0);
    a.count as usize
}

pub fn splice_boolean(s: &[u8], table: &CountedTable, start: usize, end: usize, new: &[u8], v: &mut [u8], out: &mut [u8]) -> usize {
    let a = raw_call!(grundavok_splice_boolean, [s], (*table, 0, start, end), [new], [v, out]);
    assert_eq!(a.number, 0);
    a.len
}

pub fn read_table(s: &[u8]) -> Opened {
    raw_call!(grundavok_read_table, [s], (), [], [])
}

pub fn open_table(s: &[u8]) -> CountedTable {
    let a = raw_call!(grundavok_open_table, [s], (), [], []);
    assert_eq!(a.number, 0);
    a.table
}

/// How many readings a column has, and the table that knows it in the place of the lent one.
pub fn count(s: &[u8], table: &mut CountedTable, position: usize) -> u64 {
    let a = raw_call!(grundavok_count, [s], (*table, position), [], []);
    assert_eq!(a.number, 0);
    *table = a.table;
    a.count
}

pub fn replay(s: &[u8], log: &[u8], v: &mut [i64], p: &mut [u8], out: &mut [u8]) -> usize {
    let a = raw_call!(grundavok_delta_replay, [s, log], (), [], [v, p, out]);
    assert_eq!(a.number, 0);
    a.written
}
