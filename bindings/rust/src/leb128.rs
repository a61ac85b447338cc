//! Strict LEB128 numbers: a number at a position with the position behind it, and the one encoding that is accepted.

use crate::{judged, lists::length, raw, Refusal};

fn read<T>(r: raw::Number<T>) -> Result<(T, usize), Refusal> {
    judged(r.number, r.place, (r.value, r.next))
}

fn wrote(r: raw::Counted) -> Result<usize, Refusal> {
    judged(r.number, r.place, length(r.count))
}

/// Refusals: 1, 2, 3, 21.
pub fn leb128_u64(s: &[u8], at: usize) -> Result<(u64, usize), Refusal> {
    read(unsafe { raw::grundavok_leb128_u64(s.as_ptr(), s.len(), at) })
}

/// Refusals: 1, 2, 3, 21.
pub fn leb128_i64(s: &[u8], at: usize) -> Result<(i64, usize), Refusal> {
    read(unsafe { raw::grundavok_leb128_i64(s.as_ptr(), s.len(), at) })
}

/// Refusals: 1, 2, 3, 21.
pub fn leb128_u32(s: &[u8], at: usize) -> Result<(u32, usize), Refusal> {
    read(unsafe { raw::grundavok_leb128_u32(s.as_ptr(), s.len(), at) })
}

/// Refusals: 1, 2, 3, 4, 21.
pub fn nonzero_leb128_u64(s: &[u8], at: usize) -> Result<(u64, usize), Refusal> {
    read(unsafe { raw::grundavok_nonzero_leb128_u64(s.as_ptr(), s.len(), at) })
}

/// How many bytes the number takes.
pub fn len_u64(v: u64) -> usize {
    unsafe { raw::grundavok_len_u64(v) }
}

pub fn len_i64(x: i64) -> usize {
    unsafe { raw::grundavok_len_i64(x) }
}

/// Writes at a position and gives the position behind. Refusal: 10, `out` unchanged.
pub fn put_u64(v: u64, out: &mut [u8], at: usize) -> Result<usize, Refusal> {
    wrote(unsafe { raw::grundavok_put_u64(v, out.as_mut_ptr(), out.len(), at) })
}

pub fn put_i64(x: i64, out: &mut [u8], at: usize) -> Result<usize, Refusal> {
    wrote(unsafe { raw::grundavok_put_i64(x, out.as_mut_ptr(), out.len(), at) })
}

/// Writes at the front and gives how many bytes. Refusal: 10, `out` unchanged.
pub fn write_u64(v: u64, out: &mut [u8]) -> Result<usize, Refusal> {
    wrote(unsafe { raw::grundavok_write_u64(v, out.as_mut_ptr(), out.len()) })
}

pub fn write_i64(x: i64, out: &mut [u8]) -> Result<usize, Refusal> {
    wrote(unsafe { raw::grundavok_write_i64(x, out.as_mut_ptr(), out.len()) })
}
