//! The stand-in writer against the crate's own strict readers: each number has one accepted encoding, so a writing that
//! the strict reader takes whole, and as the number, is that encoding.

use oracle::numbers::{leb128_i64, leb128_u64, write_i64, write_u64};
use oracle::random::Random;

fn check(bits: u64) {
    let bytes = write_u64(bits);
    assert_eq!(leb128_u64(&bytes), Ok((bits, bytes.len())));
    let bytes = write_i64(bits as i64);
    assert_eq!(leb128_i64(&bytes), Ok((bits, bytes.len())));
}

#[test]
fn small_numbers() {
    for n in 0..70_000u64 {
        check(n);
        check(n.wrapping_neg());
    }
}

#[test]
fn powers_of_two_and_their_neighbours() {
    for k in 0..64 {
        for d in -3i64..=3 {
            check((1u64 << k).wrapping_add(d as u64));
            check((1u64 << k).wrapping_neg().wrapping_add(d as u64));
        }
    }
}

#[test]
fn numbers_of_any_magnitude() {
    let mut random = Random(7);
    for _ in 0..200_000 {
        check(random.wide());
        check(random.wide().wrapping_neg());
    }
}

/// No other bytes of up to three are taken as a number that some of one to three bytes stand for.
#[test]
fn one_encoding_each() {
    let mut bytes = vec![];
    for length in 1..=3 {
        for n in 0..1u32 << (8 * length) {
            bytes.clear();
            bytes.extend_from_slice(&n.to_le_bytes()[..length]);
            if let Ok((value, used)) = leb128_u64(&bytes) {
                assert_eq!(write_u64(value), bytes[..used]);
            }
            if let Ok((value, used)) = leb128_i64(&bytes) {
                assert_eq!(write_i64(value as i64), bytes[..used]);
            }
        }
    }
}
