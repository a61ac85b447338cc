//! Lengths and writings of numbers. The crate's writer is not at hand: the bytes are our stand-in's, which the crate's
//! strict reader accepts as the number (`tests/self_check.rs`), and by that reader no other bytes are. The refusals are
//! document 01's.

use super::{comment, Options, Record};
use crate::numbers::{write_i64, write_u64};
use crate::random::Random;

/// A value by its bits, its encoding, and whether the calls are the signed ones.
struct Number {
    bits: u64,
    encoding: Vec<u8>,
    kind: &'static str,
}

impl Number {
    fn unsigned(value: u64) -> Self {
        Self {
            bits: value,
            encoding: write_u64(value),
            kind: "u64",
        }
    }

    fn signed(value: i64) -> Self {
        Self {
            bits: value as u64,
            encoding: write_i64(value),
            kind: "i64",
        }
    }

    fn call(&self, name: &str) -> Record {
        Record::call(&format!("{name}_{}", self.kind)).number(self.bits)
    }
}

pub fn all(out: &mut String, options: &Options, random: &mut Random) {
    comment(out, "the bytes are those of the oracle's stand-in writer, which the crate's strict reader accepts as the number;");
    comment(out, "the refusals (a: output too short) are document 01's");
    for number in boundaries() {
        records(out, &number);
    }
    comment(out, "by chance, into outputs of every size near theirs");
    for _ in 0..options.count {
        let value = random.wide();
        let number = match random.below(3) {
            0 => Number::unsigned(value),
            1 => Number::signed(value as i64),
            _ => Number::signed((value as i64).wrapping_neg()),
        };
        let (size, at) = (random.below(14), random.below(5));
        written(out, &number, random.bytes(size));
        put(out, &number, random.bytes(size), at);
    }
}

/// The numbers at which an encoding grows, and the ends.
fn boundaries() -> Vec<Number> {
    let mut unsigned = vec![0, 1, u64::MAX - 1, u64::MAX, 1 << 63, (1 << 63) - 1];
    let mut signed = vec![0, 1, -1, i64::MIN, i64::MIN + 1, i64::MAX - 1, i64::MAX];
    for group in 1..=9 {
        let limit = 1u64 << (7 * group);
        unsigned.extend([limit - 1, limit, limit + 1]);
        let half = 1i64 << (7 * group - 1);
        signed.extend([half - 1, half, half + 1, -half + 1, -half, -half - 1]);
    }
    let unsigned = unsigned.into_iter().map(Number::unsigned);
    unsigned
        .chain(signed.into_iter().map(Number::signed))
        .collect()
}

fn records(out: &mut String, number: &Number) {
    let length = number.encoding.len() as u64;
    number.call("len").accepted().number(length).end(out);
    let mut sizes = vec![0, length - 1, length, length + 1, 12];
    sizes.dedup();
    for size in sizes {
        written(out, number, output(size));
    }
    let mut places = vec![
        (length, 0),
        (length + 2, 0),
        (length + 3, 3),
        (length + 5, 3),
        (length + 2, 3),
        (3, 3),
        (2, 3),
        (2, u64::MAX),
        (0, 0),
    ];
    places.dedup();
    for (size, at) in places {
        put(out, number, output(size), at);
    }
}

/// An output in which every byte is another.
fn output(size: u64) -> Vec<u8> {
    (0..size).map(|i| 0xa0 + i as u8).collect()
}

/// At the front.
fn written(out: &mut String, number: &Number, output: Vec<u8>) {
    let record = number.call("write").bytes(&output);
    outcome(out, record, number, output, 0);
}

/// At a position.
fn put(out: &mut String, number: &Number, output: Vec<u8>, at: u64) {
    let record = number.call("put").bytes(&output).number(at);
    outcome(out, record, number, output, at);
}

fn outcome(out: &mut String, record: Record, number: &Number, mut output: Vec<u8>, at: u64) {
    let bytes = &number.encoding;
    let room = (output.len() as u64).checked_sub(at);
    if room.is_none_or(|room| room < bytes.len() as u64) {
        record.refused_at(10, 0).number(0).bytes(&output).end(out);
        return;
    }
    let at = at as usize;
    let next = at + bytes.len();
    output[at..next].copy_from_slice(bytes);
    record
        .accepted()
        .number(next as u64)
        .bytes(&output)
        .end(out);
}
