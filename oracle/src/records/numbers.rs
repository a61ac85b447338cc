//! The four readers. Every answer is the crate's own.

use super::{comment, Options, Record};
use crate::numbers::{write_i64, write_u64, Reader, READERS};
use crate::random::Random;

/// The final bytes at which the rules turn.
const FINAL: [u8; 8] = [0x00, 0x01, 0x02, 0x3f, 0x40, 0x41, 0x7e, 0x7f];

/// What the reader answers of the bytes from `at` on.
fn reading(out: &mut String, (name, read): Reader, bytes: &[u8], at: usize) {
    let record = Record::call(name).bytes(bytes).number(at as u64);
    match read(&bytes[at..]) {
        Ok((value, length)) => record.accepted().number(value).number((at + length) as u64),
        Err(refusal) => record.refused(refusal).number(0).number(0),
    }
    .end(out)
}

/// All inputs of 0 to 2 bytes; lean: behind a first byte that ends the number only some second bytes.
pub fn short(out: &mut String, options: &Options, _: &mut Random) {
    let mut behind: Vec<u8> = (0..=255).collect();
    if options.lean {
        behind = vec![0x00, 0x01, 0x7f, 0x80, 0xff];
        comment(
            out,
            "lean: behind a first byte that ends the number only the second bytes 00 01 7f 80 ff",
        );
    }
    let all: Vec<u8> = (0..=255).collect();
    for reader in READERS {
        reading(out, reader, &[], 0);
        for &first in &all {
            reading(out, reader, &[first], 0);
        }
        for &first in &all {
            for &second in if first < 0x80 { &behind } else { &all } {
                reading(out, reader, &[first, second], 0);
            }
        }
    }
}

/// Inputs of 3 to 11 bytes by pattern, good encodings and damaged ones, and as many by chance as the count says.
pub fn long(out: &mut String, options: &Options, random: &mut Random) {
    comment(
        out,
        "3 to 11 bytes: each final byte behind each kind of bytes with bit 7 set, and none",
    );
    for reader in READERS {
        patterns(out, reader);
    }
    comment(
        out,
        "good encodings around each boundary, and the same cut, overlong and amid other bytes",
    );
    for reader in READERS {
        for encoding in boundaries() {
            damaged(out, reader, &encoding, random);
        }
    }
    comment(out, "by chance, at positions inside their bytes");
    for _ in 0..options.count {
        let reader = random.pick(&READERS);
        chance(out, reader, random);
    }
}

fn patterns(out: &mut String, reader: Reader) {
    for length in 3..=11 {
        for (most, last) in [(0x80, 0x80), (0xff, 0xff), (0x80, 0xc0), (0xff, 0xbf)] {
            let mut bytes = vec![most; length - 1];
            bytes[length - 2] = last;
            for end in FINAL {
                bytes.push(end);
                reading(out, reader, &bytes, 0);
                bytes.pop();
            }
            bytes.push(most);
            reading(out, reader, &bytes, 0);
        }
    }
}

/// The encodings of the numbers at which a length or a type ends, and their neighbours.
fn boundaries() -> Vec<Vec<u8>> {
    let mut encodings = vec![];
    let mut around = |value: u64| {
        for value in [value.wrapping_sub(1), value, value.wrapping_add(1)] {
            encodings.push(write_u64(value));
            encodings.push(write_i64(value as i64));
            encodings.push(write_i64((value as i64).wrapping_neg()));
        }
    };
    around(0);
    around(1 << 32);
    around(1 << 63);
    for group in 1..=9 {
        around(1 << (7 * group));
        around(1 << (7 * group - 1));
    }
    encodings.sort();
    encodings.dedup();
    encodings
}

fn damaged(out: &mut String, reader: Reader, encoding: &[u8], random: &mut Random) {
    reading(out, reader, encoding, 0);
    let (last, front) = encoding.split_last().unwrap();
    reading(out, reader, front, 0);
    for extension in [0x00, 0x7f] {
        let overlong = [front, &[last | 0x80, extension]].concat();
        reading(out, reader, &overlong, 0);
    }
    amid(out, reader, encoding, random);
}

/// The bytes with others before and behind them.
fn amid(out: &mut String, reader: Reader, bytes: &[u8], random: &mut Random) {
    let (before, behind) = (random.below(6), random.below(4));
    let all = [random.bytes(before), bytes.to_vec(), random.bytes(behind)].concat();
    reading(out, reader, &all, before as usize);
}

fn chance(out: &mut String, reader: Reader, random: &mut Random) {
    let length = random.below(12);
    let mut bytes: Vec<u8> = (0..length).map(|_| random.byte() | 0x80).collect();
    let end = random.pick(&FINAL);
    match random.below(4) {
        0 => {}
        1 => bytes.push(random.byte()),
        _ => bytes.push(end),
    }
    if bytes.is_empty() {
        bytes.push(random.byte());
    }
    amid(out, reader, &bytes, random);
}
