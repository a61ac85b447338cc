//! Lists of optional readings, RLE and delta: what the families of the two share.

use super::columns::{
    all_columns, all_lists, damaged, encoded, read, written, Encoding, Kind, Slices, READ,
};
use super::{comment, Options};
use crate::numbers::{write_i64, write_u64};
use crate::random::Random;

pub struct Optional {
    pub kind: Kind,
    /// the values of the lists of few readings, beside the absent one
    pub few: &'static [u64],
    pub encode: fn(&[Option<u64>]) -> Encoding,
    /// the list whose runs hold these numbers
    pub of_runs: fn(&[Option<u64>]) -> Vec<Option<u64>>,
    /// a list by chance, of as many readings
    pub chance: fn(u64, &mut Random) -> Vec<Option<u64>>,
    /// a value inside a column
    pub value: fn(&mut Random) -> Vec<u8>,
}

/// What stands in the slot of an absent reading: it is not looked at, and most telling where it is its neighbour's.
fn slices(list: &[Option<u64>], mut absent: impl FnMut(u64) -> u64) -> Slices {
    let mut last = 1;
    let values = list
        .iter()
        .map(|reading| {
            last = reading.unwrap_or(last);
            reading.unwrap_or_else(|| absent(last))
        })
        .collect();
    let present = list
        .iter()
        .map(|reading| reading.is_some().into())
        .collect();
    vec![values, present]
}

/// The list by its slices, read back.
pub fn list(slices: &Slices) -> Vec<Option<u64>> {
    let readings = slices[0].iter().zip(&slices[1]);
    readings
        .map(|(value, present)| (*present == 1).then_some(*value))
        .collect()
}

pub fn lists(out: &mut String, options: &Options, random: &mut Random, column: &Optional) {
    let calls = column.kind.calls;
    let most = if options.lean { 5 } else { 6 };
    comment(out, &format!("all lists of up to {most} readings"));
    all_lists(column.few.len() + 1, most, |kinds| {
        let list: Vec<Option<u64>> = kinds
            .iter()
            .map(|&kind| kind.checked_sub(1).map(|kind| column.few[kind]))
            .collect();
        let slices = slices(&list, |last| last);
        written(out, calls, &slices, &(column.encode)(&list));
    });
    comment(out, "long runs");
    for list in long() {
        let list = (column.of_runs)(&list);
        let bytes = (column.encode)(&list).unwrap();
        let slices = slices(&list, |last| last);
        if bytes.len() < 1000 {
            written(out, calls, &slices, &Ok(bytes));
        } else {
            encoded(out, calls, &slices, &bytes, bytes.len() + 1);
        }
    }
    comment(out, "by chance");
    for _ in 0..options.count {
        let length = random.below(24);
        let list = (column.chance)(length, random);
        let other = random.wide();
        let mut slices = slices(&list, |last| random.pick(&[last, other, 0, u64::MAX]));
        written(out, calls, &slices, &(column.encode)(&list));
        if random.below(8) == 0 {
            let refusal = spoil(&mut slices, random);
            written(out, calls, &slices, &Err(refusal));
        }
    }
}

/// Makes the slices unequal, or presence bytes bad: document 01's 8, and its place.
fn spoil(slices: &mut Slices, random: &mut Random) -> (u8, u64) {
    let length = slices[0].len() as u64;
    if length > 0 {
        for _ in 0..=random.below(2) {
            slices[1][random.below(length) as usize] = 2 + random.below(254);
        }
    }
    let first = slices[1].iter().position(|&byte| byte > 1);
    match (first, random.below(3)) {
        (Some(first), 0 | 1) => (8, first as u64),
        (_, other) => {
            slices[other as usize % 2].push(random.below(300) % 256);
            (8, 0)
        }
    }
}

/// Runs of each sort, of lengths at which a count grows by a byte, alone and beside others.
pub fn long() -> Vec<Vec<Option<u64>>> {
    let equal = |n: usize| vec![Some(5); n];
    let distinct = |n: usize| (0..n).map(|i| Some(1 + i as u64 % 2)).collect::<Vec<_>>();
    let absent = |n: usize| vec![None; n];
    let mut lists = vec![];
    for n in [62, 63, 64, 65, 126, 127, 128, 129, 8190, 8191, 8192, 8193] {
        lists.push(equal(n));
        lists.push([equal(n), absent(3), equal(2)].concat());
        lists.push([absent(n), equal(1)].concat());
        lists.push([equal(1), absent(n)].concat());
        lists.push([equal(2), absent(n), equal(2)].concat());
        lists.push(absent(n));
        if !(200..=8191).contains(&n) {
            lists.push(distinct(n));
        }
        if n < 200 {
            lists.push([distinct(n), equal(n), distinct(n)].concat());
            lists.push([absent(n), distinct(n), absent(n), equal(n)].concat());
        }
    }
    for n in [16382, 16383, 16384, 16385] {
        lists.push([absent(n), equal(1)].concat());
        lists.push([equal(2), absent(n)].concat());
        lists.push(equal(n));
    }
    lists
}

/// The bytes at which the rules turn.
pub const ALPHABET: [u8; 11] = [
    0x00, 0x01, 0x02, 0x03, 0x3f, 0x7d, 0x7e, 0x7f, 0x80, 0x81, 0xff,
];

pub fn bytes(out: &mut String, options: &Options, random: &mut Random, column: &Optional) {
    let kind = &column.kind;
    let most = if options.lean { 3 } else { 5 };
    all_columns(out, kind, &ALPHABET, most, &READ);
    comment(out, "the crate's columns of long runs");
    for bytes in long_columns(column) {
        if bytes.len() < 1000 || !options.lean {
            read(out, kind, &bytes);
        }
    }
    comment(out, "by chance: the crate's columns, and wasteful ones; each cut at every byte, and with bytes changed");
    for _ in 0..options.count {
        let column = chance_column(column, random);
        damaged(out, kind, &column, random);
    }
}

pub fn long_columns(column: &Optional) -> Vec<Vec<u8>> {
    let bytes = |list: Vec<_>| (column.encode)(&(column.of_runs)(&list)).unwrap();
    long().into_iter().map(bytes).collect()
}

/// A column of the crate's, or a wasteful one.
pub fn chance_column(column: &Optional, random: &mut Random) -> Vec<u8> {
    match random.below(2) {
        0 => {
            let length = random.below(12);
            (column.encode)(&(column.chance)(length, random)).unwrap_or_default()
        }
        _ => wasteful(column, random),
    }
}

pub fn wasteful(column: &Optional, random: &mut Random) -> Vec<u8> {
    runs(column.value, random)
}

/// A row of runs of any sort: of one reading, of none, two alike side by side.
pub fn runs(value: fn(&mut Random) -> Vec<u8>, random: &mut Random) -> Vec<u8> {
    let mut bytes = vec![];
    for _ in 0..random.below(6) {
        let count = match random.below(6) {
            0 => random.pick(&[63, 64, 65, 127, 128, 200]),
            _ => random.below(4),
        };
        match random.below(3) {
            0 => {
                bytes.push(0);
                bytes.extend(write_u64(count));
            }
            1 => {
                bytes.extend(write_i64(count.max(1) as i64));
                bytes.extend(value(random));
            }
            _ => {
                let count = 1 + count % 4;
                bytes.extend(write_i64(-(count as i64)));
                for _ in 0..count {
                    bytes.extend(value(random));
                }
            }
        }
    }
    bytes
}
