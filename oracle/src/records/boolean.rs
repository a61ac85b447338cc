//! Boolean columns: the crate's `BooleanEncoder`, `MaybeBooleanEncoder` and `BooleanDecoder`, over strict numbers. Its
//! `MaybeBooleanDecoder` does not end on a column that is not empty and is not run. Refusals 8, 9 and 10 are document
//! 01's: the crate has no slots and no lent outputs.

use super::columns::{
    all_columns, all_lists, damaged, read, written, Encoding, Kind, Slices, Walked, LIMIT, MOST,
    READ,
};
use super::{comment, Options};
use crate::boolean;
use crate::numbers::{leb128_u64, write_u64};
use crate::random::Random;

pub const KIND: Kind = Kind {
    calls: "boolean",
    types: &[4],
    slices: 1,
    stretches: 9_000,
    walk,
    rewrite,
};

fn walk(column: &[u8]) -> Option<Walked> {
    (announced(column) <= LIMIT).then(|| boolean::walk(column, MOST).sliced(slices))
}

/// How many readings the counts up to the first fault announce.
fn announced(mut rest: &[u8]) -> u128 {
    let mut total = 0;
    while let Ok((count, used)) = leb128_u64(rest) {
        rest = &rest[used..];
        total += u128::from(count);
    }
    total
}

fn slices(list: &[bool]) -> Slices {
    vec![list.iter().map(|&value| value.into()).collect()]
}

/// In the plain form.
fn rewrite(_: &[u8], list: &Slices) -> Vec<u8> {
    let list: Vec<bool> = list[0].iter().map(|&value| value == 1).collect();
    boolean::encode(&list)
}

/// Both forms of writing.
fn both(out: &mut String, list: &[bool]) {
    let slices = slices(list);
    written(out, "boolean", &slices, &Ok(boolean::encode(list)));
    let maybe = Ok(boolean::encode_maybe(list));
    written(out, "boolean_maybe", &slices, &maybe);
}

/// All lists to twelve values; lean: to eight.
pub fn lists(out: &mut String, options: &Options, random: &mut Random) {
    comment(out, "the bytes are those of the crate's two encoders; the refusals (8, and a: output too short) are document 01's");
    let most = if options.lean { 8 } else { 12 };
    comment(out, &format!("all lists of up to {most} values"));
    all_lists(2, most, |kinds| {
        let list: Vec<bool> = kinds.iter().map(|&kind| kind == 1).collect();
        both(out, &list);
    });
    comment(out, "long runs");
    for list in long() {
        both(out, &list);
    }
    comment(out, "by chance");
    for _ in 0..options.count {
        let list = chance(random);
        both(out, &list);
        if !list.is_empty() && random.below(4) == 0 {
            spoilt(out, &list, random);
        }
    }
}

/// Runs of both values, of lengths at which a count grows by a byte.
fn long() -> Vec<Vec<bool>> {
    let mut lists = vec![];
    for n in [126, 127, 128, 129, 8191, 8192, 16382, 16383, 16384, 16385] {
        for first in [false, true] {
            lists.push(vec![first; n]);
            lists.push([vec![first; n], vec![!first]].concat());
            lists.push([vec![first; 2], vec![!first; n], vec![first]].concat());
        }
    }
    lists
}

/// Runs of any lengths, many of them short.
pub fn chance(random: &mut Random) -> Vec<bool> {
    let mut list = vec![];
    for _ in 0..random.below(12) {
        let value = random.below(2) == 1;
        let count = match random.below(8) {
            0 => random.pick(&[63, 64, 127, 128, 200]),
            _ => random.below(5),
        };
        list.extend((0..count).map(|_| value));
    }
    list
}

/// Bytes above 1: document 01's 8, at the first of them.
fn spoilt(out: &mut String, list: &[bool], random: &mut Random) {
    let mut slices = slices(list);
    for _ in 0..=random.below(2) {
        let at = random.below(list.len() as u64) as usize;
        slices[0][at] = 2 + random.below(254);
    }
    let first = slices[0].iter().position(|&byte| byte > 1).unwrap();
    let refusal: Encoding = Err((8, first as u64));
    written(out, "boolean", &slices, &refusal);
    written(out, "boolean_maybe", &slices, &refusal);
}

/// The bytes at which the rules turn.
pub const ALPHABET: [u8; 9] = [0x00, 0x01, 0x02, 0x03, 0x3f, 0x7f, 0x80, 0x81, 0xff];

/// All columns of few bytes, and by chance.
pub fn bytes(out: &mut String, options: &Options, random: &mut Random) {
    comment(out, "the readings and the refusals 1, 2 and 3 are those of the crate's decoder, over strict numbers; 9 is document 01's");
    let most = if options.lean { 3 } else { 5 };
    all_columns(out, &KIND, &ALPHABET, most, &READ);
    comment(out, "the crate's columns of long runs");
    for column in long_columns() {
        read(out, &KIND, &column);
    }
    comment(out, "by chance: the crate's columns, and wasteful ones; each cut at every byte, and with bytes changed");
    for _ in 0..options.count {
        let column = chance_column(random);
        damaged(out, &KIND, &column, random);
    }
}

pub fn long_columns() -> Vec<Vec<u8>> {
    long().iter().map(|list| boolean::encode(list)).collect()
}

/// A column of the crate's, or a wasteful one.
pub fn chance_column(random: &mut Random) -> Vec<u8> {
    match random.below(2) {
        0 => boolean::encode(&chance(random)),
        _ => wasteful(random),
    }
}

/// Counts with zeros among them.
pub fn wasteful(random: &mut Random) -> Vec<u8> {
    (0..random.below(8))
        .flat_map(|_| {
            let few = random.below(4);
            write_u64(random.pick(&[0, 0, few, few, few, 127, 128, 200]))
        })
        .collect()
}
