//! Whether a column is in our form, document 02, [13]: what the crate's decoders, which are iterators, give of a sound one, written again by
//! its encoders, and the two compared. A faulty one has the decoders' fault; 17 is document 02's.

use super::columns::{changed, Kind, Recorded};
use super::kinds::{Family, BOOLEANS, DELTAS, INTEGERS, NAMES};
use super::{comment, Options, Record};
use crate::numbers::{write_i64, write_u64};
use crate::random::Random;
use crate::TOO_MANY;

/// The place of the first byte that differs, the shorter length where one is the start of the other; None where they are the same.
fn differ(column: &[u8], fresh: &[u8]) -> Option<usize> {
    if column == fresh {
        return None;
    }
    let same = column.iter().zip(fresh).take_while(|(a, b)| a == b);
    Some(same.count())
}

/// A column by one of its types; its bytes written anew, where it is sound. None where the records have no such column.
fn formed_as(out: &mut String, kind: &Kind, typ: u64, column: &[u8]) -> Option<Vec<u8>> {
    let walked = (kind.walk)(column).filter(|walked| walked.ending != Err(TOO_MANY))?;
    let fresh = (kind.rewrite)(column, &walked.readings);
    let record = Record::call("column_form").number(typ).bytes(column);
    match walked.ending {
        Err(refusal) => record.refused(refusal).number(0).number(0),
        Ok(()) => match differ(column, &fresh) {
            None => record.accepted().number(1).number(0),
            Some(place) => record.accepted().number(0).number(place as u64),
        },
    }
    .end(out);
    Some(fresh)
}

fn formed(out: &mut String, kind: &Kind, column: &[u8]) -> bool {
    formed_as(out, kind, kind.types[0], column).is_some()
}

/// A column, and what the crate's encoder makes of the readings that it has before a fault, which is its own form.
fn formed_twice(out: &mut String, kind: &Kind, typ: u64, column: &[u8]) {
    if let Some(fresh) = formed_as(out, kind, typ, column) {
        formed_as(out, kind, typ, &fresh);
    }
}

/// A column, cut at every byte, and with some of its bytes changed.
fn damaged(out: &mut String, kind: &Kind, column: &[u8], random: &mut Random) {
    let typ = random.pick(kind.types);
    formed_twice(out, kind, typ, column);
    for end in 0..column.len() {
        formed_as(out, kind, typ, &column[..end]);
    }
    for _ in 0..column.len().min(8) {
        let other = changed(column, random);
        formed_twice(out, kind, typ, &other);
    }
}

const FORMS: Family = Family {
    recorded: Recorded {
        by: formed,
        without: "their counts make more than 17000 readings, which the crate lists one by one, or pass the limit",
    },
    most: 5,
    damaged,
    by_chance: "by chance: the crate's columns, and wasteful ones; each cut at every byte and with bytes changed, and what the crate's encoder makes of them",
};

/// Around these a count takes a byte more.
const LENGTHS: [u64; 11] = [1, 2, 62, 63, 64, 65, 126, 127, 128, 129, 8192];

/// Two runs in a row that are one of the writer's: of a value and of absent readings, which a value follows; and of few literal values, taken in turn.
fn split(a: u64, b: u64, values: [&[u8]; 2]) -> Vec<Vec<u8>> {
    let [value, other] = values;
    let count = |n: u64| write_i64(n as i64);
    let literal = |n: u64| {
        let turns = (0..n).map(|i| values[(i % 2) as usize]);
        [write_i64(-(n as i64)), turns.collect::<Vec<_>>().concat()].concat()
    };
    let absent = |n: u64| [vec![0], write_u64(n)].concat();
    let mut columns = vec![
        [&count(a), value, &count(b), value].concat(),
        [&count(a), value, &count(b), other].concat(),
        [absent(a), absent(b), vec![0x7f], value.to_vec()].concat(),
    ];
    if a + b < 100 {
        columns.push([literal(a), literal(b)].concat());
        columns.push([literal(a), count(b), other.to_vec()].concat());
    }
    columns
}

/// Runs that are split in two, with counts around those that take a byte more.
fn all_split(out: &mut String) {
    comment(
        out,
        "two runs that are one of the writer's, with counts around those that take a byte more",
    );
    let one: [&[u8]; 2] = [&[5], &[6]];
    let named: [&[u8]; 2] = [&[1, 0x61], &[1, 0x62]];
    for a in LENGTHS {
        for b in LENGTHS {
            for (columns, values) in [(INTEGERS, one), (DELTAS, one), (NAMES, named)] {
                for column in split(a, b, values) {
                    formed(out, columns.kind, &column);
                }
            }
            let zero = [write_u64(a), vec![0], write_u64(b)].concat();
            formed(out, BOOLEANS.kind, &zero);
            formed(out, BOOLEANS.kind, &[&zero[..], &[0]].concat());
        }
    }
}

/// All columns of few bytes, long runs, runs split in two, names of every length of character, types that no call serves, and by chance.
pub fn all(out: &mut String, options: &Options, random: &mut Random) {
    comment(out, "whether a column is what the crate's encoder makes of what its decoder gives, over strict numbers, and the place of the first byte that differs; the faults (1, 2, 3, 14 or 15) are the decoder's; 6 and 11 (17) are documents 01's and 02's");
    for columns in [INTEGERS, DELTAS, BOOLEANS, NAMES] {
        FORMS.of_kind(out, &columns, options, random);
    }
    all_split(out);
    FORMS.of_names(out);
    comment(out, "types that no call serves, before any fault");
    for typ in [0, 6, 7, 8, 0x12, 0xff] {
        for column in [&[][..], &[2, 5], &[1, 5], &[2], &[0x80, 0]] {
            let record = Record::call("column_form").number(typ).bytes(column);
            record.refused_at(17, 0).number(0).number(0).end(out);
        }
    }
}
