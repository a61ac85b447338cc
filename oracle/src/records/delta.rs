//! Delta columns of optional i64: the crate's RLE over sums and differences of ours, from document 01. Refusals 6, 7, 8, 9
//! and 10 are document 01's.

use super::columns::{is_within_limit, Encoding, Kind, Slices, Walked, MOST};
use super::optional::{self, Optional};
use super::{comment, Options};
use crate::delta;
use crate::numbers::{leb128_i64, write_i64};
use crate::random::Random;

pub const COLUMN: Optional = Optional {
    kind: Kind {
        calls: "delta",
        types: &[3],
        slices: 2,
        stretches: 300,
        walk,
        // the differences were read, so that none of them leaves i64
        rewrite: |_, list| encode(&optional::list(list)).unwrap(),
    },
    // 1 and 2 behind one another have the same difference; -300
    few: &[1, 2, (-300i64) as u64],
    encode,
    of_runs,
    chance,
    value: |random| write_i64(value(random)),
};

fn signed(list: &[Option<u64>]) -> Vec<Option<i64>> {
    let signed = |reading: &Option<u64>| reading.map(|bits| bits as i64);
    list.iter().map(signed).collect()
}

/// Where a difference leaves i64: document 01's 7, at the index.
fn encode(list: &[Option<u64>]) -> Encoding {
    let list = signed(list);
    let mut last = 0i64;
    for (index, reading) in (0..).zip(&list) {
        let Some(value) = *reading else { continue };
        if value.checked_sub(last).is_none() {
            return Err((7, index));
        }
        last = value;
    }
    Ok(delta::encode(&list))
}

fn walk(column: &[u8]) -> Option<Walked> {
    is_within_limit(column, leb128_i64).then(|| delta::walk(column, MOST).sliced(slices))
}

fn slices(list: &[Option<i64>]) -> Slices {
    let values = list.iter().map(|reading| reading.unwrap_or(0) as u64);
    let present = list.iter().map(|reading| reading.is_some().into());
    vec![values.collect(), present.collect()]
}

/// The list whose differences are 0, 1 and -1 for the numbers 5, 1 and 2 of the runs.
fn of_runs(list: &[Option<u64>]) -> Vec<Option<u64>> {
    let mut sum = 0i64;
    list.iter()
        .map(|number| {
            sum += match (*number)? {
                5 => 0,
                1 => 1,
                _ => -1,
            };
            Some(sum as u64)
        })
        .collect()
}

fn value(random: &mut Random) -> i64 {
    let wide = random.wide() as i64;
    let near = random.below(130) as i64;
    random.pick(&[
        0,
        1,
        -1,
        63,
        64,
        -64,
        -65,
        near,
        -near,
        wide,
        wide.wrapping_neg(),
        i64::MAX,
        i64::MIN,
    ])
}

/// Readings of which many are absent, or as far from the one before as that was; some differences leave i64.
fn chance(length: u64, random: &mut Random) -> Vec<Option<u64>> {
    let (mut last, mut difference) = (0i64, 1i64);
    let is_wild = random.below(4) == 0;
    (0..length)
        .map(|_| {
            let value = match random.below(6) {
                0 => return None,
                1..=3 => last.checked_add(difference),
                _ => Some(value(random)),
            }
            .filter(|value| is_wild || value.checked_sub(last).is_some())
            .unwrap_or(last);
            difference = value.checked_sub(last).unwrap_or(0);
            last = value;
            Some(value as u64)
        })
        .collect()
}

pub fn lists(out: &mut String, options: &Options, random: &mut Random) {
    comment(out, "the bytes are those of the crate's RLE encoder over differences of ours; the refusals (7, 8, and a: output too short) are document 01's");
    optional::lists(out, options, random, &COLUMN);
}

pub fn bytes(out: &mut String, options: &Options, random: &mut Random) {
    comment(out, "the deltas and the refusals 1, 2, 3 and 21 (15) are those of the crate's RLE decoder, over strict numbers, and the sums ours; 6, 8 and 9 are document 01's");
    optional::bytes(out, options, random, &COLUMN);
}
