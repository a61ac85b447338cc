//! RLE columns of optional u64: the crate's `RleEncoder` and `RleDecoder`, over strict numbers. Refusals 8, 9 and 10 are
//! document 01's: the crate has no slots and no lent outputs.

use super::columns::{is_within_limit, Kind, Slices, Walked, MOST};
use super::optional::{self, Optional};
use super::{comment, Options};
use crate::numbers::{leb128_u64, write_u64};
use crate::random::Random;
use crate::rle;

pub const COLUMN: Optional = Optional {
    kind: Kind {
        calls: "rle",
        types: &[1, 2],
        slices: 2,
        stretches: 9_000,
        walk,
        rewrite: |_, list| rle::encode(&optional::list(list)),
    },
    few: &[1, 2, 300],
    encode: |list| Ok(rle::encode(list)),
    of_runs: |list| list.to_vec(),
    chance,
    value: |random| write_u64(value(random)),
};

fn walk(column: &[u8]) -> Option<Walked> {
    is_within_limit(column, leb128_u64).then(|| rle::walk(column, MOST).sliced(slices))
}

fn slices(list: &[Option<u64>]) -> Slices {
    let values = list.iter().map(|reading| reading.unwrap_or(0));
    let present = list.iter().map(|reading| reading.is_some().into());
    vec![values.collect(), present.collect()]
}

fn value(random: &mut Random) -> u64 {
    let wide = random.wide();
    random.pick(&[0, 1, 63, 64, 127, 128, 0xffff_ffff, u64::MAX, wide])
}

/// Readings of which many are absent or equal to the one before.
fn chance(length: u64, random: &mut Random) -> Vec<Option<u64>> {
    let mut last = None;
    (0..length)
        .map(|_| {
            last = match random.below(6) {
                0 => None,
                1..=3 => last,
                _ => Some(value(random)),
            };
            last
        })
        .collect()
}

pub fn lists(out: &mut String, options: &Options, random: &mut Random) {
    comment(out, "the bytes are those of the crate's encoder; the refusals (8, and a: output too short) are document 01's");
    optional::lists(out, options, random, &COLUMN);
}

pub fn bytes(out: &mut String, options: &Options, random: &mut Random) {
    comment(out, "the readings and the refusals 1, 2, 3 and 21 (15) are those of the crate's decoder, over strict numbers; 8 and 9 are document 01's");
    optional::bytes(out, options, random, &COLUMN);
}
