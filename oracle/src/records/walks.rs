//! Walks of a column reading by reading, from a fresh state: the crate's decoders, which are iterators, up to the end or the
//! first fault. That a fault comes again at every later step is document 02's: the crate goes on behind one
//! (`tests/traps.rs`). The crate's states are not ours, and stand as `*`.

use super::columns::{all_columns, changed, Kind, Recorded, Slices, Walked, LIMIT};
use super::kinds::{Columns, BOOLEANS, DELTAS, INTEGERS};
use super::{comment, Options, Record};
use crate::numbers::{write_i64, write_u64};
use crate::random::Random;
use crate::TOO_MANY;

/// Columns of so many readings that are equal.
type Huge = fn(u64) -> Vec<Vec<u8>>;

const WALKS: [(&Columns, Huge); 3] = [
    (&INTEGERS, huge_runs),
    (&DELTAS, huge_runs),
    (&BOOLEANS, |count| {
        vec![write_u64(count), [vec![0], write_u64(count)].concat()]
    }),
];

/// Absent readings, and a value that repeats: 0, of which a delta column's sums are equal.
fn huge_runs(count: u64) -> Vec<Vec<u8>> {
    let absent = [vec![0], write_u64(count)].concat();
    let equal = [write_i64(count as i64), vec![0]].concat();
    vec![absent, equal]
}

/// The first `steps` steps of a walk, all of which it has.
fn first(out: &mut String, kind: &Kind, column: &[u8], walked: &Walked, steps: usize) {
    let count = walked.readings[0].len().min(steps);
    let times = steps - count;
    let cut = |slice: &Vec<u64>| slice[..count].to_vec();
    let mut lists: Slices = walked.readings.iter().map(cut).collect();
    if kind.slices == 1 {
        lists.push(vec![1; count]);
    }
    let record = Record::call(&format!("{}_walk", kind.calls))
        .bytes(column)
        .field("new")
        .number(steps as u64);
    match walked.ending {
        Err(refusal) if times > 0 => record.refused(refusal),
        _ => record.accepted(),
    }
    .number(count as u64)
    .lists(&lists)
    .number(times as u64)
    .field("*")
    .end(out);
}

/// The walk of a column that is among the records, and how many steps it has with its ending so many times; a column with more
/// readings than the crate is asked for has no ending here.
fn walked(kind: &Kind, column: &[u8], times: usize) -> Option<(Walked, usize)> {
    let walked = (kind.walk)(column).filter(|walked| kind.holds(&walked.readings))?;
    let readings = walked.readings[0].len();
    let is_cut = walked.ending == Err(TOO_MANY);
    Some((walked, readings + if is_cut { 0 } else { times }))
}

/// All of a walk, and whether the column is among the records at all.
fn walk(out: &mut String, kind: &Kind, column: &[u8]) -> bool {
    let walked = walked(kind, column, 3);
    if let Some((walked, steps)) = &walked {
        first(out, kind, column, walked, *steps);
    }
    walked.is_some()
}

const WALKED: Recorded = Recorded {
    by: walk,
    without: "their counts pass the limit, or no line holds the list",
};

/// A walk of as many steps as chance says, on through its ending or not.
fn walk_by_chance(out: &mut String, kind: &Kind, column: &[u8], random: &mut Random) {
    if let Some((walked, most)) = walked(kind, column, 6) {
        let steps = random.below(most as u64 + 1) as usize;
        first(out, kind, column, &walked, steps);
    }
}

/// All columns of few bytes, long runs, counts near the limit, and by chance.
pub fn all(out: &mut String, options: &Options, random: &mut Random) {
    comment(out, "the readings, the end, also when asked again, and the first refusal (1, 2, 3 or 15) are those of the crate's decoders, over strict numbers; 6, and that a refusal comes again, are document 02's");
    for (columns, huge) in WALKS {
        let kind = columns.kind;
        let most = if options.lean { 3 } else { 5 };
        all_columns(out, kind, columns.alphabet, most, &WALKED);
        comment(out, "the crate's columns of long runs");
        for column in (columns.long)() {
            if column.len() < 1000 || !options.lean {
                walk(out, kind, &column);
            }
        }
        comment(
            out,
            "counts of more readings than the crate is asked for, up to the limit",
        );
        for count in [1 << 15, 1 << 20, (1 << 31) - 1, 1 << 31, LIMIT as u64] {
            for column in huge(count) {
                walk(out, kind, &column);
                walk_by_chance(out, kind, &column, random);
            }
        }
        comment(out, "by chance: the crate's columns, and wasteful ones; each cut at every byte, and with bytes changed");
        for _ in 0..options.count {
            let column = (columns.chance)(random);
            for end in 0..=column.len() {
                walk(out, kind, &column[..end]);
            }
            walk_by_chance(out, kind, &column, random);
            for _ in 0..column.len().min(4) {
                let other = changed(&column, random);
                walk(out, kind, &other);
                walk_by_chance(out, kind, &other, random);
            }
        }
    }
}
