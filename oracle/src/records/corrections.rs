//! Corrections over a first scan: the crate's parse gives both tables, document 02, [10], which of the two blocks shows a column.

use super::columns::all_lists;
use super::tables::{self, is_ordered_alike, open, refused};
use super::{comment, Options, Record};
use crate::random::Random;
use crate::specifications;

/// Rows of which every two blocks are looked into; the last two share a number with the first.
const ROWS: [(u32, usize); 5] = [(0x12, 2), (0x13, 0), (0x104, 1), (0x12, 0), (0x12, 3)];

/// The part of a specification in a sound block: the first row with exactly that number.
fn row_of(block: &[u8], spec: u32) -> Option<(usize, &[u8])> {
    let (start, rows) = open(block).ok()?;
    let row = rows.iter().find(|row| row.0 == spec)?;
    Some((start + row.1, &block[start + row.1..start + row.1 + row.2]))
}

fn bytes_over(out: &mut String, corrections: &[u8], first: &[u8], spec: u32) {
    if !is_ordered_alike(corrections) || !is_ordered_alike(first) {
        return;
    }
    let record = Record::call("bytes_over")
        .bytes(corrections)
        .bytes(first)
        .number(u64::from(spec));
    let blocks = [(1, corrections), (2, first)];
    if let Some((which, fault)) = blocks
        .iter()
        .find_map(|(which, block)| Some((*which, open(block).err()?)))
    {
        return refused(record, fault)
            .number(which)
            .number(0)
            .number(0)
            .bytes(&[])
            .end(out);
    }
    let found = blocks
        .iter()
        .find_map(|(which, block)| Some((*which, row_of(block, spec)?)));
    let (which, (start, part)) = found.unwrap_or((0, (0, &[])));
    record
        .accepted()
        .number(which)
        .number(start as u64)
        .number(part.len() as u64)
        .bytes(part)
        .end(out)
}

/// The block of some of the rows, put in order, with a byte of data more, as much or less.
fn block(kinds: &[usize], more: i64) -> Vec<u8> {
    let mut rows: Vec<(u32, usize)> = kinds.iter().map(|&kind| ROWS[kind]).collect();
    rows.sort_by_key(|row| specifications::whole_key(row.0));
    tables::block(&rows, more)
}

pub fn all(out: &mut String, options: &Options, random: &mut Random) {
    comment(out, "the Rust: both tables; document 02, [10]: which block shows the column, and whose refusal it is");
    comment(
        out,
        "all pairs of blocks of up to two of five rows, whole and with a byte too few or too many",
    );
    let mut blocks = Vec::new();
    all_lists(ROWS.len(), 2, |kinds| {
        for more in [0, 1, -1] {
            if more >= 0 || kinds.iter().any(|&kind| ROWS[kind].1 > 0) {
                blocks.push((more == 0, block(kinds, more)));
            }
        }
    });
    for (i, (whole, corrections)) in blocks.iter().enumerate() {
        for (k, (too, first)) in blocks.iter().enumerate() {
            let is_kept = match (whole, too) {
                (true, true) => (i + k) % 4 == 0,
                _ => (i + k) % 20 == 0,
            };
            if !options.lean || is_kept {
                for spec in [0x12, 0x13, 0x104, 0x14] {
                    bytes_over(out, corrections, first, spec);
                }
            }
        }
    }
    comment(out, "by chance, whole and damaged");
    for _ in 0..options.count {
        let (corrections, specs) = tables::chance_block(random);
        let (first, more) = tables::chance_block(random);
        if corrections.len() + first.len() > 4000 {
            continue;
        }
        let specs = [specs, more].concat();
        let spec = match random.below(8) {
            0 => tables::chance_spec(random),
            _ => *specs
                .get(random.below(specs.len().max(1) as u64) as usize)
                .unwrap_or(&0x12),
        };
        bytes_over(out, &corrections, &first, spec);
    }
}
