//! Edits: `DeltaRange::splice` for delta columns, and for RLE and boolean columns the crate's decoder, a replacement in the
//! list, and the crate's encoder. `edited` has what is document 01's.

use super::columns::{all_lists, Slices};
use super::edited::{new_column, ready, record, slices, Edit, Reading, Served};
use super::tables::{chance_spec, damage, frame, settle};
use super::{boolean as booleans, comment, delta as deltas, optional, rle as integers, Options};
use crate::numbers::write_u64;
use crate::random::Random;
use crate::{boolean, delta, rle, table};

/// The columns of a call, and their lists.
pub struct Column {
    pub served: Served,
    /// the readings of the lists of few, and of the new ones
    few: &'static [Reading],
    few_new: &'static [Reading],
    /// a list of as many readings, no two side by side in one run
    alternating: fn(usize) -> Vec<Reading>,
    chance: fn(&mut Random) -> Vec<Reading>,
    /// a column that no encoder writes
    wasteful: fn(&mut Random) -> Vec<u8>,
}

pub const INTEGER: Column = Column {
    served: Served {
        call: "splice_integer",
        types: &[1, 2],
        slices: 2,
        decode: |column| integers::COLUMN.kind.decode(column),
        encode: integers::COLUMN.encode,
        splice: rle::splice,
    },
    few: &[None, Some(1), Some(2)],
    few_new: &[None, Some(1), Some(2), Some(300)],
    alternating: |n| (0..n as u64).map(|i| Some(1 + i % 2)).collect(),
    chance: |random| (integers::COLUMN.chance)(random.below(14), random),
    wasteful: |random| optional::wasteful(&integers::COLUMN, random),
};

pub const DELTA: Column = Column {
    served: Served {
        call: "splice_delta",
        types: &[3],
        slices: 2,
        decode: |column| deltas::COLUMN.kind.decode(column),
        encode: deltas::COLUMN.encode,
        splice: |column, start, end, new| {
            let signed = |reading: &Reading| reading.map(|bits| bits as i64);
            let new: Vec<Option<i64>> = new.iter().map(signed).collect();
            delta::splice(column, start, end, &new)
        },
    },
    few: &[None, Some(1), Some(2)],
    few_new: &[None, Some(1), Some(2), Some((-300i64) as u64)],
    alternating: |n| (0..n as u64).map(|i| Some(5 + i % 2)).collect(),
    chance: |random| (deltas::COLUMN.chance)(random.below(14), random),
    wasteful: |random| optional::wasteful(&deltas::COLUMN, random),
};

pub const BOOLEAN: Column = Column {
    served: Served {
        call: "splice_boolean",
        types: &[4],
        slices: 1,
        decode: |column| booleans::KIND.decode(column),
        encode: |list| Ok(boolean::encode(&bools(list))),
        splice: |column, start, end, new| boolean::splice(column, start, end, &bools(new)),
    },
    few: &[Some(0), Some(1)],
    few_new: &[Some(0), Some(1)],
    alternating: |n| (0..n as u64).map(|i| Some(i % 2)).collect(),
    chance: |random| {
        let value = |value| Some(u64::from(value));
        booleans::chance(random).into_iter().map(value).collect()
    },
    wasteful: booleans::wasteful,
};

pub const COLUMNS: [&Column; 3] = [&INTEGER, &DELTA, &BOOLEAN];

fn bools(list: &[Reading]) -> Vec<bool> {
    list.iter().map(|&reading| reading == Some(1)).collect()
}

/// The column of a list. One with no value present is written as nothing, and stands here as a run of absent readings.
fn column_of(column: &Column, list: &[Reading]) -> Vec<u8> {
    if !list.is_empty() && list.iter().all(Option::is_none) {
        return [vec![0], write_u64(list.len() as u64)].concat();
    }
    (column.served.encode)(list).unwrap_or_default()
}

/// The block of these specifications and columns.
pub fn block(columns: &[(u32, Vec<u8>)]) -> Vec<u8> {
    let rows: Vec<(u32, usize)> = columns.iter().map(|(spec, c)| (*spec, c.len())).collect();
    let data = columns.iter().flat_map(|(_, column)| column);
    [table::write(&rows), data.copied().collect()].concat()
}

/// A column alone, in front of others, among them, and behind them.
pub fn placed(col_type: u8, bytes: Vec<u8>, place: usize) -> (Vec<u8>, u64) {
    let own = (0x10 + u32::from(col_type), bytes);
    let before = (0x04, vec![0xaa, 0xbb]);
    let behind = (0x27, vec![0xcc, 0xdd, 0xee]);
    match place % 4 {
        0 => (block(&[own]), 0),
        1 => (block(&[own, behind]), 0),
        2 => (block(&[before, own, behind]), 1),
        _ => (block(&[before, own]), 1),
    }
}

/// New readings as they are given: the value of an absent one is not looked at.
fn given(list: &[Reading], count: usize, random: &mut Random) -> Slices {
    let mut given = slices(list, count);
    for (value, reading) in given[0].iter_mut().zip(list) {
        if reading.is_none() {
            *value = random.pick(&[0, 1, 2, u64::MAX]);
        }
    }
    given
}

/// More slots, and a longer output, than any record has.
const ROOM: usize = 40_000;

/// Lends slots and an output: just enough, more, or `slots_short` and `out_short` too few.
fn lend(served: &Served, edit: &mut Edit, slots_short: u64, out_short: u64, random: &mut Random) {
    let roomy = Edit {
        slots: vec![vec![0; ROOM]; served.slices],
        ..edit.clone()
    };
    // where the edit is refused whatever is lent
    let (mut slots, mut out) = (3, 5);
    if let Ok(ready) = ready(served, &roomy) {
        slots = ready.old.max(ready.list.len()) as u64;
        if let Ok(column) = new_column(served, edit, &ready) {
            let mut room = vec![0; ROOM];
            let size = column.len() as u64;
            let length = frame(&edit.block, edit.position, size, &mut room);
            out = length.unwrap().1 as u64;
        }
    }
    let slots = more_or_fewer(slots, slots_short, random);
    edit.slots = (0..served.slices)
        .map(|slice| vec![[0xee, 7][slice]; slots])
        .collect();
    edit.out = vec![0xee; more_or_fewer(out, out_short, random)];
}

/// Room for so many, for a few more, or for `short` too few.
pub fn more_or_fewer(n: u64, short: u64, random: &mut Random) -> usize {
    (n + random.pick(&[0, 0, 0, 1, 3])).saturating_sub(short) as usize
}

pub fn all(out: &mut String, options: &Options, random: &mut Random) {
    comment(out, "the Rust: the old list, a column's faults, the new column (delta: DeltaRange::splice; else decoded, replaced, encoded), table faults and");
    comment(out, "the new table's rows; document 01: the order of checks, 7 to 10 (a), 16 (10), 17 (11), 18 (12), the slots and the block around the new column");
    for column in COLUMNS {
        comment(out, &format!("{}: all small lists", column.served.call));
        small(out, options, random, column);
        comment(out, &format!("{}: around 128 bytes", column.served.call));
        around(out, options, random, column);
    }
    comment(out, "around 16,384 bytes");
    far(out, random);
    comment(out, "by chance, whole and faulty");
    for _ in 0..options.count {
        let column = random.pick(&COLUMNS);
        chance(out, column, random);
    }
}

/// All old lists, all ranges in them, past their end and to it, and all new readings, of few; lean: of fewer.
fn small(out: &mut String, options: &Options, random: &mut Random, column: &Column) {
    let (most, most_new, past): (usize, usize, u64) =
        if options.lean { (3, 1, 1) } else { (4, 2, 2) };
    let most_new = most_new + 2 - column.served.slices;
    let mut place = 0;
    all_lists(column.few.len(), most, |kinds| {
        let old: Vec<Reading> = kinds.iter().map(|&kind| column.few[kind]).collect();
        let most = old.len() as u64;
        for start in 0..=most {
            for end in (start..=most + past).map(Some).chain([None]) {
                all_lists(column.few_new.len(), most_new, |kinds| {
                    let new: Vec<Reading> =
                        kinds.iter().map(|&kind| column.few_new[kind]).collect();
                    let new = given(&new, column.served.slices, random);
                    let mut edit = Edit::new(
                        placed(column.served.types[0], column_of(column, &old), place),
                        (start, end),
                        new,
                    );
                    place += 1;
                    let short = random.pick(&[(0, 0), (0, 0), (0, 0), (0, 1), (1, 0)]);
                    lend(&column.served, &mut edit, short.0, short.1, random);
                    record(out, &column.served, edit);
                });
            }
        }
    });
}

/// Columns of 126 to 130 bytes that grow and shrink.
fn around(out: &mut String, options: &Options, random: &mut Random, column: &Column) {
    let lengths = if options.lean { 125..129 } else { 120..133 };
    for n in lengths {
        let old = (column.alternating)(n);
        for gone in 0..3 {
            for new in 0..3 {
                let at = random.pick(&[0, 1, n / 2, n - 1, n]);
                let new = slices(&(column.alternating)(new), column.served.slices);
                let place = n + gone + new[0].len();
                let place = placed(column.served.types[0], column_of(column, &old), place);
                let range = (at as u64, Some((at + gone).min(n) as u64));
                let mut edit = Edit::new(place, range, new);
                lend(&column.served, &mut edit, 0, 0, random);
                record(out, &column.served, edit);
            }
        }
    }
}

/// Columns of 16,382 to 16,384 bytes, which only a boolean list has in a line.
fn far(out: &mut String, random: &mut Random) {
    for (old, new) in [(16_382, 16_383), (16_383, 16_384), (16_384, 16_383)] {
        let column = column_of(&BOOLEAN, &(BOOLEAN.alternating)(old));
        let kept = old.min(new);
        let new = slices(&(BOOLEAN.alternating)(new)[kept..], 1);
        let range = (kept as u64, Some(old as u64));
        let mut edit = Edit::new(placed(4, column, 2), range, new);
        lend(&BOOLEAN.served, &mut edit, 0, 0, random);
        record(out, &BOOLEAN.served, edit);
    }
}

/// Columns of other specifications around one of the call's, in their order; and its position.
pub fn chance_block(types: &[u8], bytes: Vec<u8>, random: &mut Random) -> (Vec<u8>, u64) {
    let own_type = u32::from(random.pick(types));
    let own = (chance_spec(random) & !0xf) | own_type;
    let others = match random.below(60) {
        0 => random.below(65),
        _ => random.below(4),
    };
    let mut specs: Vec<u32> = (0..others).map(|_| chance_spec(random) & !8).collect();
    specs.push(own);
    let own = own & settle(&mut specs);
    let position = specs.iter().position(|&spec| spec == own).unwrap();
    let mut filler = || {
        let length = match random.below(12) {
            0 => 125 + random.below(6),
            _ => random.below(5),
        };
        vec![random.byte(); length as usize]
    };
    let mut columns: Vec<(u32, Vec<u8>)> = specs.iter().map(|&spec| (spec, filler())).collect();
    columns[position].1 = bytes;
    (block(&columns), position as u64)
}

/// A column: the crate's of a list, or a wasteful one; cut or changed, where it is to be faulty.
pub fn chance_column(column: &Column, is_faulty: bool, random: &mut Random) -> Vec<u8> {
    let mut bytes = match random.below(3) {
        0 => (column.wasteful)(random),
        _ => column_of(column, &(column.chance)(random)),
    };
    if is_faulty && !bytes.is_empty() {
        spoil_bytes(&mut bytes, random);
    }
    bytes
}

/// Cuts a column, which is not empty, or changes a byte of it.
pub fn spoil_bytes(bytes: &mut Vec<u8>, random: &mut Random) {
    let at = random.below(bytes.len() as u64) as usize;
    match random.below(3) {
        0 => bytes.truncate(at),
        1 => drop(bytes.pop()),
        _ => bytes[at] = random.pick(&[0x00, 0x01, 0x40, 0x7f, 0x80, 0xff]),
    }
}

/// New readings: none, few, or as many as a list has.
pub fn chance_new(column: &Column, random: &mut Random) -> Slices {
    let mut list = (column.chance)(random);
    let most = random.pick(&[0, 1, 1, 2, 3, 400]);
    list.truncate(most);
    given(&list, column.served.slices, random)
}

/// A range within a list of so many readings, to its end or past it.
pub fn chance_range(length: u64, random: &mut Random) -> (u64, Option<u64>) {
    let start = match random.below(5) {
        0 => 0,
        1 => length,
        _ => random.below(length + 1),
    };
    let end = match random.below(10) {
        0 => start,
        1 => length,
        2 => length + 1 + random.below(4),
        3 => u64::MAX,
        4 | 5 => return (start, None),
        _ => start + random.below(length - start + 1),
    };
    (start, Some(end.max(start)))
}

/// One of five faults of where a call edits: its position, or its range in a list of so many readings.
pub fn misplace<N>(which: u64, edit: &mut Edit<N>, length: u64, random: &mut Random) {
    match which {
        0 => edit.position = edit.position.saturating_add(1 + random.below(3)),
        1 => edit.position = random.wide(),
        // another column, of which the call may not serve the type
        2 => edit.position = random.below(3),
        3 => edit.end = Some(edit.start.saturating_sub(1 + random.below(2))),
        _ => {
            edit.start = length + 1 + random.below(2);
            edit.end = edit.end.map(|end| end.max(edit.start));
        }
    }
}

/// One fault of the call.
fn spoil(column: &Column, edit: &mut Edit, length: u64, random: &mut Random) {
    match random.below(7) {
        5 => {
            let bytes = edit.new.last_mut().unwrap();
            if !bytes.is_empty() {
                let at = random.below(bytes.len() as u64) as usize;
                bytes[at] = 2 + random.below(254);
            }
        }
        6 => {
            let slice = random.below(column.served.slices as u64) as usize;
            edit.new[slice].push(0);
        }
        which => misplace(which, edit, length, random),
    }
}

fn chance(out: &mut String, column: &Column, random: &mut Random) {
    let served = &column.served;
    let is_faulty = random.below(12) == 0;
    let bytes = chance_column(column, is_faulty, random);
    let length = match (served.decode)(&bytes) {
        Some(Ok(list)) => list[0].len() as u64,
        _ => 3,
    };
    let (start, end) = chance_range(length, random);
    let place = chance_block(served.types, bytes, random);
    let mut edit = Edit::new(place, (start, end), chance_new(column, random));
    ready_by_chance(column, &mut edit, length, random);
    record(out, served, edit);
}

/// Faults by chance, of the block and of the call, and slots and an output.
pub fn ready_by_chance(column: &Column, edit: &mut Edit, length: u64, random: &mut Random) {
    if random.below(16) == 0 {
        damage(&mut edit.block, random);
    }
    while random.below(5) == 0 {
        spoil(column, edit, length, random);
    }
    let slots_short = random.pick(&[0, 0, 0, 0, 0, 0, 0, 0, 1, 2]);
    let out_short = random.pick(&[0, 0, 0, 0, 0, 0, 0, 0, 1, 2]);
    lend(&column.served, edit, slots_short, out_short, random);
    disturb(edit, random);
}

/// Anything in slots and output before the call, and at times slices of unequal length.
fn disturb(edit: &mut Edit, random: &mut Random) {
    if random.below(20) == 0 {
        edit.slots[0].push(0xee);
    }
    if random.below(20) == 0 {
        edit.slots.last_mut().unwrap().pop();
    }
    let is_wide = edit.slots.len() == 2;
    for (i, slots) in edit.slots.iter_mut().enumerate() {
        for slot in slots.iter_mut().take(12) {
            *slot = match i {
                0 if is_wide => random.wide(),
                _ => u64::from(random.byte()),
            };
        }
    }
    for byte in edit.out.iter_mut().rev().take(6) {
        *byte = random.byte();
    }
}
