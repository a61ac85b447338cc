//! Edits of String columns: the crate's decoder, a replacement in the list, and the crate's encoder. Document 02's are the order
//! of the checks, 8 to 10, 16 to 18, 20 of new names, that a refused edit leaves everything as found, and the starts in the
//! new column, each held to the crate's string.

use super::columns::{all_lists, Slices};
use super::counts::Kept;
use super::edited::{self, answered, called};
use super::edits::{chance_block, chance_range, misplace, more_or_fewer, placed, spoil_bytes};
use super::tables::{self, damage, Fault};
use super::text::{chance, laid, spoil, wasteful, Names, KIND};
use super::{comment, Options};
use crate::numbers::write_u64;
use crate::random::Random;
use crate::text::{self, Name};
use crate::{specifications, TOO_MANY};

/// What the call is given.
pub type Edit = edited::Edit<Names>;

/// A list in a record has at most so many names.
const MOST: usize = 256;

/// What an edit comes to: the new column, how many slots it needs, and what they then hold.
struct Done {
    column: Vec<u8>,
    most: usize,
    slots: Slices,
}

/// The checks up to 9, in order.
fn ready(edit: &Edit) -> Result<Done, Fault> {
    let by_02 = |(refusal, place)| (refusal, Some(place));
    let (row, at) = edit.row()?;
    if specifications::col_type(row.0) != 5 {
        return Err((17, Some(0)));
    }
    if edit.end.is_some_and(|end| end < edit.start) {
        return Err((18, Some(0)));
    }
    let slots = edit.slots[0].len();
    if edit.slots.iter().any(|slice| slice.len() != slots) {
        return Err((8, Some(0)));
    }
    let new = edit.new.list().map_err(by_02)?;
    let column = &edit.block[at..at + row.2];
    let decoded = KIND.decode(column).unwrap_or(Err(TOO_MANY));
    let old = decoded.map_err(|refusal| (refusal, None))?[0].len();
    let end = edit.end.unwrap_or(old as u64);
    if edit.start > old as u64 || end > old as u64 {
        return Err((18, Some(0)));
    }
    let (start, end) = (edit.start as usize, end as usize);
    let most = old.max(old - (end - start) + new.len());
    if slots < most {
        return Err((9, Some(0)));
    }
    let column = text::splice(column, start, end, &new).unwrap();
    Ok(Done {
        slots: filled(edit, &column, most),
        most,
        column,
    })
}

/// The slots with the list that a column reads as, absent zeros behind it up to `most`: a column of absent names alone is empty.
fn filled(edit: &Edit, column: &[u8], most: usize) -> Slices {
    let list = KIND.decode(column).unwrap().unwrap();
    let mut slots = edit.slots.clone();
    for (slice, new) in slots.iter_mut().zip(list) {
        slice[..most].fill(0);
        slice[..new.len()].copy_from_slice(&new);
    }
    slots
}

/// 10, or the length of the new block, which then stands at the front of the output.
fn finish(edit: &mut Edit, done: Done) -> Result<usize, Fault> {
    let size = done.column.len() as u64;
    let (at, length) = tables::frame(&edit.block, edit.position, size, &mut edit.out)?;
    edit.out[at..at + done.column.len()].copy_from_slice(&done.column);
    edit.slots = done.slots;
    Ok(length)
}

/// The record of an edit, where its table and column are among the records and a line holds it; and what an accepted one gives.
pub fn record(out: &mut String, mut edit: Edit) -> Option<Kept> {
    let lists = edit.slots.iter().chain(&edit.new.slices);
    if lists.map(Vec::len).any(|n| n > MOST) || !tables::is_ordered_alike(&edit.block) {
        return None;
    }
    let record = called("splice_text", &edit)
        .bytes(&edit.new.bytes)
        .lists(&edit.new.slices)
        .lists(&edit.slots)
        .bytes(&edit.out);
    let finished = ready(&edit).and_then(|done| finish(&mut edit, done));
    answered(out, record, &edit, finished)
}

/// Lends slots and an output: just enough, more, or too few.
fn lend(edit: &mut Edit, slots_short: u64, out_short: u64, random: &mut Random) {
    edit.slots = vec![vec![0; MOST]; 3];
    // where the edit is refused whatever is lent
    let (mut slots, mut out) = (3, 5);
    if let Ok(done) = ready(edit) {
        slots = done.most as u64;
        // each length number has at most ten bytes
        edit.out = vec![0; edit.block.len() + done.column.len() + 10];
        out = finish(&mut edit.clone(), done).unwrap() as u64;
    }
    let slots = more_or_fewer(slots, slots_short, random);
    edit.slots = [0xee, 7, 5].map(|slot| vec![slot; slots]).to_vec();
    edit.out = vec![0xee; more_or_fewer(out, out_short, random)];
}

/// The column of a list; one of absent names alone stands as a run of them.
fn column_of(list: &[Name]) -> Vec<u8> {
    match !list.is_empty() && list.iter().all(Option::is_none) {
        true => [vec![0], write_u64(list.len() as u64)].concat(),
        false => text::encode(list),
    }
}

pub fn all(out: &mut String, options: &Options, random: &mut Random) {
    comment(out, "the Rust: the old list, a column's faults, the new column (decoded, replaced, encoded, over strings), table faults and the new table's rows;");
    comment(out, "document 02: the order of checks, 8 to 10 (a), 16 (10), 17 (11), 18 (12), 20 (14) of new names, what is left behind, starts, and the block around");
    comment(out, "all small lists");
    small(out, options, random);
    comment(out, "names and columns that pass 127 and 16,383 bytes");
    around(out, random);
    comment(out, "by chance, whole and faulty");
    for _ in 0..options.count {
        by_chance(out, random);
    }
}

/// All old lists, all ranges in them, past their end and to it, and all new names, of few; lean: of fewer.
fn small(out: &mut String, options: &Options, random: &mut Random) {
    let most = if options.lean { 2 } else { 4 };
    let few = [None, Some("a"), Some("ab")];
    let few_new = [None, Some(""), Some("a"), Some("\u{e9}")];
    let names = |few: &[Option<&str>], kinds: &[usize]| -> Vec<Name> {
        kinds.iter().map(|&k| few[k].map(String::from)).collect()
    };
    let mut place = 0;
    all_lists(few.len(), most, |kinds| {
        let old = names(&few, kinds);
        let length = old.len() as u64;
        for start in 0..=length {
            for end in (start..=length + 1).map(Some).chain([None]) {
                all_lists(few_new.len(), if options.lean { 1 } else { 2 }, |kinds| {
                    let new = laid(&names(&few_new, kinds), random);
                    let mut edit = Edit::new(placed(5, column_of(&old), place), (start, end), new);
                    place += 1;
                    let short = random.pick(&[(0, 0), (0, 0), (0, 0), (0, 1), (1, 0)]);
                    lend(&mut edit, short.0, short.1, random);
                    record(out, edit);
                });
            }
        }
    });
}

/// Long names put beside short ones and taken away, and lists whose columns grow past a length number.
fn around(out: &mut String, random: &mut Random) {
    let name = |size: usize| Some("a".repeat(size));
    for size in [126, 127, 128, 16_381, 16_384] {
        let long = vec![name(size)];
        let short = vec![Some("b".to_string()), name(1), None];
        for (old, start, end, new) in [
            (&short, 1, 2, &long),
            (&short, 3, 3, &long),
            (&long, 0, 1, &short),
            (&long, 1, 1, &long),
            (&long, 0, 0, &short),
        ] {
            let new = laid(new, random);
            let place = placed(5, column_of(old), random.below(4) as usize);
            let mut edit = Edit::new(place, (start, Some(end)), new);
            lend(&mut edit, 0, 0, random);
            record(out, edit);
        }
    }
    for n in 60..66 {
        let old: Vec<Name> = (0..n).map(|i| name(1 + i % 2)).collect();
        for (start, end) in [(0, 0), (n / 2, n / 2 + 1), (n - 1, n), (n, n)] {
            let length = random.below(3);
            let new = laid(&chance(length, random), random);
            let place = placed(5, column_of(&old), n);
            let mut edit = Edit::new(place, (start as u64, Some(end as u64)), new);
            lend(&mut edit, 0, 0, random);
            record(out, edit);
        }
    }
}

/// A column of names: the crate's of a list, or a wasteful one, and one in twelve cut or changed.
pub fn column_by_chance(random: &mut Random) -> Vec<u8> {
    let length = random.below(14);
    let mut bytes = match random.below(3) {
        0 => wasteful(random),
        _ => column_of(&chance(length, random)),
    };
    if random.below(12) == 0 && !bytes.is_empty() {
        spoil_bytes(&mut bytes, random);
    }
    bytes
}

fn by_chance(out: &mut String, random: &mut Random) {
    let bytes = column_by_chance(random);
    let length = match KIND.decode(&bytes) {
        Some(Ok(list)) => list[0].len() as u64,
        _ => 3,
    };
    let range = chance_range(length, random);
    let place = chance_block(&[5], bytes, random);
    let mut edit = Edit::new(place, range, new_by_chance(random));
    ready_by_chance(&mut edit, length, random);
    record(out, edit);
}

/// New names: none or few.
pub fn new_by_chance(random: &mut Random) -> Names {
    let new = random.pick(&[0, 1, 1, 2, 3, 8]);
    laid(&chance(new, random), random)
}

/// Faults by chance, of the block and of the call, and slots and an output.
pub fn ready_by_chance(edit: &mut Edit, length: u64, random: &mut Random) {
    if random.below(16) == 0 {
        damage(&mut edit.block, random);
    }
    while random.below(5) == 0 {
        spoil_call(edit, length, random);
    }
    let slots_short = random.pick(&[0, 0, 0, 0, 0, 0, 0, 0, 1, 2]);
    let out_short = random.pick(&[0, 0, 0, 0, 0, 0, 0, 0, 1, 2]);
    lend(edit, slots_short, out_short, random);
    disturb(edit, random);
}

/// One fault of the call, or a change that is none.
fn spoil_call(edit: &mut Edit, length: u64, random: &mut Random) {
    match random.below(8) {
        which @ 0..=4 => misplace(which, edit, length, random),
        _ => spoil(&mut edit.new, random),
    }
}

/// Anything in slots and output before the call, and at times slices of unequal length.
fn disturb(edit: &mut Edit, random: &mut Random) {
    if random.below(20) == 0 {
        let slice = random.pick(&[0, 1, 2]);
        edit.slots[slice].push(0xee);
    }
    if random.below(20) == 0 {
        edit.slots[random.pick(&[0, 1, 2])].pop();
    }
    for (i, slots) in edit.slots.iter_mut().enumerate() {
        for slot in slots.iter_mut().take(12) {
            *slot = match i {
                2 => u64::from(random.byte()),
                _ => random.wide(),
            };
        }
    }
    for byte in edit.out.iter_mut().rev().take(6) {
        *byte = random.byte();
    }
}
