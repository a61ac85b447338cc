//! Tables that remember counts, document 02, [6]: counts and edits of one block by turns, each lent the table that the one before gave. A
//! count is the length of what the crate's decoder gives, a new column the crate's encoder's; document 02's are 25, the order of the
//! checks, and which counts are stored and kept.

use super::columns::Kind;
use super::edited::{self, Edit};
use super::edits::{self, Column};
use super::kinds::{BOOLEANS, DELTAS, INTEGERS, NAMES};
use super::tables::{self, Fault, Row};
use super::{comment, text_edits, List, Options, Record};
use crate::random::Random;
use crate::{specifications, TOO_MANY};

/// A table as a call is lent it: its rows, and what is known of each column.
#[derive(Clone)]
pub struct Lent {
    pub rows: Vec<Row>,
    pub counts: Vec<Option<u64>>,
}

impl Lent {
    /// The rows, and for each its specification, start, length, count, and whether that is known.
    pub fn numbers(&self) -> Vec<u64> {
        let place = |(row, count): (&Row, &Option<u64>)| {
            let known = count.is_some().into();
            [
                row.0.into(),
                row.1 as u64,
                row.2 as u64,
                count.unwrap_or(0),
                known,
            ]
        };
        let places = self.rows.iter().zip(&self.counts).flat_map(place);
        [self.rows.len() as u64].into_iter().chain(places).collect()
    }

    fn opened(rows: Vec<Row>) -> Lent {
        let counts = vec![None; rows.len()];
        Lent { rows, counts }
    }
}

/// A block and the table that is kept with it.
#[derive(Clone)]
pub struct Kept {
    pub block: Vec<u8>,
    pub table: Lent,
}

impl Kept {
    fn column(&self, position: usize) -> &[u8] {
        let (start, _) = tables::open(&self.block).unwrap();
        let row = self.table.rows[position];
        &self.block[start + row.1..start + row.1 + row.2]
    }

    /// What is stored is true: so many readings the crate's decoder gives.
    fn is_true(&self) -> bool {
        let counts = self.table.counts.iter().enumerate();
        let mut stored = counts.filter_map(|(i, count)| Some((i, (*count)?)));
        stored.all(|(i, count)| counted(self.table.rows[i].0, self.column(i)) == Some(Ok(count)))
    }
}

fn kind_of(spec: u32) -> Option<&'static Kind> {
    match specifications::col_type(spec) {
        1 | 2 => Some(INTEGERS.kind),
        3 => Some(DELTAS.kind),
        4 => Some(BOOLEANS.kind),
        5 => Some(NAMES.kind),
        _ => None,
    }
}

/// How many readings a column has, its fault, or 17; None where the column is outside the records.
fn counted(spec: u32, column: &[u8]) -> Option<Result<u64, Fault>> {
    let Some(kind) = kind_of(spec) else {
        return Some(Err((17, Some(0))));
    };
    let decoded = kind.decode(column)?;
    Some(match decoded {
        Ok(list) => Ok(list[0].len() as u64),
        Err(refusal) => Err((refusal, None)),
    })
}

/// The new block with its rows, the counts as lent but for the edited column's, which is what the crate's decoder gives of it; None where the block is outside
/// the records.
pub fn after_edit(block: Vec<u8>, lent: Option<&Lent>, position: u64) -> Option<Kept> {
    let (_, rows) = tables::open(&block).unwrap();
    let mut table = Lent::opened(rows);
    if let Some(lent) = lent {
        table.counts.clone_from(&lent.counts);
    }
    let position = position as usize;
    let mut kept = Kept { block, table };
    let count = counted(kept.table.rows[position].0, kept.column(position))?;
    kept.table.counts[position] = Some(count.expect("the crate's own column"));
    Some(kept)
}

/// What counting comes to, in document 02's order; None where the column is outside the records.
fn judged(block: &[u8], lent: &Lent, position: u64) -> Option<Result<u64, Fault>> {
    let (_, rows) = match tables::open(block) {
        Ok(table) => table,
        Err(fault) => return Some(Err(fault)),
    };
    if rows != lent.rows {
        return Some(Err((25, Some(0))));
    }
    let (row, at) = match tables::row_at(block, position) {
        Ok((_, row, at)) => (row, at),
        Err(fault) => return Some(Err(fault)),
    };
    match lent.counts[position as usize] {
        Some(count) if kind_of(row.0).is_some() => Some(Ok(count)),
        _ => counted(row.0, &block[at..at + row.2]),
    }
}

/// The record of a count, and the table after it.
fn count(out: &mut String, block: &[u8], lent: &Lent, position: u64) -> Option<Lent> {
    if !tables::is_ordered_alike(block) {
        return None;
    }
    let record = Record::call("count")
        .bytes(block)
        .field(List(&lent.numbers()))
        .number(position);
    let mut table = lent.clone();
    let record = match judged(block, lent, position)? {
        Err((TOO_MANY, _)) => return None,
        Err(fault) => tables::refused(record, fault).number(0),
        Ok(count) => {
            table.counts[position as usize] = Some(count);
            record.accepted().number(count)
        }
    };
    record.field(List(&table.numbers())).end(out);
    Some(table)
}

/// Columns of up to seven specifications in their order, of every type, one in twelve faulty.
fn opened(random: &mut Random) -> Option<Kept> {
    let spec = |random: &mut Random| {
        let typ = random.pick(&[1, 2, 2, 3, 3, 4, 4, 5, 5, 7]);
        (tables::chance_spec(random) & !0xf) | typ
    };
    let most = random.pick(&[3, 3, 3, 3, 3, 3, 3, 7]);
    let mut specs: Vec<u32> = (0..1 + random.below(most)).map(|_| spec(random)).collect();
    tables::settle(&mut specs);
    let mut column = |spec| match served(spec) {
        Some(column) => {
            let is_faulty = random.below(12) == 0;
            edits::chance_column(column, is_faulty, random)
        }
        None if specifications::col_type(spec) == 5 => text_edits::column_by_chance(random),
        None => vec![random.byte(); 2],
    };
    let columns: Vec<(u32, Vec<u8>)> = specs.iter().map(|&spec| (spec, column(spec))).collect();
    let block = edits::block(&columns);
    let (_, rows) = tables::open(&block).ok()?;
    let table = Lent::opened(rows);
    Some(Kept { block, table })
}

/// The call that edits such a column, but for names.
fn served(spec: u32) -> Option<&'static Column> {
    let typ = specifications::col_type(spec);
    let mut columns = edits::COLUMNS.into_iter();
    columns.find(|column| column.served.types.contains(&typ))
}

/// A table that is mostly the one that is kept, and else one of whose numbers one is another, or that has a row more or fewer.
fn lent(kept: &Kept, random: &mut Random) -> Lent {
    let mut lent = kept.table.clone();
    if random.below(25) > 0 {
        return lent;
    }
    let i = random.below(lent.rows.len() as u64) as usize;
    match random.below(5) {
        0 => lent.rows[i].0 ^= 1 << random.below(8),
        1 => lent.rows[i].1 += 1,
        2 => lent.rows[i].2 += 1,
        3 => {
            lent.rows.push((0, 0, 0));
            lent.counts.push(Some(1));
        }
        _ => {
            lent.rows.pop();
            lent.counts.pop();
        }
    }
    lent
}

/// One count, at times of a block that is damaged.
fn count_by_chance(out: &mut String, kept: &mut Kept, random: &mut Random) {
    let rows = kept.table.rows.len() as u64;
    let beyond = u64::from(random.below(12) == 0);
    let position = random.below(rows + beyond);
    let mut block = kept.block.clone();
    if random.below(25) == 0 {
        tables::damage(&mut block, random);
    }
    let lent = lent(kept, random);
    let is_own = block == kept.block && lent.rows == kept.table.rows;
    if let (Some(table), true) = (count(out, &block, &lent, position), is_own) {
        kept.table = table;
    }
}

/// One edit by the call that serves the column, and at times by another.
fn edit_by_chance(out: &mut String, kept: &mut Kept, random: &mut Random) {
    let position = random.below(kept.table.rows.len() as u64);
    let spec = kept.table.rows[position as usize].0;
    let length = match counted(spec, kept.column(position as usize)) {
        Some(Ok(count)) => count,
        _ => 3,
    };
    let range = edits::chance_range(length, random);
    let place = (kept.block.clone(), position);
    let lent = Some(lent(kept, random));
    let is_text = specifications::col_type(spec) == 5;
    let (given, after) = match served(spec) {
        None if is_text && random.below(20) > 0 => {
            let new = text_edits::new_by_chance(random);
            let mut edit = text_edits::Edit::new(place, range, new);
            edit.lent = lent;
            text_edits::ready_by_chance(&mut edit, length, random);
            (edit.block.clone(), text_edits::record(out, edit))
        }
        column => {
            let is_own = column.is_some() && random.below(20) > 0;
            let other = random.pick(&edits::COLUMNS);
            let column = column.filter(|_| is_own).unwrap_or(other);
            let new = edits::chance_new(column, random);
            let mut edit = Edit::new(place, range, new);
            edit.lent = lent;
            edits::ready_by_chance(column, &mut edit, length, random);
            let given = edit.block.clone();
            (given, edited::record(out, &column.served, edit))
        }
    };
    // a damaged block is not the one that is kept
    if let (Some(after), true) = (after, given == kept.block) {
        *kept = after;
    }
}

pub fn all(out: &mut String, options: &Options, random: &mut Random) {
    comment(out, "the Rust: how many readings a column has, its faults, new columns, table faults and rows; document 02: 25 (19), the");
    comment(out, "order of checks, and which counts are stored and kept");
    for _ in 0..options.count {
        let Some(mut kept) = opened(random) else {
            continue;
        };
        for _ in 0..1 + random.below(12) {
            match random.below(5) {
                0 | 1 => count_by_chance(out, &mut kept, random),
                _ => edit_by_chance(out, &mut kept, random),
            }
            assert!(kept.is_true(), "a count that is stored is true");
        }
    }
}
