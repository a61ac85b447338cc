//! An edit as document 01 has it. The old list, its column's faults and the new column are the crate's; document 01's are
//! the order of the checks, the refusals that are not of a table or a column, what is left in the slots, and the new block.

use super::columns::{Encoding, Slices};
use super::counts::{after_edit, Kept, Lent};
use super::tables::{self, Fault};
use super::{List, Record};
use crate::{specifications, Refusal, TOO_MANY};

/// A reading of any kind of column, by its bits; a boolean is always present.
pub type Reading = Option<u64>;

/// What a column with a range of its readings replaced is, or its refusal.
type Splice = fn(&[u8], usize, usize, &[Reading]) -> Result<Vec<u8>, Refusal>;

/// A call that edits, and the columns that it serves.
pub struct Served {
    pub call: &'static str,
    pub types: &'static [u8],
    /// a list is values and presence bytes, or the bytes of a boolean list alone
    pub slices: usize,
    /// the list of a column, or its refusal; None where the column is outside the records
    pub decode: fn(&[u8]) -> Option<Result<Slices, Refusal>>,
    /// the column of a list, or document 01's 7
    pub encode: fn(&[Reading]) -> Encoding,
    /// by the crate
    pub splice: Splice,
}

/// What a call is given.
#[derive(Clone)]
pub struct Edit<N = Slices> {
    pub block: Vec<u8>,
    /// none: a call whose record has no table
    pub lent: Option<Lent>,
    pub position: u64,
    pub start: u64,
    /// none: to the end of the list, by the call that takes only a start
    pub end: Option<u64>,
    pub new: N,
    pub slots: Slices,
    pub out: Vec<u8>,
}

impl<N> Edit<N> {
    /// One with nothing lent yet.
    pub fn new(
        (block, position): (Vec<u8>, u64),
        (start, end): (u64, Option<u64>),
        new: N,
    ) -> Edit<N> {
        Edit {
            block,
            lent: None,
            position,
            start,
            end,
            new,
            slots: vec![],
            out: vec![],
        }
    }

    /// Table faults, 25 and 16; or the row, and where its column begins.
    pub fn row(&self) -> Result<(tables::Row, usize), Fault> {
        let (_, rows) = tables::open(&self.block)?;
        if self.lent.as_ref().is_some_and(|lent| lent.rows != rows) {
            return Err((25, Some(0)));
        }
        let (_, row, at) = tables::row_at(&self.block, self.position)?;
        Ok((row, at))
    }
}

/// An edit that nothing stops before the slots are filled.
pub struct Ready {
    column: Vec<u8>,
    /// how long the old list is
    pub old: usize,
    pub list: Vec<Reading>,
}

/// The readings of a list.
pub fn readings(list: &Slices) -> Vec<Reading> {
    match &list[..] {
        [values, present] => values
            .iter()
            .zip(present)
            .map(|(&value, &byte)| (byte == 1).then_some(value))
            .collect(),
        booleans => booleans[0].iter().map(|&byte| Some(byte)).collect(),
    }
}

/// A list as slots hold it: the value of an absent reading is 0.
pub fn slices(list: &[Reading], slices: usize) -> Slices {
    let values = list.iter().map(|reading| reading.unwrap_or(0)).collect();
    let present = list.iter().map(|reading| reading.is_some().into());
    match slices {
        2 => vec![values, present.collect()],
        _ => vec![values],
    }
}

/// Document 01's 8: lengths first, then the first bad byte of the new readings.
fn judge_given(edit: &Edit) -> Result<(), Fault> {
    let is_even = |list: &Slices| list.iter().all(|slice| slice.len() == list[0].len());
    if !is_even(&edit.slots) || !is_even(&edit.new) {
        return Err((8, Some(0)));
    }
    let bytes = edit.new.last().unwrap();
    match bytes.iter().position(|&byte| byte > 1) {
        Some(index) => Err((8, Some(index as u64))),
        None => Ok(()),
    }
}

/// The checks up to 9, in document 01's order.
pub fn ready(served: &Served, edit: &Edit) -> Result<Ready, Fault> {
    let (row, at) = edit.row()?;
    if !served.types.contains(&specifications::col_type(row.0)) {
        return Err((17, Some(0)));
    }
    if edit.end.is_some_and(|end| end < edit.start) {
        return Err((18, Some(0)));
    }
    judge_given(edit)?;
    let column = edit.block[at..at + row.2].to_vec();
    let decoded = (served.decode)(&column).unwrap_or(Err(TOO_MANY));
    let mut list = readings(&decoded.map_err(|refusal| (refusal, None))?);
    let old = list.len();
    if edit.start > old as u64 {
        return Err((18, Some(0)));
    }
    let end = edit.end.unwrap_or(old as u64);
    // document 02, [12]; the crate counts such an end as the list's length
    if end > old as u64 {
        return Err((18, Some(0)));
    }
    list.splice(edit.start as usize..end as usize, readings(&edit.new));
    if edit.slots[0].len() < old.max(list.len()) {
        return Err((9, Some(0)));
    }
    Ok(Ready { column, old, list })
}

/// The slots hold the new list, then absent zeros up to the old list's length.
fn fill(served: &Served, edit: &mut Edit, ready: &Ready) {
    let new = slices(&ready.list, served.slices);
    for (slots, new) in edit.slots.iter_mut().zip(new) {
        slots[..new.len()].copy_from_slice(&new);
        if new.len() < ready.old {
            slots[new.len()..ready.old].fill(0);
        }
    }
}

/// The new column, or 7.
pub fn new_column(served: &Served, edit: &Edit, ready: &Ready) -> Result<Vec<u8>, Fault> {
    let by_01 = |(refusal, place)| (refusal, Some(place));
    let encoded = (served.encode)(&ready.list).map_err(by_01)?;
    let end = edit.end.unwrap_or(ready.old as u64) as usize;
    let new = readings(&edit.new);
    let column = (served.splice)(&ready.column, edit.start as usize, end, &new).unwrap();
    assert_eq!(column, encoded, "the crate's splice, and its encoder");
    Ok(column)
}

/// 7, 10, or the length of the new block, which then stands at the front of the output.
fn finish(served: &Served, edit: &mut Edit, ready: &Ready) -> Result<usize, Fault> {
    let column = new_column(served, edit, ready)?;
    let size = column.len() as u64;
    let (at, length) = tables::frame(&edit.block, edit.position, size, &mut edit.out)?;
    edit.out[at..at + column.len()].copy_from_slice(&column);
    Ok(length)
}

/// The record of an edit, where its table and column are among the records and a line holds it; and what an accepted one gives.
pub fn record(out: &mut String, served: &Served, mut edit: Edit) -> Option<Kept> {
    if !tables::is_ordered_alike(&edit.block) {
        return None;
    }
    let record = called(served.call, &edit)
        .lists(&edit.new)
        .lists(&edit.slots)
        .bytes(&edit.out);
    let finished = ready(served, &edit).and_then(|ready| {
        fill(served, &mut edit, &ready);
        finish(served, &mut edit, &ready)
    });
    answered(out, record, &edit, finished)
}

/// The call, its block, the table where one is lent, and its range.
pub fn called<N>(call: &str, edit: &Edit<N>) -> Record {
    let record = match &edit.lent {
        None => Record::call(call).bytes(&edit.block),
        Some(lent) => Record::call(&format!("lent_{call}"))
            .bytes(&edit.block)
            .field(List(&lent.numbers())),
    };
    let record = record.number(edit.position).number(edit.start);
    match edit.end {
        Some(end) => record.number(end),
        None => record.field("end"),
    }
}

/// What it came to: the refusal, or the new block with its table, and what slots and output then hold.
pub fn answered<N>(
    out: &mut String,
    record: Record,
    edit: &Edit<N>,
    finished: Result<usize, Fault>,
) -> Option<Kept> {
    // the crate reads the new table
    let kept = match finished {
        Err((TOO_MANY, _)) => return None,
        Err(_) => None,
        Ok(length) => {
            let block = edit.out[..length].to_vec();
            Some(after_edit(block, edit.lent.as_ref(), edit.position)?)
        }
    };
    let record = match finished {
        Err(fault) => tables::refused(record, fault).number(0),
        Ok(length) => record.accepted().number(length as u64),
    };
    // a refusal gives back the table that was lent; without one its record has no rows
    let record = match (&edit.lent, &kept) {
        (Some(lent), kept) => {
            let table = kept.as_ref().map_or(lent, |kept| &kept.table);
            record.field(List(&table.numbers()))
        }
        (None, Some(kept)) => record.lists(&tables::row_lists(&kept.table.rows)),
        (None, None) => record.lists(&[vec![], vec![], vec![]]),
    };
    let record = record.lists(&edit.slots).bytes(&edit.out);
    if record.0.len() > 65_536 {
        return None;
    }
    record.end(out);
    kept
}
