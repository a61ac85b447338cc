//! The pen's log of a tracing session: its entries, and its replay over a delta column.
//!
//! An entry is a byte of kind, a position of four bytes and, for [`Entry::Insert`] and [`Entry::Change`], a depth of eight, both lowest byte first.

use crate::{delta, judged, lists, raw_call, Refusal};

/// What an entry does, at a position of the list. An insert may stand at the list's end; the others must name a reading that is there.
#[derive(Clone, Copy, Debug, PartialEq, Eq)]
pub enum Entry {
    Insert(u32, i64),
    InsertAbsent(u32),
    Remove(u32),
    Change(u32, i64),
}

/// The list after the last entry, and its column.
#[derive(Clone, Debug, PartialEq, Eq)]
pub struct Replayed {
    pub readings: Vec<Option<i64>>,
    pub column: Vec<u8>,
}

/// The entry at a position of the log, and the position behind it. Refusal: 23 where its kind is unknown or it is cut.
pub fn entry(log: &[u8], at: usize) -> Result<(Entry, usize), Refusal> {
    let r = raw_call!(grundavok_log_entry, [log], (at), [], []);
    let entry = match r.kind {
        1 => Entry::Insert(r.position, r.depth),
        2 => Entry::InsertAbsent(r.position),
        3 => Entry::Remove(r.position),
        _ => Entry::Change(r.position, r.depth),
    };
    judged(r.number, r.place, (entry, r.next))
}

/// The log replayed over a column, of whose lists on the way the caller will hold `most` readings. Refusals: the column's; 9 where a list is longer; entry by entry
/// 23, whose place is the entry's first byte, and 5; 7.
pub fn replay(column: &[u8], log: &[u8], most: usize) -> Result<Replayed, Refusal> {
    // An entry has five bytes at least and adds one reading at most.
    let n = delta::count(column)?.saturating_add(log.len() / 5).min(most);
    let (mut values, mut present) = (vec![0; n], vec![0; n]);
    let mut out = vec![0; column.len() + log.len() + 16];
    let mut r = raw_call!(grundavok_delta_replay, [column, log], (), [], [values, present, out]);
    if r.number == 10 {
        out.resize(11 * n, 0);
        r = raw_call!(grundavok_delta_replay, [column, log], (), [], [values, present, out]);
    }
    let (readings, written) = judged(r.number, r.place, (lists::length(r.readings), r.written))?;
    out.truncate(written);
    values.truncate(readings);
    Ok(Replayed {
        readings: lists::together(&values, &present),
        column: out,
    })
}
