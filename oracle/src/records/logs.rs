//! The pen's log, document 02, [11]: its entries applied to a `Vec` of the Rust's, by insert, remove and assignment, and what the crate's encoder makes of
//! the final list. 7, 9, 10, 23 and what is left in the slots are document 02's; the column is the crate's too, and so is the list that it reads as.

use super::{comment, Options, Record};
use crate::delta;
use crate::random::Random;

type List = Vec<Option<i64>>;

#[derive(Clone, Copy)]
enum Entry {
    Insert(usize, i64),
    InsertAbsent(usize),
    Remove(usize),
    Change(usize, i64),
}

impl Entry {
    fn bytes(self) -> Vec<u8> {
        let (kind, position, depth) = match self {
            Entry::Insert(i, x) => (1, i, Some(x)),
            Entry::InsertAbsent(i) => (2, i, None),
            Entry::Remove(i) => (3, i, None),
            Entry::Change(i, x) => (4, i, Some(x)),
        };
        let mut bytes = vec![kind];
        bytes.extend((position as u32).to_le_bytes());
        bytes.extend(depth.map(i64::to_le_bytes).into_iter().flatten());
        bytes
    }

    /// The list behind the entry, or that the list has no such position.
    fn apply(self, list: &mut List) -> bool {
        match self {
            Entry::Insert(i, x) if i <= list.len() => list.insert(i, Some(x)),
            Entry::InsertAbsent(i) if i <= list.len() => list.insert(i, None),
            Entry::Remove(i) if i < list.len() => drop(list.remove(i)),
            Entry::Change(i, x) if i < list.len() => list[i] = Some(x),
            _ => return false,
        }
        true
    }
}

/// A log: entries, and bytes behind them that are none.
struct Log {
    entries: Vec<Entry>,
    tail: Vec<u8>,
}

/// What a replay comes to before its end: the final list and the longest one's length, or a refusal and its place.
fn followed(old: &List, log: &Log, slots: usize) -> Result<(List, usize), (u8, usize)> {
    let (mut list, mut longest, mut place) = (old.clone(), old.len(), 0);
    if slots < longest {
        return Err((9, 0));
    }
    for entry in &log.entries {
        if !entry.apply(&mut list) {
            return Err((23, place));
        }
        if slots < list.len() {
            return Err((9, 0));
        }
        longest = longest.max(list.len());
        place += entry.bytes().len();
    }
    match log.tail.is_empty() {
        true => Ok((list, longest)),
        false => Err((23, place)),
    }
}

/// The index of the first difference that leaves i64.
fn wide(list: &List) -> Option<usize> {
    let mut last = 0i64;
    list.iter().position(|reading| match reading {
        Some(value) => value
            .checked_sub(std::mem::replace(&mut last, *value))
            .is_none(),
        None => false,
    })
}

/// The log over the column of a list, into so many slots and, beside what its column takes, so many bytes more or fewer.
fn replayed(out: &mut String, list: &List, log: &Log, slots: usize, more: isize) {
    let column = delta::encode(list);
    let old = delta::decode(&column, usize::MAX).expect("the crate's own column");
    let bytes: Vec<u8> = log
        .entries
        .iter()
        .flat_map(|entry| entry.bytes())
        .chain(log.tail.clone())
        .collect();
    let followed = followed(&old, log, slots);
    let fresh = match &followed {
        Ok((last, _)) if wide(last).is_none() => delta::encode(last),
        _ => Vec::new(),
    };
    let mut output = vec![0xee; fresh.len().saturating_add_signed(more)];
    let mut held = [vec![0xee; slots], vec![7; slots]];
    let record = Record::call("delta_replay")
        .bytes(&column)
        .bytes(&bytes)
        .lists(&held)
        .bytes(&output);
    let record = match followed {
        Err((refusal, place)) => record.refused_at(refusal, place as u64).number(0).number(0),
        Ok((last, longest)) => {
            for (i, slot) in held[0].iter_mut().enumerate().take(longest) {
                *slot = last.get(i).copied().flatten().unwrap_or(0) as u64;
            }
            for (i, slot) in held[1].iter_mut().enumerate().take(longest) {
                *slot = last.get(i).copied().flatten().is_some().into();
            }
            match wide(&last) {
                Some(index) => record.refused_at(7, index as u64).number(0).number(0),
                None if output.len() < fresh.len() => record.refused_at(10, 0).number(0).number(0),
                None => {
                    output[..fresh.len()].copy_from_slice(&fresh);
                    record
                        .accepted()
                        .number(last.len() as u64)
                        .number(fresh.len() as u64)
                }
            }
        }
    };
    record.lists(&held).bytes(&output).end(out);
}

/// Every entry that a list of so many readings can have, and those at one position more.
fn every_entry(length: usize) -> Vec<Entry> {
    let at = 0..length + 2;
    let kinds = |i| {
        [
            Entry::Insert(i, 5),
            Entry::Insert(i, -6),
            Entry::InsertAbsent(i),
            Entry::Remove(i),
            Entry::Change(i, 5),
        ]
    };
    at.flat_map(kinds).collect()
}

fn every_short(out: &mut String, most: usize) {
    super::columns::all_lists(3, most, |kinds| {
        let list: List = kinds
            .iter()
            .map(|&kind| [None, Some(5), Some(6)][kind])
            .collect();
        for first in every_entry(list.len()) {
            for second in every_entry(list.len()) {
                let log = Log {
                    entries: vec![first, second],
                    tail: Vec::new(),
                };
                replayed(out, &list, &log, list.len() + 1, 1);
            }
        }
    });
}

fn depth(random: &mut Random) -> i64 {
    match random.below(40) {
        0 => random.pick(&[i64::MIN, i64::MAX, -2, -1, 0]),
        1 => random.wide() as i64 >> 8,
        _ => random.below(160) as i64 - 20,
    }
}

fn entry(random: &mut Random, length: usize) -> Entry {
    let beyond = u64::from(random.below(60) == 0);
    let insert = random.below(length as u64 + 1 + beyond) as usize;
    let other = random.below((length as u64).max(1) + beyond) as usize;
    match random.below(4) {
        0 => Entry::Insert(insert, depth(random)),
        1 => Entry::InsertAbsent(insert),
        2 => Entry::Remove(other),
        _ => Entry::Change(other, depth(random)),
    }
}

/// A list of up to fifty readings, and a log of up to thirty entries, some of them bad or cut.
fn by_chance(out: &mut String, random: &mut Random) {
    let list: List = (0..random.below(50))
        .map(|_| (random.below(5) > 0).then(|| random.below(90) as i64))
        .collect();
    let (mut last, mut entries) = (
        delta::decode(&delta::encode(&list), usize::MAX).expect("the crate's own column"),
        Vec::new(),
    );
    let mut longest = last.len();
    for _ in 0..random.below(31) {
        let entry = entry(random, last.len());
        entries.push(entry);
        if !entry.apply(&mut last) {
            break;
        }
        longest = longest.max(last.len());
    }
    let mut tail = Vec::new();
    if random.below(8) == 0 {
        tail = entry(random, last.len()).bytes();
        tail[0] = random.pick(&[0, 1, 4, 5, 0xff]);
        tail.truncate(1 + random.below(4) as usize);
    }
    let slots =
        (longest + random.below(4) as usize).saturating_sub(usize::from(random.below(4) == 0));
    let more = [0, 1, -1, 0, 2, 0][random.below(6) as usize];
    replayed(out, &list, &Log { entries, tail }, slots, more);
}

pub fn all(out: &mut String, options: &Options, random: &mut Random) {
    comment(out, "All lists of up to a few readings, and two entries of every kind and position: slots for one reading more.");
    every_short(out, if options.lean { 2 } else { 3 });
    comment(out, "Lists and logs by chance.");
    for _ in 0..options.count {
        by_chance(out, random);
    }
}
