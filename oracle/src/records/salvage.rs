//! What survives of a column, document 02, [7]: the readings that the crate's decoders, which are iterators, give before their
//! first fault, and what its encoders make of those. The call's own refusals, 17, 8, 9 and 10, are document 02's.

use super::columns::{changed, Kind, Recorded, Slices, Walked};
use super::kinds::{Family, BOOLEANS, DELTAS, INTEGERS, NAMES};
use super::{comment, Options, Record};
use crate::random::Random;
use crate::TOO_MANY;

/// What survives of a column, and as which bytes.
struct Survivors {
    walked: Walked,
    fresh: Vec<u8>,
}

/// None where the records have no such column.
fn survivors(kind: &Kind, column: &[u8]) -> Option<Survivors> {
    let walked = (kind.walk)(column).filter(|walked| kind.holds(&walked.readings))?;
    if walked.ending == Err(TOO_MANY) {
        return None;
    }
    let fresh = (kind.rewrite)(column, &walked.readings);
    Some(Survivors { walked, fresh })
}

impl Survivors {
    fn kept(&self) -> usize {
        self.walked.readings[0].len()
    }

    /// The column's fault, which has no place where it is the crate's.
    fn fault(&self, record: Record) -> Record {
        match self.walked.ending {
            Ok(()) => record.number(0).number(0),
            Err(refusal) => record.number(refusal.into()).field("*"),
        }
    }

    fn surveyed(&self, out: &mut String, kind: &Kind, column: &[u8]) {
        let record = Record::call(&format!("{}_survey", kind.calls)).bytes(column);
        let record = record.accepted().number(self.kept() as u64);
        self.fault(record).end(out);
    }

    /// Into these slots and an output of so many bytes.
    fn salvaged(
        &self,
        out: &mut String,
        kind: &Kind,
        typ: u64,
        column: &[u8],
        mut slots: Slices,
        size: usize,
    ) {
        let mut output = vec![0xee; size];
        let record = Record::call(&format!("{}_salvage", kind.calls))
            .number(typ)
            .bytes(column)
            .lists(&slots)
            .bytes(&output);
        let is_even = slots.iter().all(|slice| slice.len() == slots[0].len());
        let refusal = match () {
            _ if !kind.types.contains(&typ) => Some(17),
            _ if !is_even => Some(8),
            _ if slots[0].len() < self.kept() => Some(9),
            _ if size < self.fresh.len() => Some(10),
            _ => None,
        };
        match refusal {
            Some(refusal) => (0..4).fold(record.refused_at(refusal, 0), |r, _| r.number(0)),
            None => {
                for (slice, values) in slots.iter_mut().zip(&self.walked.readings) {
                    slice[..values.len()].copy_from_slice(values);
                }
                output[..self.fresh.len()].copy_from_slice(&self.fresh);
                let record = record.accepted().number(self.kept() as u64);
                self.fault(record.number(self.fresh.len() as u64))
            }
        }
        .lists(&slots)
        .bytes(&output)
        .end(out);
    }
}

/// So many slots, with telling bytes in them.
fn marked(kind: &Kind, size: usize) -> Slices {
    (0..kind.slices)
        .map(|slice| vec![[0xee, 7, 5][slice]; size])
        .collect()
}

/// Surveyed, and salvaged into just enough slots and output; and whether the column is among the records at all.
fn saved(out: &mut String, kind: &Kind, column: &[u8]) -> bool {
    let survivors = survivors(kind, column);
    if let Some(survivors) = &survivors {
        survivors.surveyed(out, kind, column);
        let slots = marked(kind, survivors.kept());
        let size = survivors.fresh.len();
        survivors.salvaged(out, kind, kind.types[0], column, slots, size);
    }
    survivors.is_some()
}

/// The same, and into slots and outputs of one more and one fewer.
fn saved_tightly(out: &mut String, kind: &Kind, column: &[u8]) {
    if !saved(out, kind, column) {
        return;
    }
    let survivors = survivors(kind, column).unwrap();
    let (kept, size) = (survivors.kept(), survivors.fresh.len());
    let typ = *kind.types.last().unwrap();
    let mut into = |slots: usize, size: usize| {
        let slots = marked(kind, slots);
        survivors.salvaged(out, kind, typ, column, slots, size);
    };
    into(kept + 1, size + 1);
    if kept > 0 {
        into(kept - 1, size);
    }
    if size > 0 {
        into(kept, size - 1);
    }
}

/// Into as many slots and as much output as chance says, with anything in the slots; at times the slices are of unequal
/// length, or the type is another.
fn saved_by_chance(out: &mut String, kind: &Kind, column: &[u8], random: &mut Random) {
    let Some(survivors) = survivors(kind, column) else {
        return;
    };
    let (kept, size) = (survivors.kept() as u64, survivors.fresh.len() as u64);
    let typ = match random.below(6) {
        0 => random.pick(&[0, 1, 2, 3, 4, 5, 6, 7, 8, 0xff]),
        _ => random.pick(kind.types),
    };
    let length = kept.saturating_sub(1) + random.below(4);
    let slots = (0..kind.slices)
        .map(|slice| {
            let length = match random.below(12) {
                0 => random.below(9),
                _ => length,
            };
            // the last slice is one of bytes; a boolean list has bytes alone
            let is_wide = slice + 1 < kind.slices;
            let any = if is_wide {
                random.wide()
            } else {
                random.byte().into()
            };
            vec![any; length as usize]
        })
        .collect();
    let size = size.saturating_sub(1) + random.below(4);
    survivors.salvaged(out, kind, typ, column, slots, size as usize);
}

/// A column, cut at every byte, and with some of its bytes changed.
fn damaged(out: &mut String, kind: &Kind, column: &[u8], random: &mut Random) {
    for end in 0..=column.len() {
        saved_tightly(out, kind, &column[..end]);
        saved_by_chance(out, kind, &column[..end], random);
    }
    for _ in 0..column.len().min(4) {
        let other = changed(column, random);
        saved_tightly(out, kind, &other);
        saved_by_chance(out, kind, &other, random);
    }
}

const SALVAGES: Family = Family {
    recorded: Recorded {
        by: saved,
        without: "their counts make more than 17000 readings, which the crate lists one by one, or pass the limit; or no line holds the list",
    },
    most: 4,
    damaged,
    by_chance: "by chance: the crate's columns, and wasteful ones; each cut at every byte, and with bytes changed",
};

/// All columns of few bytes, long runs, names of every length of character, and by chance.
pub fn all(out: &mut String, options: &Options, random: &mut Random) {
    comment(out, "the readings kept, the column's fault (1, 2, 3, 14 or 15) and the bytes written are those of the crate's decoders and encoders, over strict numbers; 6, the starts of names, each held to the crate's string, and the call's own 11 (17), 8, 9 and a (10) are document 02's");
    for columns in [INTEGERS, DELTAS, BOOLEANS, NAMES] {
        SALVAGES.of_kind(out, &columns, options, random);
    }
    SALVAGES.of_names(out);
}
