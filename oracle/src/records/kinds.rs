//! The columns of each kind that the families over several kinds make, those of the kind's own families; and how such a family goes
//! over them.

use super::columns::{all_columns, Kind, Recorded};
use super::{
    boolean as booleans, comment, delta as deltas, optional, rle as integers, text as names,
    Options,
};
use crate::random::Random;

/// The columns of a kind.
pub struct Columns {
    pub kind: &'static Kind,
    /// the bytes at which the rules turn
    pub alphabet: &'static [u8],
    pub long: fn() -> Vec<Vec<u8>>,
    pub chance: fn(&mut Random) -> Vec<u8>,
}

pub const INTEGERS: Columns = Columns {
    kind: &integers::COLUMN.kind,
    alphabet: &optional::ALPHABET,
    long: || optional::long_columns(&integers::COLUMN),
    chance: |random| optional::chance_column(&integers::COLUMN, random),
};

pub const DELTAS: Columns = Columns {
    kind: &deltas::COLUMN.kind,
    alphabet: &optional::ALPHABET,
    long: || optional::long_columns(&deltas::COLUMN),
    chance: |random| optional::chance_column(&deltas::COLUMN, random),
};

pub const BOOLEANS: Columns = Columns {
    kind: &booleans::KIND,
    alphabet: &booleans::ALPHABET,
    long: booleans::long_columns,
    chance: booleans::chance_column,
};

pub const NAMES: Columns = Columns {
    kind: &names::KIND,
    alphabet: &names::ALPHABET,
    long: names::long_columns,
    chance: names::chance_column,
};

/// A family over the four kinds.
pub struct Family {
    pub recorded: Recorded,
    /// all columns of up to so many bytes
    pub most: usize,
    /// the records of a column by chance: cut, and with bytes changed
    pub damaged: fn(&mut String, &Kind, &[u8], &mut Random),
    /// which columns those are
    pub by_chance: &'static str,
}

impl Family {
    fn record(&self, out: &mut String, kind: &Kind, column: &[u8]) {
        (self.recorded.by)(out, kind, column);
    }

    /// All columns of few bytes, long runs, and by chance.
    pub fn of_kind(
        &self,
        out: &mut String,
        columns: &Columns,
        options: &Options,
        random: &mut Random,
    ) {
        let kind = columns.kind;
        let most = if options.lean { 3 } else { self.most };
        all_columns(out, kind, columns.alphabet, most, &self.recorded);
        comment(
            out,
            "the crate's columns of long runs, and those cut by a byte",
        );
        for column in (columns.long)() {
            if column.len() < 1000 || !options.lean {
                self.record(out, kind, &column);
                self.record(out, kind, &column[..column.len().saturating_sub(1)]);
            }
        }
        comment(out, self.by_chance);
        for _ in 0..options.count {
            let column = (columns.chance)(random);
            // one in few of those that a long name makes long
            if column.len() < 100 || random.below(20) == 0 {
                (self.damaged)(out, kind, &column, random);
            }
        }
    }

    /// Names in which every byte tells.
    pub fn of_names(&self, out: &mut String) {
        comment(
            out,
            "names of every length of UTF-8, and wrong neighbours of them, cut at every byte",
        );
        for column in names::telling_columns() {
            for end in 1..=column.len() {
                self.record(out, NAMES.kind, &column[..end]);
            }
        }
    }
}
