//! Records of answers, one call a line, in the form of docs/RECORDS.md. A module a group of families.

mod boolean;
mod columns;
mod corrections;
mod counts;
mod delta;
mod edited;
mod edits;
mod forms;
mod kinds;
mod logs;
mod numbers;
mod optional;
mod rle;
mod salvage;
mod specifications;
mod tables;
mod text;
mod text_edits;
mod utf8;
mod walks;
mod writing;

use crate::random::Random;
use crate::Refusal;
use std::fmt::{self, Display, Write};

/// What the command line says.
pub struct Options {
    pub seed: u64,
    /// how many records are made by chance
    pub count: u64,
    /// fewer of the inputs that are all tried; the family says which
    pub lean: bool,
}

pub struct Family {
    pub name: &'static str,
    pub about: &'static str,
    write: fn(&mut String, &Options, &mut Random),
}

pub const FAMILIES: [Family; 22] = [
    Family {
        name: "numbers-short",
        about: "the four readers on all inputs of 0 to 2 bytes",
        write: numbers::short,
    },
    Family {
        name: "numbers",
        about: "the four readers on longer inputs around each boundary",
        write: numbers::long,
    },
    Family {
        name: "writing",
        about: "lengths and writings of numbers into outputs of every size near theirs",
        write: writing::all,
    },
    Family {
        name: "specifications",
        about: "packed and unpacked specifications",
        write: specifications::all,
    },
    Family {
        name: "rle-lists",
        about: "lists of optional u64 written as RLE columns",
        write: rle::lists,
    },
    Family {
        name: "rle-bytes",
        about: "RLE columns of optional u64, sound and faulty ones, counted and decoded",
        write: rle::bytes,
    },
    Family {
        name: "boolean-lists",
        about: "boolean lists written as columns, in both forms",
        write: boolean::lists,
    },
    Family {
        name: "boolean-bytes",
        about: "boolean columns, sound and faulty ones, counted and decoded",
        write: boolean::bytes,
    },
    Family {
        name: "delta-lists",
        about: "lists of optional i64 written as delta columns",
        write: delta::lists,
    },
    Family {
        name: "delta-bytes",
        about: "delta columns of optional i64, sound and faulty ones, counted and decoded",
        write: delta::bytes,
    },
    Family {
        name: "walks",
        about: "columns of the three kinds, sound and faulty ones, walked a reading at a time",
        write: walks::all,
    },
    Family {
        name: "tables",
        about: "tables and blocks, sound and faulty ones: rows, columns by position and specification, frames",
        write: tables::all,
    },
    Family {
        name: "corrections",
        about: "two blocks, sound and faulty ones: a column by its specification, the corrections over the first scan",
        write: corrections::all,
    },
    Family {
        name: "edits",
        about: "edits of integer, delta and boolean columns, sound and refused ones",
        write: edits::all,
    },
    Family {
        name: "text-lists",
        about: "lists of optional names written as String columns",
        write: text::lists,
    },
    Family {
        name: "text-bytes",
        about: "String columns, sound and faulty ones, counted and decoded",
        write: text::bytes,
    },
    Family {
        name: "text-edits",
        about: "edits of String columns, sound and refused ones",
        write: text_edits::all,
    },
    Family {
        name: "counts",
        about: "counts and edits by turns, each lent the table that the one before gave",
        write: counts::all,
    },
    Family {
        name: "salvage",
        about: "columns of the four kinds, sound and faulty ones, surveyed and salvaged",
        write: salvage::all,
    },
    Family {
        name: "logs",
        about: "logs of the pen replayed over delta columns, good and refused ones",
        write: logs::all,
    },
    Family {
        name: "forms",
        about: "columns of the four kinds, sound and faulty ones: are they what the writer gives",
        write: forms::all,
    },
    Family {
        name: "utf8",
        about: "bytes, whether they are UTF-8, and which bytes may stand behind them",
        write: utf8::all,
    },
];

impl Family {
    pub fn named(name: &str) -> Option<&'static Family> {
        FAMILIES.iter().find(|family| family.name == name)
    }

    /// The family's records, with a comment that says how they were made.
    pub fn records(&self, options: &Options) -> String {
        let mut out = String::new();
        comment(&mut out, &format!("{}: {}", self.name, self.about));
        comment(
            &mut out,
            &format!(
                "made by: oracle/run records {} --seed {} --count {}{}",
                self.name,
                options.seed,
                options.count,
                if options.lean { " --lean" } else { "" }
            ),
        );
        (self.write)(&mut out, options, &mut Random(options.seed));
        out
    }
}

fn comment(out: &mut String, text: &str) {
    writeln!(out, "# {text}").unwrap();
}

/// A record in the making.
struct Record(String);

impl Record {
    fn call(name: &str) -> Self {
        Self(name.into())
    }

    fn field(mut self, field: impl Display) -> Self {
        write!(self.0, " {field}").unwrap();
        self
    }

    fn number(self, number: u64) -> Self {
        self.field(format_args!("{number:x}"))
    }

    fn bytes(self, bytes: &[u8]) -> Self {
        self.field(Bytes(bytes))
    }

    /// The slices of a list, each as a list.
    fn lists(self, slices: &[Vec<u64>]) -> Self {
        slices
            .iter()
            .fold(self, |record, slice| record.field(List(slice)))
    }

    /// The call is accepted.
    fn accepted(self) -> Self {
        self.field("= 0 0")
    }

    /// The Rust refuses, and has no place.
    fn refused(self, refusal: Refusal) -> Self {
        self.field(format_args!("= {refusal:x} *"))
    }

    /// Document 01 refuses, at this place.
    fn refused_at(self, refusal: Refusal, place: u64) -> Self {
        self.field(format_args!("= {refusal:x} {place:x}"))
    }

    fn end(self, out: &mut String) {
        writeln!(out, "{}", self.0).unwrap();
    }
}

/// Bytes in hex pairs, four or more of the same with a count.
struct Bytes<'a>(&'a [u8]);

impl Display for Bytes<'_> {
    fn fmt(&self, f: &mut fmt::Formatter<'_>) -> fmt::Result {
        if self.0.is_empty() {
            return f.write_str("-");
        }
        // does the last part take further pairs?
        let mut open = false;
        let mut comma = "";
        for run in self.0.chunk_by(|a, b| a == b) {
            if run.len() >= 4 {
                write!(f, "{comma}{:x}*{:02x}", run.len(), run[0])?;
                open = false;
            } else {
                f.write_str(if open { "" } else { comma })?;
                for byte in run {
                    write!(f, "{byte:02x}")?;
                }
                open = true;
            }
            comma = ",";
        }
        Ok(())
    }
}

/// Numbers with a comma between two, three or more of the same with a count.
struct List<'a>(&'a [u64]);

impl Display for List<'_> {
    fn fmt(&self, f: &mut fmt::Formatter<'_>) -> fmt::Result {
        if self.0.is_empty() {
            return f.write_str("-");
        }
        let mut comma = "";
        for run in self.0.chunk_by(|a, b| a == b) {
            if run.len() >= 3 {
                write!(f, "{comma}{:x}*{:x}", run.len(), run[0])?;
                comma = ",";
            } else {
                for number in run {
                    write!(f, "{comma}{number:x}")?;
                    comma = ",";
                }
            }
        }
        Ok(())
    }
}
