//! Why a table or a column is refused: which row or which run is at fault, and the facts that make the refusal true.
//!
//! Number and place are those of the ordinary call ([`read_table`](crate::raw_column::read_table), and each kind's `count`). A table or column without
//! fault has no reason.

use crate::column_specification::{ColumnSpec, ColumnType};
use crate::{judged, raw, Refusal};
use std::fmt;

/// What a reason speaks of.
#[derive(Clone, Copy, Debug, PartialEq, Eq)]
pub enum About {
    /// The table as a whole.
    Table,
    /// A row of the table, by its position.
    Row(u64),
    /// A run of a column, counted from 0, runs that add nothing too, and the byte where it begins. All runs before it read without fault.
    Run {
        run: u64,
        begins: usize,
        /// The number at that byte, where one was read: 0 for an absent run.
        count: Option<i128>,
        /// The index of the reading at fault; of a bad count, how many readings come before it.
        index: u64,
    },
}

/// The facts that make a refusal true.
#[derive(Clone, Copy, Debug, PartialEq, Eq)]
pub enum Facts {
    /// 1, 2, 3, 21: how many bytes of the number at the place are there.
    Bytes(u64),
    /// 1, 20: a name's length, and how many bytes are there for it.
    Name { length: u64, there: u64 },
    /// 5: the readings before the run, and how many its count asks for.
    Passes { had: u64, asked: u64 },
    /// 6: the sum before, and the delta that leaves i64 with it.
    Sum { sum: i64, delta: i64 },
    /// 11: the table's count.
    Columns(u64),
    /// 12: the specification before, and that of the row, whose key is below it.
    Falls { before: ColumnSpec, row: ColumnSpec },
    /// 13: the row's specification, which has bit 3 set.
    Compressed(ColumnSpec),
    /// 14, 15: what the lengths add up to, and how many bytes of data there are.
    Lengths { total: u128, data: u64 },
}

/// Why a table or a column is refused.
#[derive(Clone, Copy, Debug, PartialEq, Eq)]
pub struct Reason {
    pub fault: Refusal,
    pub about: About,
    pub facts: Facts,
}

/// A specification at the boundary, which is a u32 as wide as all its numbers.
fn spec(n: u64) -> ColumnSpec {
    ColumnSpec(n as u32)
}

fn facts(r: &raw::Reason) -> Facts {
    match r.facts {
        raw::BYTES => Facts::Bytes(r.first),
        raw::NAME => Facts::Name {
            length: r.first,
            there: r.second,
        },
        raw::PASSES => Facts::Passes {
            had: r.first,
            asked: r.second,
        },
        raw::SUM => Facts::Sum {
            sum: r.sum,
            delta: r.delta,
        },
        raw::COLUMNS => Facts::Columns(r.first),
        raw::FALLS => Facts::Falls {
            before: spec(r.first),
            row: spec(r.second),
        },
        raw::COMPRESSED => Facts::Compressed(spec(r.first)),
        _ => Facts::Lengths {
            total: (u128::from(r.first) << 64) + u128::from(r.second),
            data: r.third,
        },
    }
}

fn count(r: &raw::Reason) -> Option<i128> {
    match r.sign {
        raw::PLUS => Some(i128::from(r.count)),
        raw::MINUS => Some(-i128::from(r.count)),
        _ => None,
    }
}

fn about(r: &raw::Reason) -> Option<About> {
    match r.about {
        raw::TABLE => Some(About::Table),
        raw::ROW => Some(About::Row(r.which)),
        raw::RUN => Some(About::Run {
            run: r.which,
            begins: r.begins,
            count: count(r),
            index: r.index,
        }),
        _ => None,
    }
}

/// What the boundary tells: no reason where nothing is wrong.
fn told(r: raw::Reason) -> Result<Option<Reason>, Refusal> {
    let fault = Refusal {
        number: r.fault,
        place: r.fault_place,
    };
    let reason = about(&r).map(|about| Reason {
        fault,
        about,
        facts: facts(&r),
    });
    judged(r.number, r.place, reason)
}

/// The reason of a table's fault.
pub fn of_table(block: &[u8]) -> Option<Reason> {
    told(unsafe { raw::grundavok_table_reason(block.as_ptr(), block.len()) }).unwrap_or(None)
}

/// The reason of a column's first fault. Refusal: 17 for a type that no call serves.
pub fn of_column(typ: ColumnType, s: &[u8]) -> Result<Option<Reason>, Refusal> {
    told(unsafe { raw::grundavok_column_reason(typ as u8, s.as_ptr(), s.len()) })
}

/// The reason of the table's fault or, where it has none, of the fault of the column at a position. Refusals: 16, 17.
pub fn of_block(block: &[u8], position: usize) -> Result<Option<Reason>, Refusal> {
    told(unsafe { raw::grundavok_block_reason(block.as_ptr(), block.len(), position) })
}

impl fmt::Display for About {
    fn fmt(&self, f: &mut fmt::Formatter<'_>) -> fmt::Result {
        match *self {
            About::Table => write!(f, "the table"),
            About::Row(row) => write!(f, "row {row} of the table"),
            About::Run { run, begins, count, index } => {
                write!(f, "run {run}, which begins at byte {begins}")?;
                if let Some(count) = count {
                    write!(f, " with the count {count}")?;
                }
                write!(f, ", at reading {index}")
            }
        }
    }
}

/// What the facts say, by the refusal's number where one sort of facts serves several.
fn say(f: &mut fmt::Formatter<'_>, number: u8, facts: Facts) -> fmt::Result {
    match facts {
        Facts::Bytes(_) if number == 21 => write!(f, "the bytes end where a number is due"),
        Facts::Bytes(n) if number == 1 => write!(f, "the bytes end within a number, of which {n} are there"),
        Facts::Bytes(n) if number == 3 => write!(f, "the number's {n} bytes are more than it needs"),
        Facts::Bytes(n) => write!(f, "the number's {n} bytes are too large for its type"),
        Facts::Name { length, there } if number == 1 => write!(f, "the name has {length} bytes, and {there} are there"),
        Facts::Name { length, .. } => write!(f, "the name's {length} bytes are not UTF-8"),
        Facts::Passes { had, asked } => write!(f, "{had} readings come before, and {asked} more pass the limit of 4294967295"),
        Facts::Sum { sum, delta } => write!(f, "the sum before is {sum}, and the delta {delta} leaves i64 with it"),
        Facts::Columns(n) => write!(f, "it has {n} columns, more than 64"),
        Facts::Falls { before, row } => write!(
            f,
            "its specification {:#x} stands behind {:#x}, which comes later in the order",
            row.0, before.0
        ),
        Facts::Compressed(spec) => write!(f, "its specification {:#x} has bit 3 set", spec.0),
        Facts::Lengths { total, data } => write!(f, "its lengths add up to {total} bytes, and there are {data}"),
    }
}

impl fmt::Display for Reason {
    fn fmt(&self, f: &mut fmt::Formatter<'_>) -> fmt::Result {
        write!(f, "{}: {}: ", self.fault, self.about)?;
        say(f, self.fault.number, self.facts)
    }
}
