//! What survives of a column that was cut or is broken: the readings before the first faulty one. Each kind's module has `survey`, which tells how many,
//! and `salvage`, which keeps them and writes them as a fresh column.
//!
//! The column's fault is no refusal of the call: it is told beside what survives, and a sound column has none.
//!
//! **A cut between two runs is no fault.** Such a column reads as a sound and shorter one, and nothing here can see what is missing. The lengths in a
//! block's table can ([`read_table`](crate::raw_column::read_table) refuses it with 14).

use crate::{judged, raw, Refusal};

/// How many readings survive, the absent ones too, and the column's first fault.
#[derive(Clone, Copy, Debug, PartialEq, Eq)]
pub struct Survey {
    pub readings: u64,
    pub fault: Option<Refusal>,
}

/// The readings that survive, the same as a fresh column, and the first fault of the given one. Where no reading is present the fresh column has no
/// bytes, though absent ones that survive stand in the list.
#[derive(Clone, Debug, PartialEq, Eq)]
pub struct Salvaged<T> {
    pub readings: Vec<T>,
    pub column: Vec<u8>,
    pub fault: Option<Refusal>,
}

/// A fault as the boundary tells it, which is 0 where there is none.
fn fault(number: u8, place: usize) -> Option<Refusal> {
    judged(number, place, ()).err()
}

impl From<raw::Survey> for Survey {
    fn from(r: raw::Survey) -> Survey {
        Survey {
            readings: r.readings,
            fault: fault(r.fault, r.place),
        }
    }
}

/// A salvage with an output that grows until the fresh column fits, which is mostly at once: the fresh column and the fault of the given one.
pub(crate) fn written(s: &[u8], mut salvage: impl FnMut(&mut [u8]) -> raw::Salvaged) -> Result<(Vec<u8>, Option<Refusal>), Refusal> {
    let mut out = vec![0; s.len()];
    let mut r = salvage(&mut out);
    while r.number == 10 {
        out.resize(2 * out.len() + 1, 0);
        r = salvage(&mut out);
    }
    out.truncate(r.written);
    judged(r.number, r.place, (out, fault(r.fault, r.fault_place)))
}

/// `survey` and a salvage of a column of one kind: the salvage's name, below what there is to say of it alone, its item, the column's type, the slots
/// that are lent, and how the column and its slots give the list.
macro_rules! salvage {
    ($(#[$remark:meta])* $name:ident, $item:ty, $survey:ident, $salvage:ident, $typ:ident, [$($slots:ident),+], $list:expr) => {
        /// How many readings stand before the column's first fault, and that fault. It costs what the bytes cost, whatever the counts announce.
        pub fn survey(s: &[u8]) -> crate::salvage::Survey {
            crate::raw_call!($survey, [s], (), [], []).into()
        }

        /// The readings before the column's first fault, of which the caller will hold `most`, and the same as a fresh column. Refusal: 9 where
        /// more survive.
        $(#[$remark])*
        pub fn $name(s: &[u8], most: usize) -> Result<crate::salvage::Salvaged<$item>, Refusal> {
            let n = lists::length(survey(s).readings).min(most);
            $(let mut $slots = vec![0; n];)+
            let typ = crate::column_specification::ColumnType::$typ as u8;
            let (column, fault) = crate::salvage::written(s, |out| crate::raw_call!($salvage, [], (typ), [s], [$($slots,)+ out]))?;
            let readings = $list(s, $($slots),+);
            Ok(crate::salvage::Salvaged { readings, column, fault })
        }
    };
}

pub(crate) use salvage;
