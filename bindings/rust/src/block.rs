//! A block that is kept with its table: what is known of its columns is asked once, and edits change one column of it.

use std::ops::Range;

use crate::raw_column::{self, Row};
use crate::text::{self, Given, Slots};
use crate::{boolean, delta, judged, lists, raw, raw_call, rle, Refusal};

/// A block's bytes, and their table, which remembers how many readings each column has: a redraw that asks for every count reads each column once, and
/// again only what was edited. The two always belong together, so that 25 is never met and every count that is stored is true.
///
/// A call that is refused changes nothing. An edit replaces a range of one column's readings and gives that column's new list; the calls with `_to_end` take
/// all readings from a start on. The caller says the most readings that he will hold, `most`; the longer of old and new list may have so many. Refusals of an
/// edit, in this order: 16; 17; 18 for an end below the start; the column's first fault; 18 for a start or an end beyond the list; 5 for the result; 9 for
/// more readings than `most`; 7 (delta alone).
#[derive(Clone, Debug, PartialEq, Eq)]
pub struct Block {
    bytes: Vec<u8>,
    table: raw::CountedTable,
}

/// A number takes at most ten bytes, so a table with one length changed grows by less.
const TABLE_GROWTH: usize = 10;

/// How long the new list is, with the old one's length: an edit whose range is none of the list's says so itself.
fn new_len(old: usize, start: usize, end: usize, new: usize) -> usize {
    let (start, end) = (start.min(old), end.min(old));
    start + new + old.saturating_sub(end.max(start))
}

/// With no output every edit is refused: with 10 where nothing else is wrong, and the slots then hold the new list, but for names.
fn until_10(r: raw::CountedSpliced) -> Result<(), Refusal> {
    if r.number == 10 {
        return Ok(());
    }
    judged(r.number, r.place, ())
}

/// The call has an `end`, whose place in the list is `$till`, or none.
macro_rules! optional_splice {
    ($name:ident, $element:ty, $column:ident, $call:ident, ($($end:ident)?), $till:expr) => {
        pub fn $name(
            &mut self,
            position: usize,
            start: usize,
            $($end: usize,)?
            new: &[Option<$element>],
            most: usize,
        ) -> Result<Vec<Option<$element>>, Refusal> {
            let (block, table, old) = (&self.bytes, self.table, self.list_len(position));
            let len = new_len(old, start, $till, new.len());
            let (new_values, new_present) = lists::apart(new);
            let held = old.max(len).min(most);
            let (mut values, mut present) = (vec![0; held], vec![0; held]);
            let edit = |out: &mut [u8], values: &mut [$element], present: &mut [u8]| {
                raw_call!($call, [block], (table, position, start $(, $end)?), [new_values, new_present], [values, present, out])
            };
            until_10(edit(&mut [], &mut values, &mut present))?;
            let size = $column::size(&values[..len], &present[..len])?;
            let mut out = vec![0; block.len() + size + TABLE_GROWTH];
            let r = edit(&mut out, &mut values, &mut present);
            self.become_new(r, out)?;
            Ok(lists::together(&values[..len], &present[..len]))
        }
    };
}

macro_rules! boolean_splice {
    ($name:ident, $call:ident, ($($end:ident)?), $till:expr) => {
        pub fn $name(&mut self, position: usize, start: usize, $($end: usize,)? new: &[bool], most: usize) -> Result<Vec<bool>, Refusal> {
            let (block, table, old) = (&self.bytes, self.table, self.list_len(position));
            let len = new_len(old, start, $till, new.len());
            let new = lists::bytes(new);
            let mut values = vec![0; old.max(len).min(most)];
            let edit =
                |out: &mut [u8], values: &mut [u8]| raw_call!($call, [block], (table, position, start $(, $end)?), [new], [values, out]);
            until_10(edit(&mut [], &mut values))?;
            let size = boolean::size(&values[..len])?;
            let mut out = vec![0; block.len() + size + TABLE_GROWTH];
            let r = edit(&mut out, &mut values);
            self.become_new(r, out)?;
            Ok(lists::booleans(&values[..len]))
        }
    };
}

/// An edit of names that is refused with 10 leaves the slots as they were, so the size is asked of the list as it will be.
macro_rules! text_splice {
    ($(#[$doc:meta])* $name:ident, $call:ident, ($($end:ident)?), $till:expr) => {
        $(#[$doc])*
        pub fn $name(
            &mut self,
            position: usize,
            start: usize,
            $($end: usize,)?
            new: &[Option<&str>],
            most: usize,
        ) -> Result<Vec<Option<Range<usize>>>, Refusal> {
            let (block, table, old) = (&self.bytes, self.table, self.list_len(position));
            let len = new_len(old, start, $till, new.len());
            let Given { bytes, slots: given } = Given::new(new);
            let mut slots = Slots::new(old.max(len).min(most));
            let mut edit = |out: &mut [u8]| {
                raw_call!(
                    $call,
                    [block],
                    (table, position, start $(, $end)?),
                    [bytes, given.starts, given.lens, given.present],
                    [slots.starts, slots.lens, slots.present, out]
                )
            };
            until_10(edit(&mut []))?;
            let mut list = text::names(self.column(position)?, most)?;
            list.splice(start..old.min($till), new.iter().copied());
            let mut out = vec![0; block.len() + text::encoded_len(&list)? + TABLE_GROWTH];
            let r = edit(&mut out);
            self.become_new(r, out)?;
            Ok(slots.places().take(len).collect())
        }
    };
}

impl Block {
    /// A block's bytes are copied, and its table is read; no count is known. Refusals: 1, 2, 3, 21 and 11, then 12, 13, 14, 15.
    pub fn open(block: &[u8]) -> Result<Block, Refusal> {
        let r = raw_call!(grundavok_open_table, [block], (), [], []);
        let bytes = block.to_vec();
        judged(r.number, r.place, Block { bytes, table: r.table })
    }

    pub fn bytes(&self) -> &[u8] {
        &self.bytes
    }

    pub fn rows(&self) -> Vec<Row> {
        raw_column::rows(&self.table.table)
    }

    /// The bytes of the column at a position. Refusal: 16.
    pub fn column(&self, position: usize) -> Result<&[u8], Refusal> {
        raw_column::column(&self.bytes, position)
    }

    fn counted(&self, position: usize) -> raw::CountedColumn {
        raw_call!(grundavok_count, [self.bytes], (self.table, position), [], [])
    }

    /// How many readings the column at a position has, the absent ones too. The first time it costs what the column's bytes cost; then it is known until an
    /// edit of that column, which stores what the new one has. Refusals: 16; 17; the column's first fault.
    pub fn count(&mut self, position: usize) -> Result<usize, Refusal> {
        let r = self.counted(position);
        self.table = r.table;
        judged(r.number, r.place, lists::length(r.count))
    }

    /// How many readings an edit finds. A column that is not there or cannot be read has none: the edit itself then says what is wrong.
    fn list_len(&self, position: usize) -> usize {
        lists::length(self.counted(position).count)
    }

    /// An edit's output and table in the place of what is there.
    fn become_new(&mut self, r: raw::CountedSpliced, mut out: Vec<u8>) -> Result<(), Refusal> {
        judged(r.number, r.place, ())?;
        out.truncate(r.len);
        self.bytes = out;
        self.table = r.table;
        Ok(())
    }

    optional_splice!(splice_integer, u64, rle, grundavok_splice_integer, (end), end);
    optional_splice!(splice_integer_to_end, u64, rle, grundavok_splice_integer_to_end, (), usize::MAX);
    optional_splice!(splice_delta, i64, delta, grundavok_splice_delta, (end), end);
    optional_splice!(splice_delta_to_end, i64, delta, grundavok_splice_delta_to_end, (), usize::MAX);
    boolean_splice!(splice_boolean, grundavok_splice_boolean, (end), end);
    boolean_splice!(splice_boolean_to_end, grundavok_splice_boolean_to_end, (), usize::MAX);

    text_splice!(
        /// Of names the list is where each stands in the new column, as one that repeats is there once; [`text::names`] of the column has them themselves.
        splice_text,
        grundavok_splice_text,
        (end),
        end
    );
    text_splice!(splice_text_to_end, grundavok_splice_text_to_end, (), usize::MAX);
}
