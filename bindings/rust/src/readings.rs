//! Columns read a reading at a time. The boundary hands out pieces, and their readings are counted down here, so that inside a run no call crosses it.

use crate::raw::{Piece, PieceI64, PRESENT};

/// The next reading of a piece that has one left; the piece is then one shorter.
pub(crate) trait Counted {
    type Reading;

    fn take(&mut self) -> Self::Reading;
}

impl Counted for Piece<u64> {
    type Reading = Option<u64>;

    #[inline]
    fn take(&mut self) -> Option<u64> {
        self.times -= 1;
        (self.what == PRESENT).then_some(self.value)
    }
}

impl Counted for PieceI64 {
    type Reading = Option<i64>;

    #[inline]
    fn take(&mut self) -> Option<i64> {
        let value = self.value;
        self.times -= 1;
        self.value = value.wrapping_add(self.difference); // behind the last reading no i64 may hold it, and it is not looked at
        (self.what == PRESENT).then_some(value)
    }
}

impl Counted for Piece<u8> {
    type Reading = bool;

    #[inline]
    fn take(&mut self) -> bool {
        self.times -= 1;
        self.value != 0
    }
}

/// `readings` of a column of one kind: its item, and the boundary's cursor and pieces of that kind.
macro_rules! readings {
    ($item:ty, $cursor:ident, $new:ident, $piece:ty, $next_piece:ident) => {
        /// A column's readings one by one, with no list of them: a step costs the bytes that it passes, whatever the counts announce.
        ///
        /// As an iterator it gives the readings in order and ends behind the last one. On a faulty column it gives those before the first
        /// faulty reading, then the refusal that `count` gives, and then ends.
        #[derive(Clone, Debug)]
        pub struct Readings<'a> {
            column: &'a [u8],
            /// Behind the piece.
            cursor: raw::$cursor,
            /// What is left of the present piece.
            piece: $piece,
            refused: bool,
        }

        /// The readings of a column, from the first on. No byte is read yet.
        pub fn readings(column: &[u8]) -> Readings<'_> {
            let cursor = unsafe { raw::$new(column.as_ptr(), column.len()) };
            Readings {
                column,
                cursor,
                piece: Default::default(),
                refused: false,
            }
        }

        impl Readings<'_> {
            /// As `next`, but a refusal comes again at every later call, as the end does: who asks once more cannot take a broken column
            /// for one that is over.
            #[inline]
            pub fn read(&mut self) -> Option<Result<$item, Refusal>> {
                if self.piece.times == 0 {
                    self.piece = unsafe { raw::$next_piece(self.column.as_ptr(), self.column.len(), &mut self.cursor) };
                    if self.piece.times == 0 {
                        let (number, place) = (self.piece.number, self.piece.place);
                        return (self.piece.what != raw::END).then_some(Err(Refusal { number, place }));
                    }
                }
                Some(Ok(self.piece.take()))
            }
        }

        impl Iterator for Readings<'_> {
            type Item = Result<$item, Refusal>;

            #[inline]
            fn next(&mut self) -> Option<Self::Item> {
                if self.refused {
                    return None;
                }
                let next = self.read();
                self.refused = matches!(next, Some(Err(_)));
                next
            }
        }

        impl std::iter::FusedIterator for Readings<'_> {}
    };
}

pub(crate) use readings;
