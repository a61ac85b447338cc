//! Is a column in our form: are its bytes what `encode` gives for the list they read as?
//!
//! A column that is not is no broken one, and reads like any other; most take more room than ours, a few less. Booleans are compared with
//! [`encode`](crate::boolean::encode), not with the all-false form.

use crate::column_specification::ColumnType;
use crate::{judged, raw, Refusal};
use std::fmt;

#[derive(Clone, Copy, Debug, PartialEq, Eq)]
pub enum Form {
    /// The bytes are what `encode` gives.
    Ours,
    /// They are not. The place of the first byte that differs; where one is the start of the other, the shorter length. A column of absent readings alone
    /// differs at 0, since `encode` gives no bytes for it.
    Differs(usize),
}

/// The form of a column of any served type. It costs what the bytes cost, whatever the counts announce. Refusals: 17 for a type that no call serves, then the
/// column's first fault.
pub fn of_column(typ: ColumnType, s: &[u8]) -> Result<Form, Refusal> {
    let r = unsafe { raw::grundavok_column_form(typ as u8, s.as_ptr(), s.len()) };
    let form = if r.ours == 1 { Form::Ours } else { Form::Differs(r.differs) };
    judged(r.number, r.place, form)
}

impl fmt::Display for Form {
    fn fmt(&self, f: &mut fmt::Formatter<'_>) -> fmt::Result {
        match *self {
            Form::Ours => write!(f, "in our form"),
            Form::Differs(place) => write!(f, "not in our form, from byte {place} on"),
        }
    }
}
