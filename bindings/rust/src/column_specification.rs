//! Column specifications.

use crate::{judged, raw, Refusal};

#[derive(Clone, Copy, Debug, PartialEq, Eq)]
pub enum ColumnType {
    Group,
    Actor,
    Integer,
    DeltaInteger,
    Boolean,
    String,
    ValueMetadata,
    Value,
}

const TYPES: [ColumnType; 8] = [
    ColumnType::Group,
    ColumnType::Actor,
    ColumnType::Integer,
    ColumnType::DeltaInteger,
    ColumnType::Boolean,
    ColumnType::String,
    ColumnType::ValueMetadata,
    ColumnType::Value,
];

#[derive(Clone, Copy, Debug, PartialEq, Eq)]
pub struct ColumnSpec(pub u32);

impl ColumnSpec {
    /// Refusal: 19.
    pub fn new(id: u32, col_type: ColumnType, deflate: bool) -> Result<ColumnSpec, Refusal> {
        let r = unsafe { raw::grundavok_spec_new(id, col_type as u8, deflate) };
        judged(r.number, r.place, ColumnSpec(r.spec))
    }

    pub fn id(self) -> u32 {
        unsafe { raw::grundavok_spec_id(self.0) }
    }

    pub fn col_type(self) -> ColumnType {
        TYPES[usize::from(unsafe { raw::grundavok_spec_col_type(self.0) })]
    }

    pub fn deflate(self) -> bool {
        unsafe { raw::grundavok_spec_deflate(self.0) }
    }

    /// The sorting key.
    pub fn normalize(self) -> u32 {
        unsafe { raw::grundavok_spec_normalize(self.0) }
    }
}
