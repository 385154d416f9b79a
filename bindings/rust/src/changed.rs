//! The fields that inputs set, with their current values.

use crate::raw::{RawChange, RawField};

/// The type of a value.
#[derive(Clone, Copy, Debug, PartialEq, Eq)]
#[non_exhaustive]
pub enum ValueType {
    SFBool,
    SFInt32,
    SFFloat,
    SFTime,
    SFString,
    SFVec2f,
    SFVec3f,
    SFColor,
    SFNode,
    MFBool,
    MFInt32,
    MFFloat,
    MFTime,
    MFString,
    MFVec2f,
    MFVec3f,
    MFColor,
    MFNode,
    SFRotation,
    /// A type of a later library.
    Other(u8),
}

/// How a field may be used. A field of the first two kinds holds no value.
#[derive(Clone, Copy, Debug, PartialEq, Eq)]
#[non_exhaustive]
pub enum Access {
    InputOnly,
    OutputOnly,
    InputOutput,
    InitializeOnly,
    /// An access of a later library.
    Other(u8),
}

/// The type of a field's values, and its access.
#[derive(Clone, Copy, Debug, PartialEq, Eq)]
pub struct FieldType {
    pub value_type: ValueType,
    pub access: Access,
}

impl FieldType {
    pub(crate) fn of(raw: &RawField) -> FieldType {
        FieldType {
            value_type: type_of(raw.value_type),
            access: match raw.access {
                0 => Access::InputOnly,
                1 => Access::OutputOnly,
                2 => Access::InputOutput,
                3 => Access::InitializeOnly,
                other => Access::Other(other),
            },
        }
    }
}

const TYPES: [ValueType; 19] = [
    ValueType::SFBool,
    ValueType::SFInt32,
    ValueType::SFFloat,
    ValueType::SFTime,
    ValueType::SFString,
    ValueType::SFVec2f,
    ValueType::SFVec3f,
    ValueType::SFColor,
    ValueType::SFNode,
    ValueType::MFBool,
    ValueType::MFInt32,
    ValueType::MFFloat,
    ValueType::MFTime,
    ValueType::MFString,
    ValueType::MFVec2f,
    ValueType::MFVec3f,
    ValueType::MFColor,
    ValueType::MFNode,
    ValueType::SFRotation,
];

fn type_of(number: u8) -> ValueType {
    *TYPES
        .get(usize::from(number))
        .unwrap_or(&ValueType::Other(number))
}

/// A field that was set, with its current value.
#[derive(Clone, Copy, Debug, PartialEq, Eq)]
pub struct Changed<'a> {
    pub node: u32,
    pub field: u16,
    pub value_type: ValueType,
    /// The numbers of the value, like those of `World::numbers`. A string has none.
    pub numbers: &'a [i64],
}

/// The fields that were set, each once. Iterate over a reference to it.
#[derive(Clone, Debug, Default, PartialEq, Eq)]
pub struct ChangedFields {
    pub(crate) fields: Vec<RawChange>,
    pub(crate) numbers: Vec<i64>,
}

impl ChangedFields {
    /// Returns the number of fields.
    #[must_use]
    pub fn len(&self) -> usize {
        self.fields.len()
    }

    /// Reports whether no field was set.
    #[must_use]
    pub fn is_empty(&self) -> bool {
        self.fields.is_empty()
    }

    /// The fields, in the order in which each was first set.
    pub fn iter(&self) -> impl Iterator<Item = Changed<'_>> {
        self.fields.iter().map(|raw| self.changed(raw))
    }

    fn changed(&self, raw: &RawChange) -> Changed<'_> {
        let first = raw.first as usize;
        Changed {
            node: raw.node,
            field: raw.field,
            value_type: type_of(raw.value_type),
            numbers: &self.numbers[first..first + raw.count as usize],
        }
    }
}
