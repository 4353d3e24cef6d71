//! Where references stand in a description.

use std::fmt::{self, Display};

/// The codes of a tree's descriptions that hold another one.
pub const POINTER: u8 = 2;
pub const SAFE_ARRAY: u8 = 3;
pub const C_ARRAY: u8 = 4;

/// The fields of a description that are a reference, and those that are a tree, which may end in one.
#[derive(Clone, Copy, Debug, PartialEq, Eq, PartialOrd, Ord)]
pub enum Field {
    InterfaceBase,
    DispatchBase,
    ChainRecord,
    Alias,
    Result,
    Parameter,
    Variable,
}

impl Field {
    const ALL: [Field; 7] = [
        Field::InterfaceBase,
        Field::DispatchBase,
        Field::ChainRecord,
        Field::Alias,
        Field::Result,
        Field::Parameter,
        Field::Variable,
    ];

    fn is_tree(self) -> bool {
        self >= Field::Alias
    }
}

/// Where a reference stands: its field, and in a tree the code of the description right around it.
#[derive(Clone, Copy, Debug, PartialEq, Eq, PartialOrd, Ord)]
pub struct Place {
    pub field: Field,
    pub around: Option<u8>,
}

impl Place {
    /// Every place.
    pub fn all() -> impl Iterator<Item = Place> {
        let around: [Option<u8>; 4] = [None, Some(POINTER), Some(SAFE_ARRAY), Some(C_ARRAY)];
        let places = Field::ALL.into_iter();
        let places = places.flat_map(move |field| around.map(|around| Place { field, around }));
        places.filter(|place| place.around.is_none() || place.field.is_tree())
    }
}

impl Display for Place {
    fn fmt(&self, f: &mut fmt::Formatter) -> fmt::Result {
        let word = match self.field {
            Field::InterfaceBase => "base of kind 3",
            Field::DispatchBase => "base of kind 4",
            Field::ChainRecord => "chain record",
            Field::Alias => "alias",
            Field::Result => "result",
            Field::Parameter => "parameter",
            Field::Variable => "variable",
        };
        match self.around {
            None => write!(f, "{word}"),
            Some(POINTER) => write!(f, "pointer in {word}"),
            Some(SAFE_ARRAY) => write!(f, "safe array in {word}"),
            Some(_) => write!(f, "C array in {word}"),
        }
    }
}
