//! What the numbers of exports mean.

use crate::library::{
    ARRAY_DESCRIPTOR_SEGMENT, CONSTANT_SEGMENT, GUID_SEGMENT, IMPORT_FILE_SEGMENT, IMPORT_SEGMENT,
    NAME_SEGMENT, STRING_SEGMENT, TYPE_DESCRIPTOR_SEGMENT,
};
use crate::readings::Kind;

/// The numbers of a call beside the library and the output, in the header's order; the rest is 0. A size has
/// 64 bits here, as a cursor's count has.
pub type Numbers = [usize; 4];

/// What an export's numbers mean.
#[derive(Clone, Copy, Debug, PartialEq, Eq, Hash)]
pub enum Asks {
    Nothing,
    /// The place and length of a record or a text, and for some an index.
    Record(Kind),
    Segment,
    Type,
    /// A type's index, and that of a name.
    Member,
    Word(Words),
    Cursor(Cursor),
    RawKind,
    Code,
    Hreftype,
}

/// What a word names.
#[derive(Clone, Copy, Debug, PartialEq, Eq, Hash)]
pub enum Words {
    Name,
    Text,
    Guid,
    Descriptor,
    Array,
    ImportFile,
    Reference,
    Constant,
}

impl Words {
    /// The segment that the word is an offset into.
    pub(super) fn segment(self) -> usize {
        match self {
            Words::Name => NAME_SEGMENT,
            Words::Text => STRING_SEGMENT,
            Words::Guid => GUID_SEGMENT,
            Words::Descriptor => TYPE_DESCRIPTOR_SEGMENT,
            Words::Array => ARRAY_DESCRIPTOR_SEGMENT,
            Words::ImportFile => IMPORT_FILE_SEGMENT,
            Words::Reference => IMPORT_SEGMENT,
            Words::Constant => CONSTANT_SEGMENT,
        }
    }
}

/// The cursors that are told apart.
#[derive(Clone, Copy, Debug, PartialEq, Eq, Hash)]
pub enum Cursor {
    Funcs,
    Vars,
    Params,
    Guids,
    Imports,
    ImportFiles,
    Names,
    Chain,
}

impl Cursor {
    /// Which of its numbers is the count of the records that it has yielded: its last.
    pub fn count_at(self) -> usize {
        match self {
            Cursor::Guids | Cursor::Imports | Cursor::ImportFiles => 2,
            _ => 3,
        }
    }
}
