//! The reference reader, built from its own files, and what this project asks of it.
//!
//! The reference's crate root and its `Error` type are not among the given files. This file stands
//! in for both. `readings`, `library`, `enumerate`, `sheet`, `figures`, `text_check`, `misplaced` and what feeds them are ours; they are
//! modules of the same crate because the constructors of the reference's records are `pub(crate)`.
//!
//! It is compiled twice: as `msft_typelib` over the reference's files as they are, and as `bounded` over a copy
//! that is kept to its tables, which `build/kept.rs` makes.

// One `mod` for each of the reference's files, written by `build.rs`.
include!(concat!(env!("OUT_DIR"), "/modules.rs"));

#[cfg(bounded)]
pub mod bounds;
pub mod c_header;
pub mod comparing;
pub mod coverage;
pub mod enumerate;
#[cfg(product)]
pub mod exports;
pub mod figures;
pub mod inputs;
pub mod library;
pub mod misplaced;
#[cfg(product)]
pub mod product;
pub mod random;
pub mod readings;
pub mod sheet;
pub mod text_check;
#[cfg(not(bounded))]
pub mod timing;

pub use arraydesc::{ArrayDesc, SafeArrayBound};
pub use custdata::CustDataEntry;
pub use func::FuncRecord;
pub use guid::Guid;
pub use guidentry::GuidEntry;
pub use impfile::ImpFile;
pub use impinfo::ImpInfo;
pub use iterators::{
    CustDataIter, FuncIter, GuidEntryIter, ImpFileIter, ImpInfoIter, ImplTypeIter, NameIter,
    ParamIter, TypeInfoIter, VarIter,
};
pub use name::NameEntry;
pub use param::ParameterInfo;
pub use refrecord::RefRecord;
pub use typeinfo::TypeInfoEntry;
pub use typelib::{ResolvedHreftype, TypeLib};
pub use types::{ConstValue, TypeDescription, TypeKind, vt_name};
pub use var::VarRecord;

/// Stand-in for the reference's error type: its cases, with the fields that the given files set.
#[derive(Clone, Copy, Debug, PartialEq, Eq)]
pub enum Error {
    TooShort {
        expected: usize,
        actual: usize,
        context: &'static str,
    },
    BadMagic {
        expected: u32,
        got: u32,
    },
    InvalidData {
        context: &'static str,
    },
    TypeInfoOutOfRange {
        index: usize,
        count: usize,
    },
}
