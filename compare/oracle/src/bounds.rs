//! Reads that end with their table, by document 02, and the notes of what they cut.
//!
//! The copy of the reference that `build/kept.rs` makes reads its tables through this. A read is cut where the
//! reference itself would go on, since the bytes are in the file, and they end past the table or the table is
//! missing. It then yields nothing, as at the file's end, and that is noted.

use std::cell::Cell;
use std::fmt::{self, Display};
use std::ops::Range;
use std::slice::SliceIndex;

use crate::library::{
    ARRAY_DESCRIPTOR_SEGMENT, CONSTANT_SEGMENT, GUID_SEGMENT, IMPORT_FILE_SEGMENT, NAME_SEGMENT,
    REFERENCE_SEGMENT, STRING_SEGMENT, TYPE_DESCRIPTOR_SEGMENT, TYPEINFO_SEGMENT,
};
use crate::{TypeLib, util};

#[cfg(test)]
mod tests;

/// What is read of a table. (An import record is kept to its table by the reference itself.)
#[derive(Clone, Copy, Debug, PartialEq, Eq)]
pub enum Read {
    Typeinfo,
    ImportFile,
    Reference,
    Guid,
    Name,
    /// An entry of the cursor over names.
    NameEntry,
    String,
    TypeDescriptor,
    ArrayDescriptor,
    Constant,
}

impl Read {
    pub const ALL: [Read; 10] = [
        Read::Typeinfo,
        Read::ImportFile,
        Read::Reference,
        Read::Guid,
        Read::Name,
        Read::NameEntry,
        Read::String,
        Read::TypeDescriptor,
        Read::ArrayDescriptor,
        Read::Constant,
    ];

    /// Those that a sheet is made of.
    pub const IN_SHEET: [Read; 8] = [
        Read::Typeinfo,
        Read::ImportFile,
        Read::Reference,
        Read::Guid,
        Read::Name,
        Read::TypeDescriptor,
        Read::ArrayDescriptor,
        Read::Constant,
    ];

    pub fn words(self) -> &'static str {
        match self {
            Read::Typeinfo => "typeinfo",
            Read::ImportFile => "import file",
            Read::Reference => "reference",
            Read::Guid => "GUID",
            Read::Name => "name",
            Read::NameEntry => "entry of the name cursor",
            Read::String => "string",
            Read::TypeDescriptor => "type descriptor",
            Read::ArrayDescriptor => "array descriptor",
            Read::Constant => "stored constant",
        }
    }

    /// What the methods of a library read of a segment.
    fn of_segment(segment: usize) -> Self {
        match segment {
            TYPEINFO_SEGMENT => Read::Typeinfo,
            IMPORT_FILE_SEGMENT => Read::ImportFile,
            REFERENCE_SEGMENT => Read::Reference,
            GUID_SEGMENT => Read::Guid,
            NAME_SEGMENT => Read::Name,
            STRING_SEGMENT => Read::String,
            TYPE_DESCRIPTOR_SEGMENT => Read::TypeDescriptor,
            ARRAY_DESCRIPTOR_SEGMENT => Read::ArrayDescriptor,
            CONSTANT_SEGMENT => Read::Constant,
            _ => panic!("nothing is read of segment {segment}"),
        }
    }
}

/// The file's bytes as a read of a table sees them. Places in it are counted from the file's start.
#[derive(Clone, Copy)]
pub struct Table<'a> {
    file: &'a [u8],
    end: usize,
    read: Read,
}

/// Where a library's segment begins, and the bytes that end with it. A missing segment is no table.
pub(crate) fn table<'a>(lib: &TypeLib<'a>, segment: usize) -> Option<(usize, Table<'a>)> {
    let (at, len) = lib.segment(segment)?;
    let read = Read::of_segment(segment);
    Some((at, Table::new(lib.data(), at.saturating_add(len), read)))
}

/// The reference table of a library that has none: it begins where the reference lets it, and has no bytes.
pub(crate) fn no_table<'a>(lib: &TypeLib<'a>) -> (usize, Table<'a>) {
    (0, Table::new(lib.data(), 0, Read::Reference))
}

/// The bytes of an entry of the cursor over names, which ends by the cursor's own end.
pub(crate) fn entry(file: &[u8], end: usize) -> Table<'_> {
    Table::new(file, end, Read::NameEntry)
}

impl<'a> Table<'a> {
    pub(crate) fn new(file: &'a [u8], end: usize, read: Read) -> Self {
        Table { file, end, read }
    }

    /// How many bytes the file has: the reference checks against these first.
    pub(crate) fn len(self) -> usize {
        self.file.len()
    }

    pub(crate) fn get<I: Ends + SliceIndex<[u8]>>(self, index: I) -> Option<&'a I::Output> {
        self.up_to(index.end()).get(index)
    }
}

/// A byte's place, or a run of bytes.
pub(crate) trait Ends {
    fn end(&self) -> usize;
}

impl Ends for usize {
    fn end(&self) -> usize {
        self.saturating_add(1)
    }
}

impl Ends for Range<usize> {
    fn end(&self) -> usize {
        self.end
    }
}

/// Bytes for a read that ends at a place.
pub(crate) trait Bytes<'a> {
    fn up_to(self, end: usize) -> &'a [u8];
}

/// What lies in no table: the header, the directory, functions, variables and the words behind them.
impl<'a> Bytes<'a> for &'a [u8] {
    fn up_to(self, _: usize) -> &'a [u8] {
        self
    }
}

/// No bytes, and a note, for a read that is in the file and passes the table. Where it passes the file too,
/// the reference itself reads nothing.
impl<'a> Bytes<'a> for Table<'a> {
    fn up_to(self, end: usize) -> &'a [u8] {
        if self.end < end && end <= self.file.len() {
            note(self.read);
            return &[];
        }
        self.file
    }
}

/// The reference's reads of numbers, from either.
macro_rules! reads {
    ($($name:ident $number:ty),*) => {$(
        pub(crate) fn $name<'a>(data: impl Bytes<'a>, offset: usize) -> Option<$number> {
            util::$name(data.up_to(offset.saturating_add(size_of::<$number>())), offset)
        }
    )*};
}

reads!(
    read_u16_le u16, read_u32_le u32, read_i16_le i16, read_i32_le i32, read_u64_le u64,
    read_i64_le i64, read_f32_le f32, read_f64_le f64
);

/// How often each read was cut.
#[derive(Clone, Copy, Debug, Default, PartialEq, Eq)]
pub struct Notes([u64; Read::ALL.len()]);

thread_local! {
    static NOTES: Cell<Notes> = const { Cell::new(Notes([0; Read::ALL.len()])) };
}

fn note(read: Read) {
    let mut notes = NOTES.get();
    notes.0[read as usize] += 1;
    NOTES.set(notes);
}

/// What the work answers, and the notes that were made in it.
pub fn noting<T>(work: impl FnOnce() -> T) -> (T, Notes) {
    let before = NOTES.take();
    let answer = work();
    (answer, NOTES.replace(before))
}

impl Notes {
    pub fn is_empty(&self) -> bool {
        *self == Notes::default()
    }

    pub fn of(&self, read: Read) -> u64 {
        self.0[read as usize]
    }

    /// Those of the reads that were never cut.
    pub fn missing(&self, wanted: &[Read]) -> Vec<String> {
        let missing = wanted.iter().filter(|read| self.of(**read) == 0);
        missing
            .map(|read| format!("no cut {}", read.words()))
            .collect()
    }

    pub fn add(&mut self, more: Notes) {
        for (count, more) in self.0.iter_mut().zip(more.0) {
            *count += more;
        }
    }
}

/// The reads that were cut, and how often.
impl Display for Notes {
    fn fmt(&self, f: &mut fmt::Formatter) -> fmt::Result {
        let made = Read::ALL.into_iter().filter(|read| self.of(*read) > 0);
        let words: Vec<String> = made
            .map(|read| format!("{} x{}", read.words(), self.of(read)))
            .collect();
        match words.is_empty() {
            true => write!(f, "none"),
            false => write!(f, "{}", words.join(", ")),
        }
    }
}
