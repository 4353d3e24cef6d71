//! Libraries around one record of a table, which ends with its table, with the file, or past either. What
//! comes of each is document 02's §2.

use super::Input;
use super::large::typeinfo;
use super::layout::{self, Layout, set_word, words};
use crate::TypeLib;
use crate::library::{Ask, GUID_SEGMENT, IMPORT_SEGMENT, Question, STRING_SEGMENT};
use crate::readings::place_in;

/// The place of the help string's offset in the header, and of the name's in a typeinfo.
const HELP_STRING: usize = 0x24;
const TYPE_NAME: usize = 0x34;

/// How much longer than the file a table says that it is.
const LONGER: usize = 1_000;

/// A text whose length is no multiple of four, so that its padding is no part of a name or a string.
const TEXT: &[u8] = b"Seeds";

/// How long a name can be.
const LONGEST_NAME: usize = 0xFF;

/// What the record is. A stored constant has its code.
#[derive(Clone, Copy, Debug, PartialEq, Eq)]
pub enum Record {
    Name,
    /// One as long as a name can be, which a type, its function, its parameter and its variable have too.
    LongName,
    /// An entry of the cursor over names.
    NameEntry,
    Guid,
    String,
    Typeinfo,
    TypeDescriptor,
    ArrayDescriptor,
    Import,
    ImportFile,
    Reference,
    Constant(u16),
}

impl Record {
    /// Every one; of the constants those of each stored width, and a text.
    pub const ALL: [Record; 17] = [
        Record::Name,
        Record::LongName,
        Record::NameEntry,
        Record::Guid,
        Record::String,
        Record::Typeinfo,
        Record::TypeDescriptor,
        Record::ArrayDescriptor,
        Record::Import,
        Record::ImportFile,
        Record::Reference,
        Record::Constant(0),
        Record::Constant(11),
        Record::Constant(3),
        Record::Constant(5),
        Record::Constant(14),
        Record::Constant(8),
    ];

    fn segment(self) -> usize {
        match self {
            Record::Name | Record::LongName | Record::NameEntry => layout::NAMES,
            Record::Guid => layout::GUIDS,
            Record::String => STRING_SEGMENT,
            Record::Typeinfo => layout::TYPEINFOS,
            Record::TypeDescriptor => layout::DESCRIPTORS,
            Record::ArrayDescriptor => layout::ARRAYS,
            Record::Import => layout::IMPORTS,
            Record::ImportFile => layout::IMPORT_FILES,
            Record::Reference => layout::REFERENCES,
            Record::Constant(_) => layout::CONSTANTS,
        }
    }

    /// Its bytes, all of which must lie in the table.
    fn bytes(self) -> Vec<u8> {
        let length = TEXT.len() as u32;
        match self {
            Record::Name | Record::NameEntry => name(TEXT),
            Record::LongName => name(&[b'n'; LONGEST_NAME]),
            Record::Guid => (1..=16).collect(),
            Record::String => [&length.to_le_bytes()[..2], TEXT].concat(),
            Record::Typeinfo => typeinfo(0, -1, 0),
            Record::TypeDescriptor => words([26, 0x8003_0003]),
            Record::ArrayDescriptor => words([0x8003_0003, 1, 6, 1]),
            Record::Import => words([0, u32::MAX, 7]),
            Record::ImportFile => {
                let size = &(length << 2).to_le_bytes()[..2];
                padded([&words([u32::MAX, 0x409, 2]), size, TEXT].concat())
            }
            Record::Reference => words([0, 1, u32::MAX, u32::MAX]),
            Record::Constant(code) => [&code.to_le_bytes()[..], &stored(code)].concat(),
        }
    }

    /// A library that names the record at this offset of its table, which is yet to be put into it.
    fn around(self, offset: u32) -> Layout {
        let with_type = |kind, base: u32| {
            let mut layout = Layout::new(vec![0]);
            layout.table(layout::TYPEINFOS, typeinfo(kind, base as i32, 0));
            layout
        };
        match self {
            Record::Name => with_word(layout::NAME_OFFSET, offset),
            Record::LongName => with_members(offset),
            Record::NameEntry => with_word(layout::NAME_OFFSET, u32::MAX),
            Record::Guid => with_word(layout::GUID_OFFSET, offset),
            Record::String => with_word(HELP_STRING, offset),
            Record::Typeinfo => Layout::new(vec![offset as i32]),
            Record::TypeDescriptor => with_type(6, offset),
            Record::ArrayDescriptor => {
                let mut layout = with_type(6, 0);
                layout.table(layout::DESCRIPTORS, words([28, offset]));
                layout
            }
            Record::Import => with_type(3, offset | 1),
            Record::ImportFile => {
                let mut layout = with_type(3, 1);
                layout.table(layout::IMPORTS, words([0, offset, 0]));
                layout
            }
            Record::Reference => with_type(5, offset),
            Record::Constant(_) => with_constant(offset),
        }
    }

    /// The readings that look at the record, that of the record itself first.
    fn questions(self, offset: u32, file: &[u8]) -> Vec<Question> {
        let of = |ask| Question::new(ask, [offset, 0, 0]);
        match self {
            Record::Name | Record::LongName => {
                vec![of(Ask::NameBytes), of(Ask::Name), none(Ask::LibName)]
            }
            Record::NameEntry => vec![none(Ask::Names)],
            Record::Guid => {
                let place = Question::new(Ask::TablePlace, [GUID_SEGMENT as u32, 16, offset]);
                vec![of(Ask::Guid), none(Ask::LibGuid), place]
            }
            Record::String => vec![of(Ask::String), none(Ask::LibHelpstring)],
            Record::Typeinfo => vec![none(Ask::Typeinfo), none(Ask::Typeinfos)],
            Record::TypeDescriptor => vec![of(Ask::TypeDesc), of(Ask::TypeDescription)],
            Record::ArrayDescriptor => vec![of(Ask::ArrayDesc), none(Ask::TypeDescription)],
            Record::Import => {
                let reference = Question::new(Ask::ResolveHreftypeFull, [offset | 1, 0, 0]);
                let place = Question::new(Ask::TablePlace, [IMPORT_SEGMENT as u32, 12, offset]);
                vec![reference, place, none(Ask::Imports)]
            }
            Record::ImportFile => {
                let reference = Question::new(Ask::ResolveHreftypeFull, [1, 0, 0]);
                vec![of(Ask::ImpFile), reference, none(Ask::ImpFiles)]
            }
            Record::Reference => {
                let numbers = [first_typeinfo(file), layout::TYPEINFO_SIZE as u32, 0];
                [Ask::ImplTypes, Ask::Walk]
                    .map(|ask| Question::new(ask, numbers))
                    .into()
            }
            Record::Constant(_) => vec![of(Ask::ConstValue)],
        }
    }
}

/// A question without numbers, or of index or offset 0.
fn none(ask: Ask) -> Question {
    Question::new(ask, [0; 3])
}

fn name(text: &[u8]) -> Vec<u8> {
    [&words([u32::MAX, u32::MAX, text.len() as u32]), text].concat()
}

/// What is stored behind a constant's code.
fn stored(code: u16) -> Vec<u8> {
    match code {
        8 => [&(TEXT.len() as u32).to_le_bytes(), TEXT].concat(),
        0 => Vec::new(),
        11 => vec![0xFF; 2],
        14 => (1..=16).collect(),
        5 => 0.5f64.to_le_bytes().into(),
        _ => words([7]),
    }
}

fn padded(mut bytes: Vec<u8>) -> Vec<u8> {
    bytes.resize(bytes.len().next_multiple_of(4), b'W');
    bytes
}

/// A library without types, with this word in its header.
fn with_word(at: usize, word: u32) -> Layout {
    let mut layout = Layout::new(Vec::new());
    layout.header_word(at, word);
    layout
}

/// A library that has the name at this offset, and so have its type and all members.
fn with_members(offset: u32) -> Layout {
    let mut layout = Layout::new(vec![0]);
    layout.header_word(layout::NAME_OFFSET, offset);
    let mut named = typeinfo(4, -1, 1 << 16 | 1);
    set_word(&mut named, TYPE_NAME, offset);
    layout.table(layout::TYPEINFOS, named);
    let function = words([36, 0x8018_0018, 1, 28, 0x421, 1]);
    let parameter = words([0x8003_0003, offset, 0]);
    let variable = words([20, 0x8003_0003, 0, 0, 0]);
    let behind = words([1, 2, offset, offset]);
    let block = [words([56]), function, parameter, variable, behind].concat();
    let block = layout.block(block);
    layout.memoffset(0, block);
    layout
}

/// A library with a variable that is the constant at this offset.
fn with_constant(offset: u32) -> Layout {
    let mut layout = Layout::new(vec![0]);
    layout.table(layout::TYPEINFOS, typeinfo(0, -1, 1 << 16));
    let variable = words([20, 0x8003_0003, 0, 2, offset]);
    let behind = words([1, u32::MAX]);
    let block = layout.block([words([20]), variable, behind].concat());
    layout.memoffset(0, block);
    layout
}

fn first_typeinfo(file: &[u8]) -> u32 {
    let lib = TypeLib::parse(file).expect("it is a library");
    let typeinfo = lib.typeinfo(0).expect("it has a type");
    place_in(file, typeinfo.as_bytes()) as u32
}

/// Where the record ends.
#[derive(Clone, Copy, Debug, PartialEq, Eq)]
pub enum End {
    /// With its table.
    WithTable,
    /// One byte past its table.
    PastTable,
    /// The same where it is the second in its table.
    SecondWithTable,
    SecondPastTable,
    /// With the file, which its table passes.
    WithFile,
    /// One byte past the file, which its table passes.
    PastFile,
    /// There is no table.
    NoTable,
    /// In a table of one byte.
    PastOneByte,
    /// Its offset is the table's length: it begins with what follows the table.
    Behind,
}

impl End {
    pub const ALL: [End; 9] = [
        End::WithTable,
        End::PastTable,
        End::SecondWithTable,
        End::SecondPastTable,
        End::WithFile,
        End::PastFile,
        End::NoTable,
        End::PastOneByte,
        End::Behind,
    ];

    /// Whether another record stands before it.
    fn is_second(self) -> bool {
        matches!(
            self,
            End::SecondWithTable | End::SecondPastTable | End::Behind
        )
    }
}

/// What document 02 says of the record's reading.
#[derive(Clone, Copy, Debug, PartialEq, Eq)]
pub enum Outcome {
    Read,
    Refused(u8),
}

/// A typeinfo that leaves its segment is 8, and without one 7 as before; any other reading is 9. A segment
/// that passes the file is not refused for that, and a missing one yields nothing.
fn outcome(record: Record, end: End) -> Outcome {
    match (end, record) {
        (End::WithTable | End::SecondWithTable | End::WithFile, _) => Outcome::Read,
        (End::NoTable, Record::Typeinfo) => Outcome::Refused(7),
        (_, Record::Typeinfo) => Outcome::Refused(8),
        _ => Outcome::Refused(9),
    }
}

/// A library, its record, and what is asked.
pub struct Ended {
    pub record: Record,
    pub end: End,
    pub input: Input,
    /// The readings that look at the record, that of the record itself first.
    pub questions: Vec<Question>,
    /// Which of the first question's answers is the record's own.
    pub answer: usize,
    /// What comes of it.
    pub outcome: Outcome,
}

/// The answers for each entry that a cursor over names yields: its six values, and its number.
const ANSWERS_OF_ENTRY: usize = 7;

impl Ended {
    fn new(record: Record, end: End) -> Self {
        let bytes = record.bytes();
        let before = match end.is_second() {
            true => padded(bytes.clone()),
            false => Vec::new(),
        };
        let offset = before.len();
        let record_end = offset + bytes.len();
        let length = match end {
            End::WithTable | End::SecondWithTable => record_end,
            End::PastTable | End::SecondPastTable => record_end - 1,
            End::WithFile | End::PastFile => record_end + LONGER,
            End::NoTable => 0,
            End::PastOneByte => 1,
            End::Behind => offset,
        };
        let mut layout = record.around(offset as u32);
        layout.table(record.segment(), [before, bytes].concat());
        layout.length(record.segment(), length as i32);
        let mut file = layout.bytes();
        file.truncate(file.len() - usize::from(end == End::PastFile));
        // The cursor over names comes to the second entry behind the first.
        let is_behind_another = record == Record::NameEntry && end.is_second();
        Ended {
            record,
            end,
            questions: record.questions(offset as u32, &file),
            answer: usize::from(is_behind_another) * ANSWERS_OF_ENTRY,
            outcome: outcome(record, end),
            input: Input::new(format!("{record:?}, {end:?}"), file),
        }
    }
}

/// Every record with every end.
pub fn all() -> impl Iterator<Item = Ended> {
    let each = |record| End::ALL.map(|end| Ended::new(record, end));
    Record::ALL.into_iter().flat_map(each)
}

/// Their libraries.
pub fn libraries() -> impl Iterator<Item = Input> {
    all().map(|ended| ended.input)
}
