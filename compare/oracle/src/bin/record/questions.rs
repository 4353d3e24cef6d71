//! The questions about a library: every reading, at the offsets and words that the library holds and
//! at the edges of its tables. What it holds is what the reference finds that is not kept to its tables.

use std::collections::BTreeSet;

use bounded::library::TYPE_DESCRIPTOR_SEGMENT;
use bounded::library::{ARRAY_DESCRIPTOR_SEGMENT, Ask, GUID_SEGMENT, IMPORT_SEGMENT, Question};
use bounded::library::{CONSTANT_SEGMENT, IMPORT_FILE_SEGMENT, NAME_SEGMENT, STRING_SEGMENT};
use bounded::sheet::{PROGRAM_BYTES, sheet};
use msft_typelib::{FuncRecord, TypeDescription, TypeInfoEntry, TypeLib};

/// The most words that one reading is asked for in a library, beside the edges.
const MOST_WORDS: usize = 20;

/// The most typeinfos whose members and cursors are asked for, and the most members of each.
const MOST_TYPEINFOS: usize = 12;
const MOST_MEMBERS: u32 = 5;

/// Words that are no place in any small table.
const FAR_WORDS: [u32; 5] = [
    0x7FFF_FFFF,
    0x8000_0000,
    0xFFFF_FFFE,
    0xFFFF_FFFF,
    0x0100_0000,
];

pub fn question(ask: Ask, numbers: [u32; 3]) -> Question {
    Question::new(ask, numbers)
}

/// A reading of a word.
pub fn of_word(ask: Ask, word: u32) -> Question {
    question(ask, [word, 0, 0])
}

/// The same of a cursor whose count is set to each of the two largest.
pub fn from_counts(of_cursor: Question) -> [Question; 2] {
    let [at, len, _] = of_cursor.numbers;
    [1, 2].map(|below| question(of_cursor.ask, [at, len, below]))
}

/// The sheet in an output that has room for any of ours, in one as long as the sheet, and in one that is
/// a byte shorter.
pub fn of_sheet(data: &[u8]) -> Vec<Question> {
    let mut rooms = vec![PROGRAM_BYTES];
    if let Ok(sheet) = sheet(data, PROGRAM_BYTES) {
        rooms.extend([sheet.len(), sheet.len() - 1]);
    }
    rooms
        .into_iter()
        .map(|room| of_word(Ask::Sheet, room as u32))
        .collect()
}

/// The questions about typeinfos and their members.
pub fn of_members(data: &[u8]) -> Vec<Question> {
    let mut asked = vec![of_word(Ask::Typeinfos, 0)];
    let lib = TypeLib::parse(data).expect("only made for a library");
    typeinfos(&lib, &mut asked);
    asked
}

/// All questions about the library in `data`; of one that cannot be parsed, only that.
pub fn of(data: &[u8]) -> Vec<Question> {
    let mut asked = vec![of_word(Ask::Parse, 0)];
    if let Ok(lib) = TypeLib::parse(data) {
        let whole = Ask::ALL.iter().filter(|&&ask| is_of_whole(ask));
        asked.extend(whole.map(|&ask| of_word(ask, 0)));
        for segment in (0..=15).chain([u32::MAX]) {
            let tables = [Ask::Segment, Ask::SegmentData, Ask::Table];
            asked.extend(tables.map(|ask| of_word(ask, segment)));
        }
        words(&lib, &mut asked);
        typeinfos(&lib, &mut asked);
    }
    asked
}

/// Whether the reading takes no number.
fn is_of_whole(ask: Ask) -> bool {
    let cursor = [
        Ask::Typeinfos,
        Ask::Guids,
        Ask::Names,
        Ask::Imports,
        Ask::ImpFiles,
    ];
    let of_library = Ask::GuidHashData <= ask && ask <= Ask::LibHelpstring;
    (Ask::Parse < ask && ask < Ask::Segment) || of_library || cursor.contains(&ask)
}

/// Words that a library holds, as they are used for one reading.
type Words = BTreeSet<u32>;

/// Some of the words, from everywhere among them.
fn some(words: Words) -> Words {
    let step = words.len().div_ceil(MOST_WORDS).max(1);
    words.into_iter().step_by(step).collect()
}

/// The offsets at the edges of a table for a record of `size` bytes: where the table starts, and
/// around the last at which the record still ends inside the table and inside the file.
fn table_edges(lib: &TypeLib, segment: usize, size: usize) -> Words {
    let mut words = Words::from(FAR_WORDS);
    words.extend([0, 1]);
    let (start, len) = lib.segment(segment).unwrap_or((0, 0));
    for end in [len, lib.data().len().saturating_sub(start)] {
        let last = end.saturating_sub(size) as u32;
        words.extend([last.saturating_sub(1), last, last + 1]);
    }
    words
}

/// The words that the library's records hold, by what they are used for.
#[derive(Default)]
struct Held {
    types: Words,
    names: Words,
    strings: Words,
    guids: Words,
    constants: Words,
    references: Words,
    files: Words,
}

impl Held {
    fn of(lib: &TypeLib) -> Self {
        let mut held = Held::default();
        held.names
            .extend(lib.names().map(|name| name.offset() as u32));
        held.names.insert(lib.name_offset() as u32);
        held.strings.insert(lib.helpstring_offset() as u32);
        held.strings.insert(lib.helpfile_offset() as u32);
        held.guids.insert(lib.lib_guid_offset() as u32);
        held.references.insert(lib.dispatchpos() as u32);
        for (number, import) in (0..).zip(lib.imports()) {
            held.references.extend((1..4).map(|low| 12 * number + low));
            held.files.insert(import.imp_file_offset() as u32);
            held.guids.insert(import.guid_offset() as u32);
        }
        for typeinfo in (0..lib.typeinfo_count()).filter_map(|index| lib.typeinfo(index).ok()) {
            held.typeinfo(lib, &typeinfo);
        }
        let (_, types) = lib.segment(TYPE_DESCRIPTOR_SEGMENT).unwrap_or((0, 0));
        held.types.extend((0..types.min(0x400) as u32).step_by(8));
        let described: Vec<_> = held
            .types
            .iter()
            .map(|&word| lib.type_description(word as i32))
            .collect();
        for description in described {
            if let Some(TypeDescription::UserDefined(href)) = description {
                held.references.insert(href as u32);
            }
        }
        held
    }

    fn typeinfo(&mut self, lib: &TypeLib, typeinfo: &TypeInfoEntry) {
        self.strings.insert(typeinfo.docstring_offset() as u32);
        self.guids.insert(typeinfo.guid_offset() as u32);
        self.types.insert(typeinfo.datatype1() as u32);
        self.references.insert(typeinfo.datatype1() as u32);
        for reference in lib.impl_types(typeinfo).take(20) {
            self.references.insert(reference.reftype() as u32);
        }
        for func in lib.funcs(typeinfo) {
            self.types.insert(func.datatype() as u32);
            for (number, param) in lib.params(&func).enumerate() {
                self.types.insert(param.datatype() as u32);
                let default = func.default_value_offset(number);
                self.constants.extend(default.map(|word| word as u32));
            }
        }
        for var in lib.vars(typeinfo) {
            self.types.insert(var.datatype() as u32);
            self.constants.insert(var.offs_value() as u32);
        }
    }
}

/// The readings of a word.
fn words(lib: &TypeLib, asked: &mut Vec<Question>) {
    let held = Held::of(lib);
    let guids = &some(held.guids) | &table_edges(lib, GUID_SEGMENT, 16);
    let types = &some(held.types) | &table_edges(lib, TYPE_DESCRIPTOR_SEGMENT, 8);
    let names = &some(held.names) | &table_edges(lib, NAME_SEGMENT, 12);
    let mut arrays = table_edges(lib, ARRAY_DESCRIPTOR_SEGMENT, 8);
    arrays.extend((0..64).step_by(8));
    let mut strings = &some(held.strings) | &table_edges(lib, STRING_SEGMENT, 2);
    strings.extend((0..32).step_by(4));
    let constants = &some(held.constants) | &table_edges(lib, CONSTANT_SEGMENT, 2);
    let files = &some(held.files) | &table_edges(lib, IMPORT_FILE_SEGMENT, 14);
    let references = &some(held.references) | &reference_edges(lib);
    for (ask, words) in [
        (Ask::NameBytes, &names),
        (Ask::Name, &names),
        (Ask::String, &strings),
        (Ask::Guid, &guids),
        (Ask::TypeDesc, &types),
        (Ask::ArrayDesc, &arrays),
        (Ask::TypeDescription, &types),
        (Ask::ConstValue, &constants),
        (Ask::ImpFile, &files),
        (Ask::ResolveHreftype, &references),
        (Ask::ResolveHreftypeFull, &references),
    ] {
        asked.extend(words.iter().map(|&word| of_word(ask, word)));
    }
    let imports = table_edges(lib, IMPORT_SEGMENT, 12);
    let imports = imports.into_iter().filter(|word| word & 0x0100_0003 == 0);
    let of_guid = |offset| question(Ask::TablePlace, [GUID_SEGMENT as u32, 16, offset]);
    let of_import = |offset| question(Ask::TablePlace, [IMPORT_SEGMENT as u32, 12, offset]);
    asked.extend(guids.into_iter().map(of_guid));
    asked.extend(imports.map(of_import));
}

/// References to the first and the last typeinfo and behind it, with the mark of a dispatch interface
/// and without, and to import records around the end of their table.
fn reference_edges(lib: &TypeLib) -> Words {
    let mut words = Words::from(FAR_WORDS);
    let size = TypeInfoEntry::SIZE as u32;
    let count = lib.typeinfo_count() as u32;
    let last = count.saturating_sub(1).saturating_mul(size);
    for word in [0, 4, last, last.saturating_add(size), 0x0200_0000] {
        words.extend([word, word | TypeLib::DISPATCH_HREF_OFFSET]);
    }
    for offset in table_edges(lib, IMPORT_SEGMENT, 12) {
        words.extend([
            offset & !3 | 1,
            offset & !3 | 2 | TypeLib::DISPATCH_HREF_OFFSET,
        ]);
    }
    words
}

/// The typeinfos, their members and their cursors.
fn typeinfos(lib: &TypeLib, asked: &mut Vec<Question>) {
    let count = lib.typeinfo_count();
    let step = count.div_ceil(MOST_TYPEINFOS).max(1);
    let mut indices: Vec<usize> = (0..count).step_by(step).collect();
    indices.extend([count, count + 1, u32::MAX as usize]);
    for index in indices {
        asked.push(of_word(Ask::TypeinfoOffset, index as u32));
        asked.push(of_word(Ask::Typeinfo, index as u32));
        let members = lib.member_names(index).len() as u32;
        for member in around_count(members) {
            asked.push(question(Ask::MemberName, [index as u32, member, 0]));
        }
        if let Ok(typeinfo) = lib.typeinfo(index) {
            let at = typeinfo.as_bytes().as_ptr().addr() - lib.data().as_ptr().addr();
            of_typeinfo(lib, at as u32, &typeinfo, asked);
        }
    }
}

/// Readings of typeinfos and functions that the reference cannot hold.
pub fn of_no_record(data: &[u8]) -> Vec<Question> {
    let mut asked = Vec::new();
    let end = data.len() as u32;
    for (at, len) in not_inside(TypeInfoEntry::SIZE as u32, end) {
        of_place(at, len, &[0], &mut asked);
    }
    for (at, len) in not_inside(FuncRecord::BASE_SIZE as u32, end) {
        asked.push(question(Ask::Params, [at, len, 0]));
    }
    asked
}

/// Places and lengths that hold no record of at least that many bytes.
fn not_inside(least: u32, end: u32) -> [(u32, u32); 5] {
    [
        (0, least - 1),
        (end - least + 1, least),
        (end, 0),
        (u32::MAX, least),
        (least, u32::MAX),
    ]
}

/// The first indices below a count and the last, those around it, and the greatest.
fn around_count(count: u32) -> Words {
    let mut indices: Words = (0..count.min(MOST_MEMBERS)).collect();
    indices.extend([count.saturating_sub(1), count, count + 1, u32::MAX]);
    indices
}

fn of_typeinfo(lib: &TypeLib, at: u32, typeinfo: &TypeInfoEntry, asked: &mut Vec<Question>) {
    let declared = u32::from(typeinfo.func_count().max(typeinfo.var_count()));
    let indices: Vec<u32> = around_count(declared).into_iter().collect();
    of_place(at, TypeInfoEntry::SIZE as u32, &indices, asked);
    for func in lib.funcs(typeinfo).take(MOST_MEMBERS as usize) {
        let bytes = func.as_bytes();
        let at = bytes.as_ptr().addr() - lib.data().as_ptr().addr();
        asked.push(question(Ask::Params, [at as u32, bytes.len() as u32, 0]));
    }
}

/// The readings of a typeinfo at a place.
fn of_place(at: u32, len: u32, indices: &[u32], asked: &mut Vec<Question>) {
    let cursors = [
        Ask::DeclaredCounts,
        Ask::Funcs,
        Ask::Vars,
        Ask::ImplTypes,
        Ask::Walk,
    ];
    asked.extend(cursors.map(|ask| question(ask, [at, len, 0])));
    for &index in indices {
        let members = Ask::ALL
            .iter()
            .filter(|&&ask| Ask::FuncMemid <= ask && ask <= Ask::VarName);
        asked.extend(members.map(|&ask| question(ask, [at, len, index])));
    }
}
