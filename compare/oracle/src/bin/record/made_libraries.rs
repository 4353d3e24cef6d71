//! Libraries made up so that every case of every reading is reached.

use bounded::inputs::misplaced;
use bounded::library::{
    ARRAY_DESCRIPTOR_SEGMENT, Ask, CONSTANT_SEGMENT, GUID_SEGMENT, IMPORT_FILE_SEGMENT,
    IMPORT_SEGMENT, NAME_SEGMENT, Question, REFERENCE_SEGMENT, STRING_SEGMENT,
    TYPE_DESCRIPTOR_SEGMENT, TYPEINFO_SEGMENT,
};

use crate::edges;
use crate::libraries::Library;
use crate::questions::{from_counts, of_word, question};

/// The size of a typeinfo's record.
pub const TYPEINFO_SIZE: usize = 100;

const HEADER_SIZE: usize = 0x54;
const SEGMENTS: usize = 15;

/// A library in the making: header, the typeinfos' offsets, directory, and what follows.
pub struct Made {
    header: Vec<u8>,
    offsets: Vec<u32>,
    directory: [(u32, u32); SEGMENTS],
    body: Vec<u8>,
}

impl Made {
    /// A library with those words in its offset table and no segment.
    pub fn new(offsets: &[u32]) -> Self {
        let mut made = Made {
            header: vec![0; HEADER_SIZE],
            offsets: offsets.to_vec(),
            directory: [(u32::MAX, 0); SEGMENTS],
            body: Vec::new(),
        };
        made.word(0x00, u32::from_le_bytes(*b"MSFT"));
        made.word(0x04, 0x0001_0002);
        made.word(0x20, offsets.len() as u32);
        for nothing in [0x08, 0x24, 0x38, 0x3C, 0x40, 0x4C] {
            made.word(nothing, u32::MAX);
        }
        made
    }

    /// Sets a word of the header.
    pub fn word(&mut self, offset: usize, word: u32) {
        self.header[offset..offset + 4].copy_from_slice(&word.to_le_bytes());
    }

    /// Where the next bytes go in the file.
    fn end(&self) -> usize {
        HEADER_SIZE + 4 * self.offsets.len() + 16 * SEGMENTS + self.body.len()
    }

    /// Adds bytes, and replies where they start in the file.
    pub fn put(&mut self, bytes: &[u8]) -> u32 {
        let at = self.end() as u32;
        self.body.extend(bytes);
        at
    }

    /// Adds a segment, and replies where it starts.
    pub fn segment(&mut self, segment: usize, bytes: &[u8]) -> usize {
        let at = self.put(bytes);
        self.directory[segment] = (at, bytes.len() as u32);
        at as usize
    }

    pub fn bytes(self) -> Vec<u8> {
        let mut bytes = self.header;
        for word in self.offsets {
            bytes.extend(word.to_le_bytes());
        }
        for (offset, length) in self.directory {
            bytes.extend(words(&[offset, length, u32::MAX, 0x0F]));
        }
        bytes.extend(self.body);
        bytes
    }

    fn library(self, more: Vec<Question>) -> Library {
        Library::new(self.bytes(), more)
    }
}

pub fn words(words: &[u32]) -> Vec<u8> {
    words.iter().flat_map(|word| word.to_le_bytes()).collect()
}

/// A typeinfo of that kind, with its block of records and how many it declares of each.
pub fn typeinfo(kind: u32, block: u32, funcs: u16, vars: u16, datatype1: u32) -> Vec<u8> {
    let mut record = vec![0; TYPEINFO_SIZE];
    for (offset, word) in [
        (0x00, kind),
        (0x04, block),
        (0x18, u32::from(funcs) | u32::from(vars) << 16),
        (0x2C, u32::MAX),
        (0x34, u32::MAX),
        (0x3C, u32::MAX),
        (0x54, datatype1),
    ] {
        record[offset..offset + 4].copy_from_slice(&word.to_le_bytes());
    }
    record
}

/// A function's record of `len` bytes that says that it has `size`.
pub fn func(size: u16, params: i16, len: usize) -> Vec<u8> {
    let mut record: Vec<u8> = (0..len).map(|at| 0xA0 ^ at as u8).collect();
    record[..4].copy_from_slice(&(u32::from(size) | 0x0001_0000).to_le_bytes());
    record[0x14..0x16].copy_from_slice(&params.to_le_bytes());
    record
}

/// A variable's record of `len` bytes that says that it has `size`.
fn var(size: u16, len: usize) -> Vec<u8> {
    let mut record: Vec<u8> = (0..len).map(|at| 0x50 ^ at as u8).collect();
    record[..4].copy_from_slice(&(u32::from(size) | 0x0002_0000).to_le_bytes());
    record
}

pub fn all() -> Vec<Library> {
    let mut libraries = refused();
    libraries.push(header());
    libraries.push(inline_constants());
    libraries.push(stored_constants());
    libraries.extend(constants_at_the_end());
    libraries.push(types());
    libraries.extend(references());
    libraries.extend(references_to_no_typeinfo());
    libraries.extend(typeinfos());
    libraries.extend(members());
    libraries.push(skipped());
    libraries.push(chains(true));
    libraries.push(chains(false));
    libraries.extend(tables());
    libraries.push(texts());
    libraries
}

/// Bytes that are no library, at the edges of each refusal of `parse` and where one comes before
/// another.
fn refused() -> Vec<Library> {
    let mut other_magic = edges::start(0, 0);
    other_magic[3] = b't';
    let mut negative = other_magic.clone();
    negative[0x23] = 0x80;
    let of_one = edges::start(0, 1);
    let least = edges::start(0, 0x8000_0000);
    [
        &of_one[..0],
        &of_one[..4],
        &other_magic[..83],
        &other_magic[..84],
        &other_magic,
        &negative,
        &least[..84],
        &least,
        &of_one[..327],
        &of_one[..328],
        &edges::start(0x100, 1)[..331],
        &edges::start(0x100, 1)[..332],
        &edges::start(0, 0x4000_0000),
        &edges::start(0, 0x7FFF_FFFF),
    ]
    .map(|bytes| Library::new(bytes.to_vec(), Vec::new()))
    .into()
}

/// A header whose every word is another, with and without its sign.
fn header() -> Library {
    let mut made = Made::new(&[]);
    for offset in (0x04..HEADER_SIZE).step_by(4) {
        if offset != 0x20 {
            made.word(offset, (0x0403_0201 * (offset as u32 / 4)) ^ 0x8000_0000);
        }
    }
    made.word(0x14, 0x8765_4EED);
    // Segments of a negative offset, of no length and of a negative one, and one past the file.
    made.directory[4] = (0x8000_0000, 8);
    made.directory[5] = (16, 0);
    made.directory[6] = (16, 0x8000_0000);
    made.directory[8] = (300, 0x7FFF_FFFF);
    made.directory[9] = (0x7FFF_FFFF, 0x7FFF_FFFF);
    made.directory[14] = (0, 1);
    made.library(Vec::new())
}

/// Values at the edges of 8, 16 and 26 bits.
const INLINE_VALUES: [u32; 12] = [
    0, 1, 0x7F, 0x80, 0xFF, 0x100, 0x7FFF, 0x8000, 0xFFFF, 0x1_0000, 0x200_0000, 0x3FF_FFFF,
];

/// Every code of five bits with each of the values.
fn inline_constants() -> Library {
    let asked = (0..32u32).flat_map(|code| {
        INLINE_VALUES.map(|value| of_word(Ask::ConstValue, 0x8000_0000 | code << 26 | value))
    });
    Library::asked(Made::new(&[]).bytes(), asked.collect())
}

/// The codes whose constants are stored: all that have a case, and others, which have none.
fn stored_codes() -> impl Iterator<Item = u16> {
    (0..=25).chain([
        26, 29, 31, 63, 64, 65, 0x0103, 0x2003, 0x4008, 0x7FFF, 0x8000, 0xFFFF,
    ])
}

/// Eight bytes for a constant: numbers with and without their sign at each width; and floats, of four
/// bytes and of eight: zeros, ones, the least and the greatest, infinities and NaNs of each sign,
/// quiet and signalling.
const STORED_VALUES: [u64; 24] = [
    0,
    1,
    0x0000_0000_0000_007F,
    0x0102_0304_0506_0780,
    0x0000_0000_0000_FFFF,
    0x0000_0000_8000_8000,
    0x7FFF_FFFF_FFFF_FFFF,
    0x8000_0000_0000_0000,
    0xFFFF_FFFF_FFFF_FFFF,
    0x0000_0000_0001_0000,
    0x0000_0000_3F80_0000,
    0x0000_0000_8000_0000,
    0x0000_0000_7F7F_FFFF,
    0x0000_0000_7F80_0000,
    0x0000_0000_FF80_0000,
    0x0000_0000_7F80_0001,
    0x0000_0000_FFC0_1234,
    0x3FF0_0000_0000_0000,
    0x7FEF_FFFF_FFFF_FFFF,
    0x7FF0_0000_0000_0000,
    0xFFF0_0000_0000_0000,
    0x7FF0_0000_0000_0001,
    0xFFF8_0000_0001_2345,
    0x40E5_F8D2_0000_0000,
];

/// Every code with each of the values; texts that are null, of a negative length, empty, short and
/// longer than the file; and offsets around the file's end.
fn stored_constants() -> Library {
    let mut table = Constants::default();
    for length in [
        u32::MAX,
        0xFFFF_FFFE,
        0x8000_0000,
        0,
        3,
        0x7FFF_FFFF,
        0xFFFF,
    ] {
        table.put(8, &words(&[length, 0x0063_6261]));
    }
    for code in stored_codes().filter(|&code| code != 8) {
        for value in STORED_VALUES {
            // A code that has no value, or that is only kept, needs few of them.
            let few = code < 2 || code == 24 || code > 25 && code != 64;
            if !few || value < 2 {
                table.put(code, &value.to_le_bytes());
            }
        }
    }
    table.put(14, &[0xDD; 16]);
    let mut made = Made::new(&[]);
    made.segment(CONSTANT_SEGMENT, &table.bytes);
    let end = made.end() as u32;
    let behind = [end - 1, end, 0x7FFF_FFFF].map(|offset| of_word(Ask::ConstValue, offset));
    table.asked.extend(behind);
    Library::asked(made.bytes(), table.asked)
}

/// A table of constants, and a question for each.
#[derive(Default)]
struct Constants {
    bytes: Vec<u8>,
    asked: Vec<Question>,
}

impl Constants {
    fn put(&mut self, code: u16, value: &[u8]) {
        let offset = self.bytes.len() as u32;
        self.asked.push(of_word(Ask::ConstValue, offset));
        self.bytes.extend(code.to_le_bytes());
        self.bytes.extend(value);
    }
}

/// Constants that end where the file does, and ones that lack their last byte.
fn constants_at_the_end() -> Vec<Library> {
    let mut libraries = Vec::new();
    for code in stored_codes() {
        let value = match code {
            0 | 1 | 24 => 0,
            11 => 2,
            5 | 6 | 7 | 20 | 21 | 64 => 8,
            14 => 16,
            8 => 7,
            _ => 4,
        };
        for kept in [2 + value, 1 + value] {
            let mut made = Made::new(&[]);
            let mut constant = code.to_le_bytes().to_vec();
            constant.extend(words(&[3, 0x0063_6261, 0x8765_4321, 0x8000_0001]));
            made.segment(CONSTANT_SEGMENT, &constant[..kept]);
            let asked = vec![of_word(Ask::ConstValue, 0)];
            libraries.push(Library::asked(made.bytes(), asked));
        }
    }
    libraries
}

/// Type descriptors of every kind, and array descriptors of no dimension, of some, of more than the
/// file has, and at its end.
fn types() -> Library {
    let mut arrays = words(&[0x8003_0003, 0, 0x8002_0002, 1, 5, 0x8000_0000]);
    arrays.extend(words(&[
        8,
        0x0018_0002,
        2,
        0,
        3,
        u32::MAX,
        0x8003_0003,
        0xFFFF,
    ]));
    let last = arrays.len() as u32;
    arrays.extend(words(&[0x8003_0003, 0]));
    let codes = [
        0,
        1,
        3,
        8,
        12,
        25,
        30,
        31,
        64,
        0x0FFF,
        0x1003,
        0xFFFF_F003,
        0x7FFF_F000,
    ];
    let mut table: Vec<u8> = codes
        .iter()
        .flat_map(|&code| words(&[code, 0x1234]))
        .collect();
    for code in [26, 27, 29, 0x101A, 0xFFFF_001B, 0x8003_001D] {
        for second in [0, 8, 0x8003_0003, 0x7FFF_FFFF, u32::MAX] {
            table.extend(words(&[code, second]));
        }
    }
    let offsets = [
        0,
        8,
        24,
        48,
        last,
        last + 1,
        0xFFFF_0000,
        0x8000_0008,
        0xFFFF,
    ];
    for code in [28, 0x701C] {
        for second in offsets {
            table.extend(words(&[code, second]));
        }
    }
    let mut made = Made::new(&[]);
    let count = table.len() as u32 / 8;
    made.segment(TYPE_DESCRIPTOR_SEGMENT, &table);
    made.segment(ARRAY_DESCRIPTOR_SEGMENT, &arrays);
    let mut asked = Vec::new();
    for offset in (0..count).map(|number| 8 * number) {
        asked.push(of_word(Ask::TypeDesc, offset));
        asked.push(of_word(Ask::TypeDescription, offset));
    }
    asked.extend(offsets.map(|offset| of_word(Ask::ArrayDesc, offset)));
    for field in [
        0x8000_0000,
        0x8000_0FFF,
        0x8003_1003,
        0x8018_0018,
        0xFFFF_F01A,
        0x9ABC_DEF0,
    ] {
        asked.push(of_word(Ask::TypeDescription, field));
    }
    made.library(asked)
}

/// An import file with that name, padded.
pub fn imp_file(name: &[u8]) -> Vec<u8> {
    let mut entry = words(&[0, 0x409, 0x0001_0002]);
    entry.extend((name.len() as u16 * 4 + 1).to_le_bytes());
    entry.extend(name);
    entry.resize(entry.len().next_multiple_of(4), b'W');
    entry
}

/// Two typeinfos and import records with a file and without, whose tables end in a part of a record
/// or at the file's end; and a library without import tables.
fn references() -> Vec<Library> {
    let mut files = imp_file(b"stdole2.tlb");
    let second = files.len() as u32;
    files.extend(imp_file(b"caf\xE9"));
    let third = files.len() as u32;
    files.extend(imp_file(b""));
    // This one claims a longer name than the file has.
    let last = files.len() as u32;
    files.extend(imp_file(b"a"));
    let claimed = files.len() - 4;
    files[claimed..claimed + 2].copy_from_slice(&0xFFFF_u16.to_le_bytes());
    let offsets = [0, second, third, last, u32::MAX, 0x7FFF_FFFF, last + 3, 1];
    let imports: Vec<u8> = offsets
        .iter()
        .flat_map(|&file| words(&[0x0301_0000, file, 24]))
        .chain([0; 8])
        .collect();
    let mut asked = Vec::new();
    for href in 0..(12 * (offsets.len() as u32 + 1)) {
        asked.push(of_word(Ask::ResolveHreftypeFull, href));
        if href % 4 != 0 {
            asked.push(of_word(Ask::ResolveHreftypeFull, href | 0x0100_0000));
        }
    }
    for href in [
        0,
        4,
        96,
        99,
        100,
        101,
        196,
        199,
        200,
        0x0100_0064,
        0x0100_00C8,
        0x0200_0001,
    ] {
        asked.push(of_word(Ask::ResolveHreftypeFull, href));
        asked.push(of_word(Ask::ResolveHreftype, href));
    }
    for offset in offsets {
        asked.push(of_word(Ask::ImpFile, offset));
    }
    let both = |files_last: bool| {
        let mut made = Made::new(&[0, 0]);
        if files_last {
            made.segment(IMPORT_SEGMENT, &imports);
            made.segment(IMPORT_FILE_SEGMENT, &files);
        } else {
            made.segment(IMPORT_FILE_SEGMENT, &files);
            made.segment(IMPORT_SEGMENT, &imports[..imports.len() - 9]);
        }
        made.library(asked.clone())
    };
    vec![
        both(true),
        both(false),
        Made::new(&[0, 0]).library(asked.clone()),
    ]
}

/// References that hit no typeinfo, in each place of a description, with their bit and without.
fn references_to_no_typeinfo() -> impl Iterator<Item = Library> {
    misplaced::places().map(|input| Library::asked(input.bytes, Vec::new()))
}

/// Typeinfos that end where the file does, one byte past it, at a negative offset and far away; and
/// the same offsets where the table is missing.
fn typeinfos() -> Vec<Library> {
    let offsets = [
        0,
        u32::MAX,
        100,
        101,
        199,
        200,
        0x8000_0000,
        0x7FFF_FFFF,
        1,
        4,
    ];
    let records = [
        typeinfo(0, u32::MAX, 0, 0, u32::MAX),
        typeinfo(9, 0, 1, 1, 0),
    ]
    .concat();
    let mut made = Made::new(&offsets);
    made.segment(TYPEINFO_SEGMENT, &records);
    let with_table = made.library(Vec::new());
    let mut made = Made::new(&offsets[..3]);
    made.put(&records);
    vec![with_table, made.library(Vec::new())]
}

/// A typeinfo over a block of records, which says that it has `size` bytes, and the words behind it.
fn block_library(size: u32, records: &[Vec<u8>], funcs: u16, vars: u16, behind: &[u32]) -> Library {
    let mut made = Made::new(&[0, 100]);
    let mut names = Vec::new();
    for name in [&b"Draw"[..], b"Seed", b"\xE9", b"Count"] {
        names.extend(words(&[0, u32::MAX]));
        names.extend([name.len() as u8, 0x10, 0x34, 0x12]);
        names.extend(name);
        names.resize(names.len().next_multiple_of(4), b'W');
    }
    made.segment(NAME_SEGMENT, &names);
    // The block comes last, so that a record can end where the file does.
    let block = made.end() as u32 + 2 * TYPEINFO_SIZE as u32;
    let records_of = [
        typeinfo(3, block, funcs, vars, 0),
        typeinfo(3, block + 1, 1, 1, 16),
    ];
    made.segment(TYPEINFO_SEGMENT, &records_of.concat());
    made.put(&size.to_le_bytes());
    made.put(&records.concat());
    made.put(&words(behind));
    Library::of_members(made.bytes(), Vec::new())
}

/// Words behind a block: member identifiers and offsets of names.
const BEHIND: [u32; 10] = [1, 2, 0x6000_0000, u32::MAX, 0, 16, 32, 48, 3, 0x7FFF_FFFF];

/// Functions and variables that end before, at and behind the end of their block and of the file, and
/// that are too short; and counts that are more or fewer than the records.
fn members() -> Vec<Library> {
    let (f, f23, f40) = (func(24, 0, 24), func(23, 0, 24), func(40, 0, 40));
    let (v, v24) = (var(20, 20), var(24, 24));
    let long = func(36, 1, 36);
    let of = |size, records: &[&Vec<u8>], funcs, vars, behind: &[u32]| {
        let records: Vec<Vec<u8>> = records.iter().map(|&record| record.clone()).collect();
        block_library(size, &records, funcs, vars, behind)
    };
    vec![
        // Two functions and two variables, with names; the third has none in UTF-8.
        of(104, &[&long, &func(28, 0, 28), &v, &v], 2, 2, &BEHIND).from_counts(),
        // The last function ends past the block, and the file goes on or ends there.
        of(25, &[&f, &f40], 2, 0, &BEHIND),
        of(25, &[&f, &f40], 2, 0, &[]),
        of(25, &[&f, &func(41, 0, 40)], 2, 0, &[]),
        // The second function starts where the block ends.
        of(24, &[&f, &f], 2, 0, &BEHIND),
        // Too short, by one byte and altogether.
        of(48, &[&f, &f23], 2, 1, &BEHIND),
        of(48, &[&func(0, 0, 24), &f], 2, 1, &BEHIND),
        of(40, &[&v, &var(19, 20)], 0, 2, &BEHIND),
        of(40, &[&v, &v], 0, 2, &[]),
        of(40, &[&v, &var(21, 20)], 0, 2, &[]),
        of(41, &[&var(0xFFFF, 20), &v], 0, 0xFFFF, &BEHIND),
        // Fewer are declared than there are, and more.
        of(96, &[&f, &v24, &v24], 1, 1, &BEHIND),
        of(48, &[&f, &f], 9, 9, &BEHIND),
        params().from_counts(),
        // A block whose size is no signed number, and one that is cut off.
        of(0xFFFF_FFFF, &[&f, &v], 1, 1, &BEHIND),
        of(0, &[], 1, 1, &[]),
    ]
}

/// Parameters: some, more than the record holds, over its fixed part, and a negative count.
fn params() -> Library {
    let counts = [
        (48, 2),
        (48, 4),
        (48, 5),
        (24, 2),
        (32, -1),
        (32, i16::MIN),
        (32, i16::MAX),
    ];
    let funcs = counts.map(|(size, params)| func(size, params, usize::from(size)));
    block_library(200, &funcs, funcs.len() as u16, 0, &BEHIND)
}

/// Variables behind functions of 1 to 23 bytes, which are skipped all the same, and behind one of 0,
/// which ends the skip.
fn skipped() -> Library {
    let mut made = Made::new(&[0, 100, 200, 300, 400]);
    let mut typeinfos = Vec::new();
    let skips: [&[Vec<u8>]; 5] = [
        &[func(1, 0, 24)[..1].to_vec(), var(20, 20)],
        &[func(23, 0, 24)[..23].to_vec(), var(20, 20)],
        &[vec![4, 0, 0, 0], vec![0, 0, 0, 0], var(20, 20)],
        &[func(24, 0, 24), func(0xFFFF, 0, 24), var(20, 20)],
        &[vec![20, 0, 0, 0], var(20, 20)],
    ];
    for (number, records) in (1..).zip(skips) {
        let block = [100u32.to_le_bytes().to_vec(), records.concat(), vec![0; 8]].concat();
        let at = made.put(&block);
        typeinfos.extend(typeinfo(0, at, number.min(2), 2, u32::MAX));
    }
    made.segment(TYPEINFO_SEGMENT, &typeinfos);
    Library::of_members(made.bytes(), Vec::new())
}

/// Chains of reference records: none, of one and of more, that leave the file, that come round to
/// their first record and to a later one, and that overlap; with a reference table or without.
fn chains(with_table: bool) -> Library {
    let starts = [u32::MAX, 0, 16, 64, 96, 112, 144, 0x7FFF_FFFF, 161, 177];
    let offsets: Vec<u32> = (0..)
        .map(|number| 100 * number)
        .take(starts.len())
        .collect();
    let mut made = Made::new(&offsets);
    // Without a table the offsets count from the file's start.
    let base = if with_table { 0 } else { made.end() as u32 };
    let next = [
        u32::MAX,
        32,
        48,
        u32::MAX,
        80,
        0x0000_4000,
        96,
        128,
        112,
        160,
        160,
    ];
    let mut records: Vec<u8> = (0..)
        .zip(next)
        .flat_map(|(number, next)| {
            let next = if next < 0x4000 { next + base } else { next };
            words(&[100 * number, number, u32::MAX, next])
        })
        .collect();
    // Two records that overlap: the second starts in the first.
    records.extend(words(&[0, 0, 0, base + 181, 0, 0, u32::MAX]));
    if with_table {
        made.segment(REFERENCE_SEGMENT, &records);
    } else {
        made.put(&records);
    }
    let start = |word: u32| if word < 0x4000 { word + base } else { word };
    let typeinfos: Vec<u8> = starts
        .iter()
        .flat_map(|&first| typeinfo(5, u32::MAX, 0, 0, start(first)))
        .collect();
    let at = made.segment(TYPEINFO_SEGMENT, &typeinfos) as u32;
    let mut asked = Vec::new();
    for number in 0..starts.len() as u32 {
        let numbers = [at + 100 * number, TYPEINFO_SIZE as u32, 0];
        for chain in [Ask::ImplTypes, Ask::Walk].map(|ask| question(ask, numbers)) {
            asked.push(chain);
            // A chain of three, and one that comes round.
            if [2, 5].contains(&number) {
                asked.extend(from_counts(chain));
            }
        }
    }
    Library::of_members(made.bytes(), asked)
}

/// A name's entry.
pub fn name_entry(hreftype: u32, name: &[u8]) -> Vec<u8> {
    let mut entry = words(&[hreftype, 0x8000_0001]);
    entry.extend([name.len() as u8, 0x20, 0xCD, 0xAB]);
    entry.extend(name);
    entry.resize(entry.len().next_multiple_of(4), b'W');
    entry
}

/// Each table that has a cursor, with entries that end at the table's end, one byte before it and one
/// byte past it, and at the end of the file.
fn tables() -> Vec<Library> {
    let guids: Vec<u8> = (0..72).collect();
    let imports = words(&[0x0301_0001, 0, 0, 0x0302_0002, u32::MAX, 24, 7, 8, 9]);
    let files = [imp_file(b"one.tlb"), imp_file(b""), imp_file(b"three.tlb")].concat();
    let names = [
        name_entry(0, b"Vezhgama"),
        name_entry(0, b""),
        name_entry(100, "caf\u{E9}".as_bytes()),
        name_entry(0, b"abc"),
        name_entry(0, &[b'n'; 255]),
        name_entry(u32::MAX, b"last"),
    ]
    .concat();
    let tables: [(usize, &[u8]); 4] = [
        (GUID_SEGMENT, &guids),
        (IMPORT_SEGMENT, &imports),
        (IMPORT_FILE_SEGMENT, &files),
        (NAME_SEGMENT, &names),
    ];
    let mut libraries = Vec::new();
    for missing in 0..3 {
        for (segment, bytes) in tables {
            let mut made = Made::new(&[0, 100]);
            // The table is a byte short; and then the file is, which the table passes.
            made.segment(segment, &bytes[..bytes.len() - missing]);
            let library = made.library(Vec::new());
            libraries.push(match missing {
                0 => library.from_counts(),
                _ => library,
            });
        }
    }
    for (segment, bytes) in tables {
        let mut made = Made::new(&[0, 100]);
        made.segment(segment, bytes);
        made.directory[segment].1 -= 1;
        libraries.push(made.library(Vec::new()));
        let mut made = Made::new(&[0, 100]);
        made.segment(segment, &bytes[..bytes.len() - 1]);
        made.directory[segment].1 = 0x7FFF_FFFF;
        libraries.push(made.library(Vec::new()));
    }
    libraries
}

/// Names, strings and GUIDs of the library itself; a name that is no UTF-8 ends the names, and the
/// members behind it are none.
fn texts() -> Library {
    let mut made = Made::new(&[0, 100, 200]);
    let mut names = [
        name_entry(u32::MAX, b"Library"),
        name_entry(0, b"First"),
        name_entry(100, b"Second"),
        name_entry(0, b"Draw"),
        name_entry(0, b"Seed"),
        name_entry(100, b"Only"),
        name_entry(0, b""),
    ]
    .concat();
    let refused = names.len() as u32;
    names.extend(name_entry(0, b"\xED\xA0\x80"));
    names.extend(name_entry(0, b"Behind"));
    let mut strings = b"\x05\x00hello\x00\x03\x00a\x80b\x00\x00\x00\x04\x00".to_vec();
    strings.extend("\u{1F600}".as_bytes());
    strings.extend(b"\xFF\xFFlong");
    made.word(0x08, 24);
    made.word(0x24, 0);
    made.word(0x38, 0);
    made.segment(4, &[1; 32]);
    made.segment(6, &[2; 64]);
    made.segment(GUID_SEGMENT, &(0..48).collect::<Vec<u8>>());
    made.segment(NAME_SEGMENT, &names);
    made.segment(STRING_SEGMENT, &strings);
    let mut asked = Vec::new();
    for offset in 0..strings.len() as u32 {
        asked.push(of_word(Ask::String, offset));
    }
    for offset in [0, 4, 20, refused, refused + 16] {
        asked.push(of_word(Ask::Name, offset));
        asked.push(of_word(Ask::NameBytes, offset));
    }
    made.library(asked)
}
