//! Records made up: plausible ones, and ones at the edges of what the methods read.

use std::collections::BTreeSet;

use crate::random::Random;
use crate::readings::Kind;

/// A record's bytes and the index to ask it for.
pub struct Record {
    pub bytes: Vec<u8>,
    pub arg: u32,
}

impl Record {
    /// A record whose methods take no index.
    fn new(bytes: Vec<u8>) -> Self {
        Record { bytes, arg: 0 }
    }
}

/// Made records of a kind, each of at least the kind's fixed part.
pub fn records(kind: Kind, random: &mut Random) -> Vec<Record> {
    match kind {
        Kind::Guid | Kind::GuidEntry | Kind::ImpInfo => fixed_records(kind, random),
        Kind::Param => flagged_records(kind, 0x08, random),
        Kind::RefRecord => flagged_records(kind, 0x04, random),
        Kind::ArrayDesc => array_descs(random),
        Kind::ImpFile => imp_files(random),
        Kind::TypeInfo => typeinfos(random),
        Kind::Var => vars(random),
        Kind::Func => funcs(random),
        Kind::Name => name_entries(random),
        Kind::TextCheck => texts(random),
        Kind::VtName | Kind::TypeKind => Vec::new(),
    }
}

/// Offsets, flags, base types and references such as libraries hold.
const PLAUSIBLE_WORDS: [u32; 14] = [
    0,
    1,
    2,
    4,
    0x10,
    0x24,
    100,
    200,
    0x0001_0000,
    0x0100_0064,
    0x8003_0003,
    0x8018_0018,
    0xFFFF_FFFE,
    0xFFFF_FFFF,
];

/// Words at the edges of signed and unsigned numbers, and ones that show a wrong order of bytes.
const HOSTILE_WORDS: [u32; 10] = [
    0x7FFF_FFFF,
    0x8000_0000,
    0x8000_0001,
    0xFFFF_FFFF,
    0xFFFF_0000,
    0x0000_FFFF,
    0x0000_8000,
    0x7FFF_8000,
    0x00FF_00FF,
    0x0403_0201,
];

/// `len` bytes of plausible words, of hostile words, or of any values.
fn content(len: usize, random: &mut Random) -> Vec<u8> {
    let words: &[u32] = match random.below(3) {
        0 => &PLAUSIBLE_WORDS,
        1 => &HOSTILE_WORDS,
        _ => return random.bytes(len),
    };
    let mut bytes: Vec<u8> = (0..len.div_ceil(4))
        .flat_map(|_| random.one_of(words).to_le_bytes())
        .collect();
    bytes.truncate(len);
    bytes
}

/// Writes a field over a record's bytes.
fn set(bytes: &mut [u8], offset: usize, field: &[u8]) {
    bytes[offset..offset + field.len()].copy_from_slice(field);
}

/// Each word with a single bit set, and each with a single bit clear.
fn single_bits() -> impl Iterator<Item = u32> {
    (0..32).flat_map(|bit| [1 << bit, !(1 << bit)])
}

/// Records of the kind's fixed part, every fourth with up to eight bytes more.
fn fixed_records(kind: Kind, random: &mut Random) -> Vec<Record> {
    (0..200)
        .map(|number| {
            let more = if number % 4 == 0 {
                1 + random.below(8)
            } else {
                0
            };
            Record::new(content(kind.fixed_part() + more, random))
        })
        .collect()
}

/// Fixed records, and ones whose word of flags has a single bit set or a single bit clear.
fn flagged_records(kind: Kind, flags_offset: usize, random: &mut Random) -> Vec<Record> {
    let mut records = fixed_records(kind, random);
    for flags in single_bits() {
        let mut bytes = content(kind.fixed_part(), random);
        set(&mut bytes, flags_offset, &flags.to_le_bytes());
        records.push(Record::new(bytes));
    }
    records
}

/// Fixed records that take the sixteen values of the type kind's four bits in turn.
fn typeinfos(random: &mut Random) -> Vec<Record> {
    let mut records = fixed_records(Kind::TypeInfo, random);
    for (number, record) in records.iter_mut().enumerate() {
        record.bytes[0] = record.bytes[0] & 0xF0 | (number % 16) as u8;
    }
    records
}

/// Descriptors of few dimensions, with lengths around what these need and indexes around their
/// count; and descriptors that claim more dimensions than they hold.
fn array_descs(random: &mut Random) -> Vec<Record> {
    let mut records = Vec::new();
    let mut push = |dims: u32, len: u32, arg: u32| {
        let mut bytes = content(len as usize, random);
        set(&mut bytes, 0x04, &(dims as u16).to_le_bytes());
        records.push(Record { bytes, arg });
    };
    for dims in 0..=4u32 {
        let needed = 8 + 8 * dims;
        for len in [8, needed - 1, needed, needed + 1, needed + 8] {
            for index in [0, dims.saturating_sub(1), dims, dims + 1, u32::MAX] {
                push(dims, len.max(8), index);
            }
        }
    }
    for dims in [100, 0x1FFF, 0x2000, 0x7FFF, 0x8000, 0xFFFF] {
        for len in [8, 12, 15, 16, 24] {
            // Kept to 32 bits, the place of dimension 0x1FFF_FFFF would be 0.
            for index in [0, 1, 2, dims - 1, dims, 0x1FFF_FFFF] {
                push(dims, len, index);
            }
        }
    }
    records
}

/// Texts that are UTF-8, the first and the last code point of each length among them, and those on
/// either side of the surrogates.
const VALID_NAMES: [&str; 15] = [
    "",
    "stdole2.tlb",
    "a",
    "\0",
    "\u{7F}",
    "\u{80}",
    "\u{7FF}",
    "\u{800}",
    "\u{D7FF}",
    "\u{E000}",
    "\u{FFFF}",
    "\u{10000}",
    "\u{10FFFF}",
    "caf\u{E9}.tlb",
    "C:\\\u{65E5}\u{672C}\\\u{1F600}.dll",
];

/// Texts that are not UTF-8.
pub(super) const INVALID_NAMES: [&[u8]; 29] = [
    // A continuation byte that continues nothing.
    b"\x80",
    b"\xBF",
    b"a\x80b",
    b"\xC2\x80\x80",
    // Overlong forms.
    b"\xC0\x80",
    b"\xC1\xBF",
    b"\xE0\x80\x80",
    b"\xE0\x9F\xBF",
    b"\xF0\x80\x80\x80",
    b"\xF0\x8F\xBF\xBF",
    // Surrogates.
    b"\xED\xA0\x80",
    b"\xED\xAF\xBF",
    b"\xED\xB0\x80",
    b"\xED\xBF\xBF",
    // Above U+10FFFF, and bytes that no text has.
    b"\xF4\x90\x80\x80",
    b"\xF5\x80\x80\x80",
    b"\xF8\x88\x80\x80\x80",
    b"\xFE",
    b"\xFF",
    // Cut off at the end.
    b"\xC3",
    b"a\xE2",
    b"\xE2\x82",
    b"\xF0",
    b"\xF0\x9F",
    b"\xF0\x9F\x98",
    // Cut off by another character.
    b"\xC3a",
    b"\xE2\x82a",
    b"\xF0\x9F\x98a",
    // In a code page of one byte to a character.
    b"caf\xE9.tlb",
];

/// Bytes that begin a character of more than one byte, and bytes at the edges of the ranges that
/// RFC 3629 lets follow.
const FIRST_BYTES: [u8; 8] = [0xC2, 0xDF, 0xE0, 0xE1, 0xED, 0xEF, 0xF0, 0xF4];
const LATER_BYTES: [u8; 12] = [
    0x00, 0x7F, 0x80, 0x8F, 0x90, 0x9F, 0xA0, 0xBF, 0xC0, 0xC2, 0xED, 0xFF,
];

/// The names above, names joined from several of them, and names of bytes that nearly make a
/// character.
pub fn names(random: &mut Random) -> Vec<Vec<u8>> {
    let mut names: Vec<Vec<u8>> = names_at_edges().map(<[u8]>::to_vec).collect();
    for number in 0..80 {
        let mut name = random.one_of(&VALID_NAMES).as_bytes().to_vec();
        if number % 4 == 0 {
            name.extend(random.one_of(&INVALID_NAMES));
        }
        name.extend(random.one_of(&VALID_NAMES).as_bytes());
        names.push(name);
    }
    for _ in 0..80 {
        let mut name = vec![random.one_of(&FIRST_BYTES)];
        name.extend((0..random.below(4)).map(|_| random.one_of(&LATER_BYTES)));
        names.push(name);
    }
    names
}

fn names_at_edges() -> impl Iterator<Item = &'static [u8]> {
    VALID_NAMES
        .map(str::as_bytes)
        .into_iter()
        .chain(INVALID_NAMES)
}

/// Texts to check: the names above, and each of those at the edges also cut at every length.
fn texts(random: &mut Random) -> Vec<Record> {
    let beginnings =
        names_at_edges().flat_map(|name| (0..name.len()).map(|length| &name[..length]));
    let mut texts: BTreeSet<Vec<u8>> = beginnings.map(<[u8]>::to_vec).collect();
    texts.extend(names(random));
    texts.into_iter().map(Record::new).collect()
}

/// The texts of name entries, and what their numbers are made from.
fn name_entries(random: &mut Random) -> Vec<Record> {
    let mut entries = Vec::new();
    for bytes in names(random) {
        let arg = random.number() as u32;
        entries.push(Record { bytes, arg });
    }
    entries
}

/// Import files whose names are UTF-8 or not, with lengths around what the name needs; and ones
/// that claim longer names than they hold.
fn imp_files(random: &mut Random) -> Vec<Record> {
    let header = Kind::ImpFile.fixed_part();
    let mut records = Vec::new();
    for (number, name) in names(random).iter().enumerate() {
        let unpadded = header + name.len();
        let padded = unpadded.next_multiple_of(4);
        // The name is missing, lacks its last byte, lacks its padding, or has bytes after it.
        let other_lengths = [header, unpadded - 1, unpadded, padded + 5];
        let other = other_lengths[number % other_lengths.len()].max(header);
        for len in [padded, other] {
            let size_field = name.len() << 2 | random.below(4);
            records.push(imp_file(size_field, name, len, random));
        }
    }
    for size_field in [0x0003, 0x0004, 0x00FF, 0x7FFF, 0x8000, 0xFFFC, 0xFFFF] {
        for len in [header, header + 1, header + 6] {
            records.push(imp_file(size_field, b"", len, random));
        }
    }
    records
}

/// An import file of `len` bytes, with as many of the name's bytes as it has space for.
fn imp_file(size_field: usize, name: &[u8], len: usize, random: &mut Random) -> Record {
    let mut bytes = content(Kind::ImpFile.fixed_part(), random);
    set(&mut bytes, 0x0C, &(size_field as u16).to_le_bytes());
    bytes.extend(name);
    bytes.resize(len, b'W');
    Record::new(bytes)
}

/// Variables whose length and whose recorded size each take values around the ends of the optional
/// attributes, so that each attribute is there, is counted but not there, and is not counted. Kept
/// to 8 bits, the size 0x0100 would count none.
fn vars(random: &mut Random) -> Vec<Record> {
    const LENGTHS: [usize; 16] = [
        20, 21, 23, 24, 27, 28, 31, 32, 35, 36, 39, 40, 41, 43, 44, 48,
    ];
    const SIZES: [u16; 16] = [
        0, 19, 20, 23, 24, 27, 28, 31, 32, 36, 39, 40, 43, 44, 0x0100, 0xFFFF,
    ];
    let mut records = Vec::new();
    for len in LENGTHS {
        for size in SIZES {
            let mut bytes = content(len, random);
            set(&mut bytes, 0x00, &size.to_le_bytes());
            records.push(Record::new(bytes));
        }
    }
    records
}

/// Bits of FKCCIC that decide what a function's record holds.
const CUSTOM_DATA: u32 = 0x80;
const DEFAULT_VALUES: u32 = 0x1000;

/// The parts of a function's record that decide which others are there.
struct FuncShape {
    len: usize,
    size: u16,
    fkccic: u32,
    nrargs: i16,
}

impl FuncShape {
    /// A record of this shape, its other bytes made up, with the index to ask it for.
    fn record(&self, arg: u32, random: &mut Random) -> Record {
        let mut bytes = content(self.len, random);
        set(&mut bytes, 0x00, &self.size.to_le_bytes());
        set(&mut bytes, 0x10, &self.fkccic.to_le_bytes());
        set(&mut bytes, 0x14, &self.nrargs.to_le_bytes());
        Record { bytes, arg }
    }
}

fn funcs(random: &mut Random) -> Vec<Record> {
    let mut records = funcs_of_each_shape(random);
    records.extend(funcs_with_argument_custom_data(random));
    records.extend(funcs_of_single_bits(random));
    records.extend(funcs_with_defaults_in_the_fixed_part(random));
    records.extend(hostile_funcs(random));
    records
}

/// Functions with each number of attributes and few parameters, whose recorded size is less than,
/// equal to and more than their length.
fn funcs_of_each_shape(random: &mut Random) -> Vec<Record> {
    let mut records = Vec::new();
    for attributes in 0..=10 {
        for nrargs in 0..=2 {
            for bits in [0, CUSTOM_DATA, DEFAULT_VALUES, CUSTOM_DATA | DEFAULT_VALUES] {
                let len = func_len(attributes, nrargs, bits);
                let other_bits = random.number() as u32 & !(CUSTOM_DATA | DEFAULT_VALUES);
                for size in [len - 8, len, len + 8] {
                    let shape = FuncShape {
                        len,
                        size: size as u16,
                        fkccic: other_bits | bits,
                        nrargs: nrargs as i16,
                    };
                    records.push(shape.record(random.below(nrargs + 2) as u32, random));
                }
            }
        }
    }
    records
}

/// Functions that may hold custom data of their parameters, which are the attributes from the
/// eighth on, asked for each parameter and for one more.
fn funcs_with_argument_custom_data(random: &mut Random) -> Vec<Record> {
    let mut records = Vec::new();
    for attributes in 7..=10 {
        for nrargs in 1..=3 {
            for defaults in [0, DEFAULT_VALUES] {
                let len = func_len(attributes, nrargs, defaults);
                for index in 0..=nrargs {
                    let shape = FuncShape {
                        len,
                        size: len as u16,
                        fkccic: CUSTOM_DATA | defaults,
                        nrargs: nrargs as i16,
                    };
                    records.push(shape.record(index as u32, random));
                }
            }
        }
    }
    records
}

/// The length of a function's record with so many attributes and parameters.
fn func_len(attributes: usize, nrargs: usize, fkccic: u32) -> usize {
    let for_parameter = if fkccic & DEFAULT_VALUES != 0 { 16 } else { 12 };
    Kind::Func.fixed_part() + 4 * attributes + for_parameter * nrargs
}

/// Functions whose FKCCIC has a single bit set or a single bit clear.
fn funcs_of_single_bits(random: &mut Random) -> Vec<Record> {
    single_bits()
        .map(|fkccic| {
            let shape = FuncShape {
                len: 44,
                size: 44,
                fkccic,
                nrargs: 1,
            };
            shape.record(0, random)
        })
        .collect()
}

/// Functions whose default values begin in or before the fixed part: parameters and default values
/// take 16 bytes for each parameter, counted from the record's end.
fn funcs_with_defaults_in_the_fixed_part(random: &mut Random) -> Vec<Record> {
    let mut records = Vec::new();
    for nrargs in 1..=5 {
        let needed = 16 * nrargs;
        for len in [24, needed - 1, needed, needed + 1, needed + 20] {
            let len = len.max(Kind::Func.fixed_part());
            for index in [0, nrargs - 1] {
                let shape = FuncShape {
                    len,
                    size: len as u16,
                    fkccic: DEFAULT_VALUES,
                    nrargs: nrargs as i16,
                };
                records.push(shape.record(index as u32, random));
            }
        }
    }
    records
}

/// Functions whose recorded size, count of parameters and index contradict their length.
fn hostile_funcs(random: &mut Random) -> Vec<Record> {
    (0..160)
        .map(|_| {
            let len = 24 + random.below(80);
            let near = len as u16;
            let nrargs = random.one_of(&[i16::MIN, -1, 0, 1, 2, 3, 5, 100, 0x0AAB, i16::MAX]);
            let last = i32::from(nrargs) - 1;
            let shape = FuncShape {
                len,
                size: random.one_of(&[0, 23, 24, near - 1, near, near + 1, 0x0100, 0xFFFF]),
                fkccic: random.number() as u32,
                nrargs,
            };
            // Kept to 32 bits, the attribute of index u32::MAX - 6 would be the first.
            let arg = random.one_of(&[0, 1, last as u32, last as u32 + 1, u32::MAX - 6, u32::MAX]);
            shape.record(arg, random)
        })
        .collect()
}
