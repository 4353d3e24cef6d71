//! The tables that a sheet's fields name by offset: names, GUIDs, imports, references, type and
//! array descriptors, constants.

use super::{Character, Part};
use crate::inputs::{layout, misplaced};
use crate::random::Random;

/// The codes of type descriptors that name something else.
const POINTER: u32 = 26;
const SAFE_ARRAY: u32 = 27;
const C_ARRAY: u32 = 28;
const USER_DEFINED: u32 = 29;

const DESCRIPTOR_SIZE: usize = 8;
const REFERENCE_SIZE: usize = 16;

/// How many levels the deep chains of descriptors have; a tree holds 32.
const DEEP: [usize; 6] = [30, 31, 32, 33, 34, 40];

/// A table's bytes and the offsets of its entries.
#[derive(Default)]
struct Table {
    bytes: Vec<u8>,
    entries: Vec<i32>,
}

impl Table {
    fn push(&mut self, entry: &[u8]) {
        self.entries.push(self.bytes.len() as i32);
        self.bytes.extend(entry);
    }

    /// An entry's offset; now and then another.
    fn offset(&self, random: &mut Random) -> i32 {
        if self.entries.is_empty() || random.percent(8) {
            let end = self.bytes.len() as i32;
            return random.one_of(&[-1, i32::MIN, 0, 1, end - 1, end, end + 40, i32::MAX]);
        }
        random.one_of(&self.entries)
    }
}

/// The tables of one library, and how many types it has.
pub struct Tables {
    names: Table,
    guids: Table,
    import_files: Table,
    imports: Table,
    references: Table,
    descriptors: Table,
    arrays: Table,
    constants: Table,
    type_count: usize,
}

impl Tables {
    pub fn new(random: &mut Random, character: &Character, type_count: usize) -> Self {
        let mut tables = Tables {
            names: names(random),
            guids: guids(random),
            import_files: Table::default(),
            imports: Table::default(),
            references: Table::default(),
            descriptors: Table::default(),
            arrays: Table::default(),
            constants: constants(random),
            type_count,
        };
        tables.make_import_files(random);
        tables.make_imports(random);
        tables.make_references(random, character);
        tables.make_arrays(random);
        tables.make_descriptors(random, character);
        tables
    }

    /// The tables as parts of a library.
    pub fn parts(&self) -> Vec<Part> {
        [
            (layout::NAMES, &self.names),
            (layout::GUIDS, &self.guids),
            (layout::IMPORT_FILES, &self.import_files),
            (layout::IMPORTS, &self.imports),
            (layout::REFERENCES, &self.references),
            (layout::DESCRIPTORS, &self.descriptors),
            (layout::ARRAYS, &self.arrays),
            (layout::CONSTANTS, &self.constants),
        ]
        .map(|(segment, table)| (Some(segment), table.bytes.clone(), None))
        .into()
    }

    pub fn name(&self, random: &mut Random) -> i32 {
        self.names.offset(random)
    }

    pub fn guid(&self, random: &mut Random) -> i32 {
        self.guids.offset(random)
    }

    /// The offset of a reference record, where a coclass's chain begins.
    pub fn reference(&self, random: &mut Random) -> i32 {
        self.references.offset(random)
    }

    /// A type field: a base type, or a descriptor's offset.
    pub fn datatype(&self, random: &mut Random) -> i32 {
        if random.percent(30) {
            base(random)
        } else {
            self.descriptors.offset(random)
        }
    }

    /// A number that names a constant: an inline one of any code, or a stored one's offset.
    pub fn constant(&self, random: &mut Random) -> i32 {
        if random.percent(55) {
            return self.constants.offset(random);
        }
        let code = random.below(32) as u32;
        let any = random.number() as u32;
        let value = random.one_of(&[0, 1, 0xFF, 0xFFFF, 0x03FF_FFFF, any]);
        (0x8000_0000 | code << 26 | value & 0x03FF_FFFF) as i32
    }

    /// A reference to a type of this library, to an import, or to neither.
    pub fn hreftype(&self, random: &mut Random) -> i32 {
        let dispatch = random.one_of(&[0, 0, misplaced::MARK]);
        let number = match random.below(10) {
            0..4 => 100 * random.below(self.type_count + 1) as i32,
            4..8 => self.imports.offset(random) | (1 + random.below(3) as i32),
            8 => return misplaced::drawn(random, self.type_count),
            _ => random.one_of(&[-1, i32::MIN, i32::MAX, 0x0200_0000, 0x0200_0001]),
        };
        number | dispatch
    }

    fn make_import_files(&mut self, random: &mut Random) {
        for _ in 0..random.below(4) {
            let mut entry = self.guids.offset(random).to_le_bytes().to_vec();
            entry.extend(random.bytes(8));
            let length = random.one_of(&[0, 1, 2, 3, 11, 40]);
            let size_field = (length << 2 | random.below(4)) as u16;
            entry.extend(size_field.to_le_bytes());
            entry.extend(text(random, length));
            entry.resize(entry.len().next_multiple_of(4), b'W');
            self.import_files.push(&entry);
        }
    }

    fn make_imports(&mut self, random: &mut Random) {
        for _ in 0..random.below(6) {
            let flags = random.one_of(&[0, 0x1_0000, 0x0301_0000, 0x0300_0000, 0xFFFF_FFFF]);
            let file = self.import_files.offset(random) as u32;
            let guid = self.guids.offset(random) as u32;
            self.imports.push(&layout::words([flags, file, guid]));
        }
    }

    /// Chains run upward, so that they end, unless the library has circles. The last record mostly ends its chain:
    /// it seldom names what lies behind the table.
    fn make_references(&mut self, random: &mut Random, character: &Character) {
        let count = random.one_of(&[0, 1, 2, 3, 5, 8, 20, 300]);
        for index in 0..count {
            let next = match random.below(20) {
                0 | 1 => -1,
                2 if !character.circles => random.one_of(&[-2, i32::MIN, i32::MAX]),
                2 => (random.below(count) * REFERENCE_SIZE) as i32,
                3 => ((index + 1 + random.below(4)) * REFERENCE_SIZE) as i32,
                4..18 if index + 1 == count => -1,
                _ => ((index + 1) * REFERENCE_SIZE) as i32,
            };
            let [reference, flags, data] = [
                self.hreftype(random),
                random.number() as i32,
                random.number() as i32,
            ];
            let record = [reference, flags, data, next].map(|word| word as u32);
            self.references.push(&layout::words(record));
        }
    }

    /// Array descriptors come first; their elements name descriptors by offsets yet to be filled.
    fn make_arrays(&mut self, random: &mut Random) {
        for _ in 0..random.below(6) {
            let element = if random.percent(60) {
                base(random)
            } else {
                (random.below(3) * DESCRIPTOR_SIZE) as i32
            };
            let dimensions = random.one_of(&[0, 1, 1, 2, 3, 5, 40]);
            let declared = match random.below(20) {
                0 => dimensions + 1,
                1 => random.one_of(&[100, 5_000, 65_535]),
                _ => dimensions,
            };
            let mut entry = element.to_le_bytes().to_vec();
            entry.extend((declared as u16).to_le_bytes());
            entry.extend(random.bytes(2 + 8 * dimensions));
            self.arrays.push(&entry);
        }
    }

    fn make_descriptors(&mut self, random: &mut Random, character: &Character) {
        let count = random.one_of(&[0, 1, 3, 6, 12, 25]);
        for index in 0..count {
            let second = self.second(random, character, index);
            self.push_descriptor(random, second);
        }
        if character.deep {
            let levels = random.one_of(&DEEP);
            for _ in 0..levels {
                let inner = match self.descriptors.entries.last() {
                    Some(&before) if random.percent(97) => before as u32,
                    _ => base(random) as u32,
                };
                let code = random.one_of(&[POINTER, SAFE_ARRAY]);
                self.push_descriptor(random, (code, inner));
            }
            self.end_deep_chain(random);
        }
    }

    /// Has the deep chain's outermost descriptions be named often: by an array's element too.
    fn end_deep_chain(&mut self, random: &mut Random) {
        let outermost = *self.descriptors.entries.last().expect("a deep chain");
        self.arrays.push(&layout::words([outermost as u32, 0]));
        let array = *self.arrays.entries.last().expect("just made") as u32;
        if random.percent(50) {
            self.push_descriptor(random, (C_ARRAY, array));
        }
    }

    fn push_descriptor(&mut self, random: &mut Random, (code, second): (u32, u32)) {
        let noise = random.one_of(&[0, 0x7FFE_0000, 0xFFFF_F000]);
        self.descriptors
            .push(&layout::words([code | noise, second]));
    }

    /// The code and second word of the descriptor with this number. Descriptions run downward, so
    /// that they end, unless the library has loops.
    fn second(&self, random: &mut Random, character: &Character, index: usize) -> (u32, u32) {
        let noise = random.one_of(&[0, 0, 0x000A_0000, 0xFFFF_0000]);
        match random.below(10) {
            0..4 => {
                let code = random.one_of(&[POINTER, POINTER, SAFE_ARRAY]);
                (code, self.inner(random, character, index))
            }
            4 | 5 => (C_ARRAY, self.arrays.offset(random) as u32 & 0xFFFF | noise),
            6..9 => (USER_DEFINED, self.hreftype(random) as u32),
            _ => (random.number() as u32 & 0x0FFF, random.number() as u32),
        }
    }

    fn inner(&self, random: &mut Random, character: &Character, index: usize) -> u32 {
        if character.loops && random.percent(40) {
            return (random.below(index + 2) * DESCRIPTOR_SIZE) as u32;
        }
        match random.below(10) {
            0..6 if index > 0 => (random.below(index) * DESCRIPTOR_SIZE) as u32,
            9 => random.one_of(&[i32::MAX as u32, 0x10_0000, 0x7FFF_0000]),
            _ => base(random) as u32,
        }
    }
}

/// A type field that is a base type.
fn base(random: &mut Random) -> i32 {
    (random.number() as u32 | 0x8000_0000) as i32
}

/// Bytes of a text: half of the time of any kind, as names need no encoding.
fn text(random: &mut Random, length: usize) -> Vec<u8> {
    if random.percent(50) {
        return random.bytes(length);
    }
    (0..length).map(|_| b'a' + random.below(26) as u8).collect()
}

fn names(random: &mut Random) -> Table {
    let mut table = Table::default();
    for _ in 0..random.one_of(&[0, 1, 3, 8, 20]) {
        let length = random.one_of(&[0, 1, 2, 3, 4, 5, 9, 17, 255]);
        let mut entry = random.bytes(8);
        entry.extend([length as u8, 0, 0, 0]);
        entry.extend(text(random, length));
        entry.resize(entry.len().next_multiple_of(4), b'W');
        table.push(&entry);
    }
    table
}

fn guids(random: &mut Random) -> Table {
    let mut table = Table::default();
    for _ in 0..random.below(6) {
        table.push(&random.bytes(24));
    }
    table
}

/// Stored constants, of every code.
fn constants(random: &mut Random) -> Table {
    let mut table = Table::default();
    for _ in 0..random.one_of(&[0, 2, 6, 20, 40]) {
        let code = match random.below(20) {
            0 | 1 => 64,
            2 => random.number() as u16,
            3 => random.one_of(&[26, 63, 65, 0x100, 0x4008, u16::MAX]),
            4 | 5 => 8,
            _ => random.below(26) as u16,
        };
        let mut entry = code.to_le_bytes().to_vec();
        entry.extend(stored_value(random, code));
        table.push(&entry);
    }
    table
}

/// The bytes behind a stored constant's code, seldom cut short.
fn stored_value(random: &mut Random, code: u16) -> Vec<u8> {
    match code {
        4 => random
            .one_of(&[0x7FC0_0001, 0xFF80_0001, 0x8000_0000, 0x3F80_0000_u32])
            .to_le_bytes()
            .to_vec(),
        5 | 7 => random
            .one_of(&[
                0x7FF8_0000_0000_0001_u64,
                0xFFF0_0000_0000_0001,
                1 << 63,
                0x40E1_D5D0 << 32,
            ])
            .to_le_bytes()
            .to_vec(),
        8 => {
            let length = random.one_of(&[0, 1, 5, 60]);
            let said = random.one_of(&[length as i32, length as i32, -1, -2, i32::MIN, i32::MAX]);
            let mut bytes = said.to_le_bytes().to_vec();
            bytes.extend(text(random, length));
            bytes
        }
        11 => random
            .one_of(&[0_u16, 1, 0xFFFF, 0x0100])
            .to_le_bytes()
            .to_vec(),
        _ => {
            let width = random.one_of(&[4, 8, 16]);
            random.bytes(width)
        }
    }
}
