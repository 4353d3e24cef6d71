//! Libraries whose size or sheet is at its limit, and small ones that ask for much work.

use super::layout::{self, HEADER_SIZE, Layout, TYPEINFO_SIZE, set_word, words};
use crate::sheet::{MOST_BYTES, MOST_TYPES, PROGRAM_BYTES};

const REFERENCE_SIZE: usize = 16;

/// The bytes of a library's header, directory and one typeinfo.
const FIXED: usize = HEADER_SIZE + 240 + TYPEINFO_SIZE;

/// A typeinfo of this kind with no GUID, no name, no block and the given base and counts.
pub fn typeinfo(kind: u32, base: i32, counts: u32) -> Vec<u8> {
    let mut bytes = vec![0; TYPEINFO_SIZE];
    for (at, value) in [
        (0x00, kind),
        (0x04, u32::MAX),
        (0x18, counts),
        (0x2C, u32::MAX),
        (0x34, u32::MAX),
        (0x54, base as u32),
    ] {
        set_word(&mut bytes, at, value);
    }
    bytes
}

/// A library of which all types are the same enum without members.
pub fn many_types(count: usize) -> Vec<u8> {
    let mut layout = Layout::new(vec![0; count]);
    layout.table(layout::TYPEINFOS, typeinfo(0, -1, 0));
    layout.bytes()
}

/// References one behind another, each naming the next; the last names `end`.
pub fn chain(count: usize, end: i32) -> Vec<u8> {
    let mut bytes = Vec::with_capacity(count * REFERENCE_SIZE);
    for index in 0..count {
        let next = match index + 1 == count {
            true => end,
            false => ((index + 1) * REFERENCE_SIZE) as i32,
        };
        bytes.extend(words([0, index as u32, u32::MAX, next as u32]));
    }
    bytes
}

/// Coclasses that all begin at the first reference of one chain.
pub fn coclasses(types: usize, references: usize, end: i32) -> Vec<u8> {
    let mut layout = Layout::new(vec![0; types]);
    layout.table(layout::TYPEINFOS, typeinfo(5, 0, 0));
    layout.table(layout::REFERENCES, chain(references, end));
    layout.bytes()
}

/// A library of the longest length with one chain through it; the last reference names `end`.
pub fn longest_chain(end: i32) -> Vec<u8> {
    let mut bytes = coclasses(1, (MOST_BYTES - FIXED - 4) / REFERENCE_SIZE, end);
    bytes.resize(MOST_BYTES, 0);
    bytes
}

/// A chain through a library of the longest length that skips about, so that every step leaves
/// the processor's caches.
pub fn scattered_chain() -> Vec<u8> {
    let count = (MOST_BYTES - FIXED - 4) / REFERENCE_SIZE;
    // Steps of a number that shares no factor with the count pass every record once.
    let stride = (1..)
        .map(|k| 611_953 + k)
        .find(|k| common_factor(*k, count) == 1);
    let stride = stride.expect("some number shares no factor");
    let mut table = chain(count, -1);
    for index in 0..count {
        let next = (index + stride) % count;
        let next = if next == 0 {
            u32::MAX
        } else {
            (next * REFERENCE_SIZE) as u32
        };
        set_word(&mut table, index * REFERENCE_SIZE + 12, next);
    }
    let mut layout = Layout::new(vec![0]);
    layout.table(layout::TYPEINFOS, typeinfo(5, 0, 0));
    layout.table(layout::REFERENCES, table);
    layout.bytes()
}

fn common_factor(one: usize, two: usize) -> usize {
    if two == 0 {
        one
    } else {
        common_factor(two, one % two)
    }
}

/// A library of about the longest length that is nearly all names, none of them a member's of its one type.
pub fn many_names() -> Vec<u8> {
    let entry = words([
        u32::MAX,
        u32::MAX,
        8,
        u32::from_le_bytes(*b"draw"),
        u32::from_le_bytes(*b"next"),
    ]);
    let count = (MOST_BYTES - FIXED - 4) / entry.len();
    let mut layout = Layout::new(vec![0]);
    layout.table(layout::TYPEINFOS, typeinfo(0, -1, 0));
    layout.table(layout::NAMES, entry.repeat(count));
    layout.bytes()
}

/// A type with as many functions as it can declare, each with parameters, defaults and names.
pub fn many_functions(params: usize) -> Vec<u8> {
    let size = 24 + 16 * params;
    let mut record = words([
        size as u32,
        0x8018_0018,
        1,
        28,
        0x1000 | 0x421,
        params as u32,
    ]);
    for param in 0..params {
        record.extend(words([0x8C00_0000 | param as u32]));
    }
    for param in 0..params {
        record.extend(words([0, 0, if param == 0 { 0x21 } else { 1 }]));
    }
    let mut block = words([(size * MOST_TYPES) as u32]);
    for _ in 0..MOST_TYPES {
        block.extend(&record);
    }
    block.extend((0..MOST_TYPES as u32).flat_map(u32::to_le_bytes));
    block.extend([0; 4 * MOST_TYPES]);

    let mut layout = Layout::new(vec![0]);
    layout.table(layout::TYPEINFOS, typeinfo(3, 0, MOST_TYPES as u32));
    layout.table(
        layout::NAMES,
        words([0, 0, 4, u32::from_le_bytes(*b"draw")]),
    );
    layout.table(layout::DESCRIPTORS, words([26, 8, 29, 0]));
    let block = layout.block(block);
    layout.memoffset(0, block);
    layout.bytes()
}

/// A library that the sheet program takes and that holds hundreds of millions of descriptions:
/// every type is the same one, with one function whose parameters are all as deep as a tree may
/// be. `levels` is the depth of the trees; above 32 they are refused.
pub fn many_descriptions(types: usize, levels: usize) -> Vec<u8> {
    let descriptors = pointers(levels);
    let before = FIXED + 4 * (types - 1) + descriptors.len() + 4 + 24;
    let params = (PROGRAM_BYTES - before) / 12;
    let size = 24 + 12 * params;
    let mut block = words([size as u32, size as u32, 0, 0, 0, 0, params as u32]);
    for _ in 0..params {
        block.extend(words([0, u32::MAX, 0]));
    }

    let mut layout = Layout::new(vec![0; types]);
    layout.table(layout::TYPEINFOS, typeinfo(4, -1, 1));
    layout.table(layout::DESCRIPTORS, descriptors);
    let block = layout.block(block);
    layout.memoffset(0, block);
    layout.bytes()
}

/// The same with billions of descriptions: the offset table is also the table of parameters, and
/// the header the function's fixed part.
pub fn overlapping(types: usize, levels: usize) -> Vec<u8> {
    let table = 4 * types;
    let mut layout = Layout::new(vec![0; types]);
    let record_size = HEADER_SIZE - 4 + table;
    layout.header_word(0x04, record_size as u32);
    layout.header_word(0x18, (table / 12) as u32);
    let mut typeinfo = typeinfo(0, -1, 1);
    set_word(&mut typeinfo, 0x04, 0);
    layout.table(layout::TYPEINFOS, typeinfo);
    layout.table(layout::DESCRIPTORS, pointers(levels));
    layout.bytes()
}

/// Type descriptors of pointers, of which the first is a tree of this many descriptions.
pub fn pointers(levels: usize) -> Vec<u8> {
    let mut descriptors = Vec::new();
    for level in 1..levels {
        let inner = match level + 1 == levels {
            true => 0x8000_0018,
            false => 8 * level as u32,
        };
        descriptors.extend(words([26, inner]));
    }
    descriptors
}

/// A library whose sheet has this many bytes: two constants share one text, so that the library
/// stays shorter than its sheet.
pub fn sheet_of(length: usize) -> Vec<u8> {
    // The contents, the library's body, the type's fixed fields, two variables and their texts'
    // codes and lengths.
    let fixed = 12 + 10 + 19 + 2 * (5 + 1 + 3 + 6) + 2 * (1 + 2 + 5);
    let texts = length - fixed;
    let first = texts / 2;
    let second = texts - first;
    // The second constant's head lies before the first's; its text takes in that head.
    let between = 6;
    let mut constants = vec![8, 0];
    constants.extend((second as u32).to_le_bytes());
    constants.extend([8, 0]);
    constants.extend((first as u32).to_le_bytes());
    constants.resize(between + 6 + first.max(second), b'x');

    let var = |offset: u32| words([20, 0x8003_0003, 0, 2, offset]);
    let mut block = words([40]);
    block.extend(var(0));
    block.extend(var(between as u32));
    block.extend([0; 8]);
    block.extend([0xFF; 8]);
    let mut layout = Layout::new(vec![0]);
    layout.table(layout::TYPEINFOS, typeinfo(0, -1, 2 << 16));
    let block = layout.block(block);
    layout.table(layout::CONSTANTS, constants);
    layout.memoffset(0, block);
    layout.bytes()
}
