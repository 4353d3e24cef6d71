//! Libraries whose figures are at their limit: each figure at the highest number that is told, one more, and far more.
//! Types share typeinfos, typeinfos blocks, and coclasses a chain, so that short libraries have as many. The figure
//! that a library is made for is known from how it is made.

use super::Input;
use super::large::{self, chain, typeinfo};
use super::layout::{self, Layout, TYPEINFO_SIZE, set_word, words};

/// The highest figure that is told.
const MOST: usize = 16_777_216;

/// The most functions or variables that a typeinfo declares.
const MOST_DECLARED: usize = 65_535;

/// So many types with a shared typeinfo and as many members, or records of a chain, make the highest figure; these
/// make a figure far above.
const TYPES: usize = 256;
const MORE_TYPES: usize = 384;

/// So many types with a function of as many parameters do too.
const PARAMETERS: usize = 4_096;
const MORE_WITH_PARAMETERS: usize = 6_144;

/// How far above the limit the length is that is far above; and one that has more than 32 bits.
const FAR: usize = 6 << 20;
const PAST_32_BITS: usize = (1 << 32) + 5;

/// How many variables of that one share a long text.
const LONG_TEXTS: usize = 400;

/// Type fields: a base type; an offset at which there is no descriptor.
const BASE: u32 = 0x8003_0003;
const NOTHING: u32 = 0x7000_0000;

/// The code of a descriptor that is a reference.
const REFERENCE_DESCRIPTOR: u32 = 29;

/// References of each code, in a library with one import: nothing, a typeinfo, an import, and no typeinfo.
const EACH_CODE: [u32; 4] = [-4_i32 as u32, 0, 1, 4];

/// The figures by their place among the five.
const LENGTH: usize = 0;
const FUNCTIONS: usize = 1;
const PARAMETER_COUNT: usize = 2;
const VARIABLES: usize = 3;
const REFERENCES: usize = 4;

/// A library, which of its figures it is made for, and that figure.
pub struct Made {
    pub input: Input,
    pub which: usize,
    pub figure: u64,
}

/// Each figure at the limit, one more, and far above. References stand once in trees and once in chains.
pub fn limits() -> impl Iterator<Item = Made> {
    let members = [(TYPES, 256), (TYPES, 257), (MORE_TYPES, 0)];
    let parameters = [(PARAMETERS, 0), (PARAMETERS, 1), (MORE_WITH_PARAMETERS, 0)];
    let records = [(TYPES, 0), (TYPES, 1), (MORE_TYPES, 0)];
    let lengths = [MOST, MOST + 1, MOST + FAR].map(|length| (length, large::sheet_of(length)));
    let lengths = lengths.into_iter();
    let lengths = lengths.chain([(PAST_32_BITS, long_texts(PAST_32_BITS))]);
    let lengths = lengths.map(|(length, bytes)| made(LENGTH, length, "a sheet", bytes));
    let functions = members.into_iter().map(|(types, rest)| {
        let figure = types * MOST_DECLARED + rest;
        made(
            FUNCTIONS,
            figure,
            "shared functions",
            functions(types, rest),
        )
    });
    let variables = members.into_iter().map(|(types, rest)| {
        let figure = types * MOST_DECLARED + rest;
        made(
            VARIABLES,
            figure,
            "shared variables",
            variables(types, rest),
        )
    });
    let trees = parameters.into_iter().flat_map(|(types, rest)| {
        let figure = types * PARAMETERS + rest;
        let nothing = shared_parameters(types, rest, [NOTHING; 4]);
        let references = shared_parameters(types, rest, [0, 8, 16, 24]);
        [
            made(PARAMETER_COUNT, figure, "trees of nothing", nothing),
            made(REFERENCES, figure, "trees of references", references),
        ]
    });
    let chains = records.into_iter().map(|(types, rest)| {
        let figure = types * (MOST / TYPES) + rest;
        made(
            REFERENCES,
            figure,
            "a shared chain",
            shared_chain(types, rest),
        )
    });
    let all = lengths.chain(functions).chain(variables);
    all.chain(trees).chain(chains)
}

fn made(which: usize, figure: usize, word: &str, bytes: Vec<u8>) -> Made {
    let name = format!("{word}, figure {which} of {figure}");
    Made {
        input: Input::new(name, bytes),
        which,
        figure: figure as u64,
    }
}

/// A library of so many types of the first typeinfo and one of the second.
fn with_types(types: usize, typeinfos: [Vec<u8>; 2]) -> Layout {
    let mut offsets = vec![0; types];
    offsets.push(TYPEINFO_SIZE as i32);
    let mut layout = Layout::new(offsets);
    layout.table(layout::TYPEINFOS, typeinfos.concat());
    layout
}

/// The same with one block for both typeinfos: as many of a record as can be declared, and nothing behind.
fn with_records(types: usize, typeinfos: [Vec<u8>; 2], record: Vec<u8>) -> Vec<u8> {
    let mut block = words([(MOST_DECLARED * record.len()) as u32]);
    block.extend(record.repeat(MOST_DECLARED));
    let mut layout = with_types(types, typeinfos);
    let block = layout.block(block);
    layout.memoffset(0, block);
    layout.memoffset(TYPEINFO_SIZE, block);
    layout.bytes()
}

/// Types with as many functions as can be declared, and one with the rest of them.
fn functions(types: usize, rest: usize) -> Vec<u8> {
    let typeinfos = [MOST_DECLARED, rest].map(|count| typeinfo(0, -1, count as u32));
    with_records(types, typeinfos, words([24, BASE, 0, 0, 0, 0]))
}

/// The same with variables.
fn variables(types: usize, rest: usize) -> Vec<u8> {
    let typeinfos = [MOST_DECLARED, rest].map(|count| typeinfo(0, -1, (count as u32) << 16));
    with_records(types, typeinfos, words([20, BASE, 0, 0, 0]))
}

/// Types with one function of many parameters, and one with the rest of them. The parameters' type fields are these in
/// turn; at 0, 8, 16 and 24 there is a reference of each code.
fn shared_parameters(types: usize, rest: usize, fields: [u32; 4]) -> Vec<u8> {
    let typeinfos = [1, 1].map(|count| typeinfo(0, -1, count));
    let mut layout = with_types(types, typeinfos);
    let descriptors = EACH_CODE.map(|reference| words([REFERENCE_DESCRIPTOR, reference]));
    layout.table(layout::DESCRIPTORS, descriptors.concat());
    layout.table(layout::IMPORTS, words([0, u32::MAX, 0]));
    for (typeinfo_at, count) in [(0, PARAMETERS), (TYPEINFO_SIZE, rest)] {
        let block = layout.block(function(count, fields));
        layout.memoffset(typeinfo_at, block);
    }
    layout.bytes()
}

/// The block of a function of so many parameters.
fn function(parameters: usize, fields: [u32; 4]) -> Vec<u8> {
    let size = (24 + 12 * parameters) as u32;
    let mut block = words([size, size, BASE, 0, 0, 0, parameters as u32]);
    for number in 0..parameters {
        block.extend(words([fields[number % 4], u32::MAX, 0]));
    }
    block
}

/// Coclasses that share a chain of references of each code, and one that begins at so many records before its end.
fn shared_chain(types: usize, rest: usize) -> Vec<u8> {
    let records = MOST / TYPES;
    let mut table = chain(records, -1);
    for number in 0..records {
        set_word(&mut table, 16 * number, EACH_CODE[number % 4]);
    }
    let begins = 16 * (records - rest) as i32;
    let mut layout = with_types(types, [typeinfo(5, 0, 0), typeinfo(5, begins, 0)]);
    layout.table(layout::IMPORTS, words([0, u32::MAX, 0]));
    layout.table(layout::REFERENCES, table);
    layout.bytes()
}

/// A library whose sheet would have so many bytes, far more than itself: variables share a long text.
fn long_texts(length: usize) -> Vec<u8> {
    // The contents, the library's body, the type's fixed fields; then of each variable neither memid nor name, a base
    // type, flags and kind, and its text's code, mark and length.
    let fixed = 12 + 10 + 19;
    let variable = 1 + 1 + 3 + 6 + 1 + 2 + 1 + 4;
    let texts = length - fixed - (LONG_TEXTS + 1) * variable;
    let (long, short) = (texts / LONG_TEXTS, texts % LONG_TEXTS);
    // The short text takes in the long one's head.
    let mut constants = vec![8, 0];
    constants.extend((short as u32).to_le_bytes());
    constants.extend([8, 0]);
    constants.extend((long as u32).to_le_bytes());
    constants.resize(12 + long, b'x');

    let record = |offset: u32| words([20, BASE, 0, 2, offset]);
    let mut block = words([20 * (LONG_TEXTS as u32 + 1)]);
    block.extend(record(6).repeat(LONG_TEXTS));
    block.extend(record(0));
    let mut layout = Layout::new(vec![0]);
    let count = LONG_TEXTS as u32 + 1;
    layout.table(layout::TYPEINFOS, typeinfo(0, -1, count << 16));
    layout.table(layout::CONSTANTS, constants);
    let block = layout.block(block);
    layout.memoffset(0, block);
    layout.bytes()
}
