//! The edges of document 01, one input each.

use super::Input;
use super::large;
use super::layout::{self, Layout, set_word, words};
use crate::sheet::{MOST_BYTES, MOST_TYPES, PROGRAM_BYTES};

/// How many pointers the trees at the edge of "too deep" have.
const POINTERS: [usize; 6] = [1, 30, 31, 32, 33, 34];

/// Types and depth of libraries that hold many descriptions; the first takes seconds.
const HOSTILE: [(usize, usize); 4] = [(8_100, 32), (8_100, 33), (500, 32), (20, 32)];

/// A text that makes a sheet too long where it stands twice.
pub const TOO_LONG: usize = 12 << 20;

/// How many bytes of sheet the product's call makes in memory of its own.
const OWN_MEMORY: [usize; 2] = [16_384, 131_072];

/// Inputs of at most a little more than the sheet program takes.
pub fn small() -> Vec<Input> {
    let mut inputs = quick();
    for (types, levels) in HOSTILE {
        let name = format!("{types} types with trees of {levels}");
        inputs.push(Input::new(name, large::many_descriptions(types, levels)));
    }
    inputs
}

/// Those of them that ask for little work.
pub fn quick() -> Vec<Input> {
    let mut inputs = heads();
    inputs.extend(typeinfos());
    for pointers in POINTERS {
        for (word, end) in [
            ("base", 0x8000_0003),
            ("nothing", 0x7000_0000),
            ("itself", 0),
        ] {
            let name = format!("{pointers} pointers, then {word}");
            inputs.push(Input::new(name, alias(pointers, end)));
        }
    }
    for (word, end) in [
        ("ends", -1),
        ("comes round", 0),
        ("ends in a circle of one", 64),
    ] {
        let name = format!("a chain of five that {word}");
        inputs.push(Input::new(name, large::coclasses(2, 5, end)));
    }
    for length in [PROGRAM_BYTES - 1, PROGRAM_BYTES, PROGRAM_BYTES + 1] {
        inputs.push(Input::new(
            format!("a sheet of {length}"),
            large::sheet_of(length),
        ));
        inputs.push(Input::new(format!("{length} bytes"), padded(length)));
    }
    inputs
}

/// Inputs that only a call takes: as long as it takes them, and longer.
pub fn large() -> Vec<Input> {
    let mut inputs = Vec::new();
    for length in [MOST_BYTES - 1, MOST_BYTES, MOST_BYTES + 1] {
        inputs.push(Input::new(format!("{length} bytes"), padded(length)));
        inputs.push(Input::new(
            format!("a sheet of {length}"),
            large::sheet_of(length),
        ));
    }
    for count in [MOST_TYPES, MOST_TYPES + 1] {
        inputs.push(Input::new(
            format!("{count} types"),
            large::many_types(count),
        ));
    }
    inputs.extend(chains());
    inputs.extend(refused_late("too long", TOO_LONG));
    for length in OWN_MEMORY {
        for length in [length - 1, length, length + 1] {
            inputs.push(Input::new(
                format!("a sheet of {length}"),
                large::sheet_of(length),
            ));
        }
        let word = format!("a sheet past {length}");
        inputs.extend(refused_late(&word, length * 9 / 16));
    }
    for (word, bytes) in [
        ("many functions", large::many_functions(2)),
        (
            "overlapping tables, trees of 32",
            large::overlapping(4_000, 32),
        ),
        (
            "overlapping tables, trees of 33",
            large::overlapping(4_000, 33),
        ),
    ] {
        inputs.push(Input::new(word.into(), bytes));
    }
    inputs
}

/// Libraries of one type that cannot be read: its offset is negative, there is no table, or it has
/// a byte too few.
fn typeinfos() -> [Input; 3] {
    let mut negative = Layout::new(vec![-1]);
    negative.table(layout::TYPEINFOS, large::typeinfo(0, -1, 0));
    let mut short = Layout::new(vec![1]);
    short.table(layout::TYPEINFOS, large::typeinfo(0, -1, 0));
    [
        ("a typeinfo of a negative offset", negative),
        ("a typeinfo without a table", Layout::new(vec![0])),
        ("a typeinfo that is a byte short", short),
    ]
    .map(|(word, layout)| Input::new(word.into(), layout.bytes()))
}

/// Long chains that end or come round.
pub fn chains() -> impl Iterator<Item = Input> {
    [
        ("the longest chain", large::longest_chain(-1)),
        ("the longest chain, a circle", large::longest_chain(0)),
        (
            "a long chain, late a circle",
            large::longest_chain(16 * 1_000_000),
        ),
        ("a scattered chain", large::scattered_chain()),
        (
            "coclasses with one chain",
            large::coclasses(100, 50_000, -1),
        ),
    ]
    .into_iter()
    .map(|(word, bytes)| Input::new(word.into(), bytes))
}

/// Sheets that are as long as twice a text, and types behind that refuse for another reason.
fn refused_late(length: &str, text: usize) -> impl Iterator<Item = Input> {
    [
        ("a circle", large::typeinfo(5, 0, 0)),
        ("too deep", large::typeinfo(6, 0, 0)),
        ("a short typeinfo", Vec::new()),
        ("an enum", large::typeinfo(0, 0, 0)),
    ]
    .into_iter()
    .map(move |(word, last)| Input::new(format!("{length}, then {word}"), long_then(text, last)))
}

/// Headers and directories at their edges.
fn heads() -> Vec<Input> {
    let empty = Layout::new(Vec::new()).bytes();
    let mut with_help = Layout::new(Vec::new());
    with_help.header_word(layout::VARFLAGS, layout::HELP_DLL);
    let with_help = with_help.bytes();
    let mut inputs = Vec::new();
    for length in [0, 1, 3, 4, 83, 84, 323, 324] {
        let bytes = empty[..length].to_vec();
        inputs.push(Input::new(
            format!("{length} bytes of an empty library"),
            bytes,
        ));
    }
    for length in [327, 328] {
        let bytes = with_help[..length].to_vec();
        inputs.push(Input::new(
            format!("{length} bytes with the help flag"),
            bytes,
        ));
    }
    for count in [-1, i32::MIN, 1, 1 << 30, i32::MAX] {
        let mut bytes = empty.clone();
        set_word(&mut bytes, layout::COUNT, count as u32);
        inputs.push(Input::new(format!("a count of {count}"), bytes));
    }
    let mut bytes = empty.clone();
    bytes[3] ^= 0x20;
    inputs.push(Input::new("wrong magic".into(), bytes));
    inputs.push(Input::new(
        "no typeinfo table".into(),
        Layout::new(vec![0]).bytes(),
    ));
    let mut bytes = large::many_types(1);
    bytes.pop();
    inputs.push(Input::new("a typeinfo of 99 bytes".into(), bytes));
    inputs
}

/// An alias for this many pointers to what the type field `end` names.
pub fn alias(pointers: usize, end: u32) -> Vec<u8> {
    let mut descriptors = Vec::new();
    for level in 1..=pointers {
        let inner = if level == pointers {
            end
        } else {
            8 * level as u32
        };
        descriptors.extend(words([26, inner]));
    }
    let mut layout = Layout::new(vec![0]);
    layout.table(layout::TYPEINFOS, large::typeinfo(6, 0, 0));
    layout.table(layout::DESCRIPTORS, descriptors);
    layout.bytes()
}

/// A library without types, with bytes behind it that nothing names.
pub fn padded(length: usize) -> Vec<u8> {
    let mut bytes = Layout::new(Vec::new()).bytes();
    bytes.resize(length, 0xA5);
    bytes
}

/// A library whose second type has a text of that length twice; then comes a third that refuses.
/// An empty typeinfo stands for one whose offset is past the end.
pub fn long_then(text: usize, mut last: Vec<u8>) -> Vec<u8> {
    let third = if last.is_empty() { 1 << 25 } else { 200 };
    let mut layout = Layout::new(vec![0, 100, third]);
    let mut typeinfos = large::typeinfo(0, -1, 0);
    typeinfos.extend(large::typeinfo(0, -1, 2 << 16));
    typeinfos.append(&mut last);
    let mut constants = vec![8, 0];
    constants.extend((text as u32).to_le_bytes());
    constants.resize(6 + text, b'y');
    let mut block = words([40]);
    for _ in 0..2 {
        block.extend(words([20, 0x8003_0003, 0, 2, 0]));
    }
    layout.table(layout::TYPEINFOS, typeinfos);
    layout.table(layout::DESCRIPTORS, words([26, 0]));
    layout.table(layout::REFERENCES, words([0, 0, 0, 0]));
    let block = layout.block(block);
    layout.memoffset(100, block);
    layout.table(layout::CONSTANTS, constants);
    layout.bytes()
}
