//! Libraries made up from scratch. Real libraries leave much out (no float or date constants, no
//! dispatch bit, no cut tables), and damage seldom hits what only a few bytes decide.

mod members;
mod tables;

use super::layout::{self, Layout, TYPEINFO_SIZE};
use crate::random::Random;
use members::Members;
use tables::Tables;

/// The most bytes cut off a library's end.
const MOST_CUT_OFF: usize = 60;

/// What a library has that refuses it or that is rare. Each is decided once for a library: decided
/// at every record, it would be in nearly all of them.
struct Character {
    loops: bool,
    circles: bool,
    deep: bool,
    wrong_sizes: bool,
    wrong_counts: bool,
    wrong_offsets: bool,
    wrong_directory: bool,
}

impl Character {
    fn new(random: &mut Random) -> Self {
        Character {
            loops: random.percent(5),
            circles: random.percent(6),
            deep: random.percent(10),
            wrong_sizes: random.percent(15),
            wrong_counts: random.percent(15),
            wrong_offsets: random.percent(4),
            wrong_directory: random.percent(25),
        }
    }
}

/// A made-up library.
pub fn library(random: &mut Random) -> Vec<u8> {
    let character = Character::new(random);
    let count = random.one_of(&[0, 1, 1, 2, 3, 4, 5, 6, 8, 12, 40]);
    let tables = Tables::new(random, &character, count);
    let mut layout = Layout::new(offsets(random, &character, count));
    header(random, &tables, &mut layout);

    let members: Vec<Members> = (0..count)
        .map(|_| Members::new(random, &character, &tables))
        .collect();
    let mut parts = tables.parts();
    let typeinfos = members
        .iter()
        .flat_map(|members| typeinfo(random, &tables, members))
        .collect();
    parts.push((Some(layout::TYPEINFOS), typeinfos, None));
    for (index, members) in members.into_iter().enumerate() {
        if !members.block.is_empty() {
            parts.push((None, members.block, Some(index)));
        }
    }
    place(random, &character, parts, &mut layout);
    let mut file = layout.bytes();
    change_end(random, &mut file);
    file
}

/// A part of the library: its segment, its bytes, and the type whose block it is.
type Part = (Option<usize>, Vec<u8>, Option<usize>);

/// Puts the parts into the file in any order, so that each is the last in some library.
fn place(random: &mut Random, character: &Character, mut parts: Vec<Part>, layout: &mut Layout) {
    while !parts.is_empty() {
        let (segment, bytes, owner) = parts.swap_remove(random.below(parts.len()));
        match segment {
            None => {
                let block = layout.block(bytes);
                let owner = owner.expect("a block belongs to a type");
                layout.memoffset(owner * TYPEINFO_SIZE, block);
            }
            Some(layout::TYPEINFOS) => {
                layout.table(layout::TYPEINFOS, bytes);
            }
            // A typeinfo table is left out by damage; without it no block could be named.
            Some(segment) if character.wrong_directory && random.percent(15) => {
                let length = random.one_of(&[0, -1, 1, 12, 14, bytes.len() as i32 - 1, i32::MAX]);
                layout.table(segment, bytes);
                layout.length(segment, length);
            }
            Some(segment) => {
                layout.table(segment, bytes);
            }
        }
    }
}

/// The words of the offset table: mostly every 100 bytes, as compilers place typeinfos.
fn offsets(random: &mut Random, character: &Character, count: usize) -> Vec<i32> {
    (0..count)
        .map(|index| {
            let own = (index * TYPEINFO_SIZE) as i32;
            if character.wrong_offsets && random.percent(30) {
                random.one_of(&[-1, i32::MIN, i32::MAX, own + 4, own + 1, own + 65_536])
            } else if random.percent(5) {
                (random.below(count) * TYPEINFO_SIZE) as i32
            } else {
                own
            }
        })
        .collect()
}

fn header(random: &mut Random, tables: &Tables, layout: &mut Layout) {
    for at in [0x04, 0x0C, 0x10, 0x18, 0x1C, 0x24, 0x28, 0x2C, 0x4C, 0x50] {
        layout.header_word(at, random.number() as u32);
    }
    let help_dll = random.one_of(&[0, layout::HELP_DLL]);
    layout.header_word(layout::VARFLAGS, 0x41 | help_dll);
    layout.header_word(layout::GUID_OFFSET, tables.guid(random) as u32);
    layout.header_word(layout::NAME_OFFSET, tables.name(random) as u32);
}

/// A typeinfo's bytes; the place of its block is filled in later.
fn typeinfo(random: &mut Random, tables: &Tables, members: &Members) -> Vec<u8> {
    let kind = match random.below(12) {
        any @ 0..=7 => any as u32,
        8 => 8 + random.below(8) as u32,
        9 => 5,
        10 => 6,
        _ => 3,
    };
    let base = match kind {
        3 | 4 => tables.hreftype(random),
        5 => tables.reference(random),
        6 => tables.datatype(random),
        _ => random.number() as i32,
    };
    let mut bytes = random.bytes(TYPEINFO_SIZE);
    let noise = random.one_of(&[0, 0x2100, 0xFFFF_FFF0]);
    for (at, value) in [
        (0x00, kind | noise),
        (0x04, u32::MAX),
        (0x18, members.declared()),
        (0x2C, tables.guid(random) as u32),
        (0x34, tables.name(random) as u32),
        (0x54, base as u32),
    ] {
        layout::set_word(&mut bytes, at, value);
    }
    bytes
}

/// Cuts some bytes off the file's end, or puts some there.
fn change_end(random: &mut Random, file: &mut Vec<u8>) {
    match random.below(10) {
        0..3 => {
            let cut = random.below(MOST_CUT_OFF);
            file.truncate(file.len() - cut.min(file.len()));
        }
        3 => {
            let count = random.below(MOST_CUT_OFF);
            file.extend(random.bytes(count));
        }
        _ => {}
    }
}
