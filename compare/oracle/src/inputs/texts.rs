//! Libraries around one text: it is the library's name and help string, an import file's name, and
//! the name of a type's members. Real libraries hold hardly a text that is not ASCII.

use super::Input;
use super::large::typeinfo;
use super::layout::{self, Layout, words};
use super::records;
use crate::library::STRING_SEGMENT;
use crate::random::Random;

/// The place of the help string's offset in the header.
const HELP_STRING: usize = 0x24;

/// How long the lengths of a name and of an import file's name can be.
const LONGEST_NAME: usize = 0xFF;
const LONGEST_FILE_NAME: usize = 0x3FFF;

/// The library with each of the texts, which comes last in the file for one in three of them, and
/// the same without its last byte.
pub fn libraries(random: &mut Random) -> Vec<Input> {
    let mut inputs = Vec::new();
    for text in records::names(random).into_iter().chain(long()) {
        for last in 0..3 {
            let whole = library(&text, last);
            let cut = whole[..whole.len() - 1].to_vec();
            inputs.push(Input::new("a text".into(), whole));
            inputs.push(Input::new("a text, cut".into(), cut));
        }
    }
    inputs
}

/// Texts of many bytes, with a fault at their end or none.
fn long() -> impl Iterator<Item = Vec<u8>> {
    ["a", "\u{E9}", "\u{20AC}", "\u{1F600}"]
        .into_iter()
        .flat_map(|character| [10, 63, 200, 5_000, 16_000].map(|count| character.repeat(count)))
        .flat_map(|text| {
            let faulty = [text.as_bytes(), b"\xED\xA0\x80"].concat();
            [text.into_bytes(), faulty]
        })
}

/// A library with one type, whose function and variable bear the text as their name. Where the text
/// is longer than a name can be, a name is its beginning.
pub fn library(text: &[u8], last: usize) -> Vec<u8> {
    let own = name(b"own");
    let text_at = own.len() as u32;
    let short = &text[..text.len().min(LONGEST_NAME)];
    let mut tables = [
        (layout::NAMES, [own, name(short)].concat()),
        (STRING_SEGMENT, string(text)),
        (layout::IMPORT_FILES, import_file(text)),
    ];
    tables.rotate_left(last);

    let mut layout = Layout::new(vec![0]);
    layout.header_word(layout::NAME_OFFSET, text_at);
    layout.header_word(HELP_STRING, 0);
    layout.table(layout::TYPEINFOS, typeinfo(3, 1, 1 << 16 | 1));
    layout.table(layout::IMPORTS, words([0, 0, 0]));
    let block = layout.block(members(text_at));
    layout.memoffset(0, block);
    for (segment, bytes) in tables {
        layout.table(segment, bytes);
    }
    layout.bytes()
}

/// An entry of the name table that belongs to the typeinfo at offset 0.
fn name(text: &[u8]) -> Vec<u8> {
    let mut entry = words([0, u32::MAX, text.len() as u32 | 0x1234_0000]);
    entry.extend(text);
    entry.resize(entry.len().next_multiple_of(4), b'W');
    entry
}

fn string(text: &[u8]) -> Vec<u8> {
    [&(text.len() as u16).to_le_bytes(), text].concat()
}

fn import_file(text: &[u8]) -> Vec<u8> {
    let text = &text[..text.len().min(LONGEST_FILE_NAME)];
    let mut entry = words([0, 0, 0x0002_0001]);
    entry.extend(((text.len() << 2) as u16).to_le_bytes());
    entry.extend(text);
    entry.resize(entry.len().next_multiple_of(4), b'W');
    entry
}

/// A block of one function and one variable, their identifiers, and their names' offsets.
fn members(name_offset: u32) -> Vec<u8> {
    let function = words([24, 0x8018_0018, 1, 28, 0x421, 0]);
    let variable = words([20, 0x8003_0003, 0, 0, 0]);
    let behind = words([1, 2, name_offset, name_offset]);
    [words([24 + 20]), function, variable, behind].concat()
}
