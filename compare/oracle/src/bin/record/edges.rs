//! Document 01's edges, and those of document 02's references that hit no typeinfo. What they say of each stands here,
//! and the reference, or what is made from it, must say the same.
//!
//! Its refusals of more than 16,777,216 bytes and of more than 65,535 types are in no file: the bytes would
//! be too many.

use bounded::inputs::misplaced;
use bounded::library::{Ask, TYPE_DESCRIPTOR_SEGMENT, TYPEINFO_SEGMENT};
use bounded::sheet::places::{Field, Place};

use crate::libraries::Library;
use crate::made_libraries::{Made, TYPEINFO_SIZE, func, typeinfo, words};
use crate::questions::{of_word, question};

/// The bytes of a library that holds nothing: its header and its directory.
const EMPTY: usize = 324;

/// The bit at 0x14 that says that four more bytes follow the header.
const HELP_DLL: u32 = 0x100;

/// Constants, inline, and the answer to each: 0, the code in two bytes, and the value.
const CONSTANTS: [(u32, &[u8]); 5] = [
    (0x8000_0000, &[0, 0, 0]),
    (0x8800_FFFF, &[0, 2, 0, 0xFF, 0xFF]),
    (0x8C00_FFFF, &[0, 3, 0, 0xFF, 0xFF, 0, 0]),
    (0xC000_00FF, &[0, 16, 0, 0xFF]),
    (0xFFFF_FFFF, &[0, 3, 0, 0xFF, 0xFF, 0xFF, 3]),
];

/// References in a library of two typeinfos, and the answer to each: 0, 1 for a typeinfo of this
/// library, and its index; or 9.
const REFERENCES: [(u32, &[u8]); 4] = [
    (4, &[0, 1, 0, 0, 0, 0, 0, 0, 0, 0]),
    (100, &[0, 1, 1, 0, 0, 0, 0, 0, 0, 0]),
    (200, &[9]),
    (0x0100_0064, &[0, 1, 1, 0, 0, 0, 0, 0, 0, 0]),
];

/// The answers for the sheet of a library that holds nothing, each behind a 0: how many bytes it has, and these: type
/// count, body length 10, two words, no GUID, no name.
const EMPTY_SHEET: [&[u8]; 2] = [
    &[0, 18, 0, 0, 0, 0, 0, 0, 0],
    &[0, 0, 0, 0, 0, 10, 0, 0, 0, 0, 0, 0, 0, 0, 0, 0, 0, 0, 0],
];

pub fn libraries() -> Vec<Library> {
    let mut libraries = parsed();
    libraries.extend(sheets());
    libraries.extend(long_sheets());
    libraries.extend(of_words(Made::new(&[]), Ask::ConstValue, &CONSTANTS));
    libraries.extend(of_words(
        Made::new(&[0, 0]),
        Ask::ResolveHreftypeFull,
        &REFERENCES,
    ));
    libraries.extend(misplaced::WORKED.map(|(count, reference, written)| {
        let [length, sheet] = base_sheet(count, written);
        let library = base_library(count, reference);
        expect(library, Ask::Sheet, &[&length, &sheet])
    }));
    libraries.extend(funcs());
    libraries
}

/// A library whose first type is an interface of this base.
fn base_library(count: usize, reference: i32) -> Library {
    let place = Place {
        field: Field::InterfaceBase,
        around: None,
    };
    let asked = vec![of_word(Ask::ResolveHreftypeFull, reference as u32)];
    Library::asked(misplaced::library(count, place, reference), asked)
}

/// The answers for its sheet, each behind a 0: how many bytes it has, and these: type count, body lengths, the
/// library's body, and the types'. The first has its base between its fixed fields and its counts of members.
fn base_sheet(count: usize, written: &[u8]) -> [Vec<u8>; 2] {
    let mut sheet = words(&[count as u32, 10, 19 + written.len() as u32]);
    sheet.extend(words(&[19]).repeat(count - 1));
    sheet.extend([0; 10]);
    sheet.extend([3, 0, 0, 0, 0, 0, 0, 0, 0, 0, 0, 0, 0, 0, 0]);
    sheet.extend(written);
    sheet.extend([0; 4]);
    sheet.extend([0; 19].repeat(count - 1));
    let length = (sheet.len() as u64).to_le_bytes();
    [[&[0], &length[..]].concat(), [&[0], &sheet[..]].concat()]
}

/// What `parse` and a sheet reply to the first bytes of a library whose other bytes are zero.
fn parsed() -> Vec<Library> {
    let plain = start(0, 0);
    let with_help = start(HELP_DLL, 0);
    let negative = start(0, u32::MAX);
    [
        (&plain, 83, 2),
        (&plain, 84, 5),
        (&plain, EMPTY - 1, 5),
        (&plain, EMPTY, 0),
        (&with_help, EMPTY + 3, 5),
        (&with_help, EMPTY + 4, 0),
        (&negative, EMPTY, 4),
    ]
    .map(|(bytes, len, number)| {
        let library = Library::new(bytes[..len].to_vec(), Vec::new());
        let library = expect(library, Ask::Parse, &[&[number]]);
        match number {
            0 => expect(library, Ask::Sheet, &EMPTY_SHEET),
            _ => expect(library, Ask::Sheet, &[&[number]]),
        }
    })
    .into()
}

/// Refusals of a sheet, and a sheet that lies beside one: of its 75 bytes the tree has 34.
fn sheets() -> [Library; 3] {
    [
        (short_typeinfo(), [8].as_slice()),
        (nested(32), &[0, 75, 0, 0, 0, 0, 0, 0, 0]),
        (nested(33), &[11]),
    ]
    .map(|(bytes, answer)| expect(Library::asked(bytes, Vec::new()), Ask::Sheet, &[answer]))
}

/// Sheets of 17,118 bytes, 53 of them for each type and 4 for its length: longer than their libraries, and
/// than the memory in which the product makes the sheets of such short ones. There a last type must still be
/// refused.
fn long_sheets() -> [Library; 3] {
    const TYPES: usize = 300;
    let with_last = |offset| {
        let mut offsets = [0; TYPES];
        offsets[TYPES - 1] = offset;
        aliases(&offsets, 32)
    };
    [
        (with_last(0), [0, 0xDE, 0x42, 0, 0, 0, 0, 0, 0].as_slice()),
        (with_last(u32::MAX), &[6]),
        (with_last(1 << 25), &[8]),
    ]
    .map(|(bytes, answer)| expect(Library::asked(bytes, Vec::new()), Ask::Sheet, &[answer]))
}

/// A library whose one typeinfo has a byte too few.
fn short_typeinfo() -> Vec<u8> {
    let mut made = Made::new(&[0]);
    made.segment(TYPEINFO_SEGMENT, &typeinfo(3, 0, 0, 0, 0)[1..]);
    made.bytes()
}

/// A library with an alias whose tree nests that many descriptions.
fn nested(descriptions: u32) -> Vec<u8> {
    aliases(&[0], descriptions)
}

/// A library with typeinfos at these offsets, where at 0 there is an alias whose tree nests that many
/// descriptions: pointers, and a base inside them.
fn aliases(offsets: &[u32], descriptions: u32) -> Vec<u8> {
    const POINTER: u32 = 26;
    let mut made = Made::new(offsets);
    made.segment(TYPEINFO_SEGMENT, &typeinfo(6, 0, 0, 0, 0));
    let pointers = descriptions - 1;
    let words = (1..=pointers).flat_map(|number| {
        let inside = if number == pointers {
            0x8000_0003
        } else {
            8 * number
        };
        [POINTER, inside]
    });
    let bytes: Vec<u8> = words.flat_map(u32::to_le_bytes).collect();
    made.segment(TYPE_DESCRIPTOR_SEGMENT, &bytes);
    made.bytes()
}

/// A header with the magic, those flags and that count, and zeros behind it.
pub fn start(flags: u32, count: u32) -> Vec<u8> {
    let mut bytes = vec![0; EMPTY + 8];
    bytes[..4].copy_from_slice(b"MSFT");
    bytes[0x14..0x18].copy_from_slice(&flags.to_le_bytes());
    bytes[0x20..0x24].copy_from_slice(&count.to_le_bytes());
    bytes
}

/// The library once for each word, so that each question stands for itself.
fn of_words(made: Made, ask: Ask, words: &[(u32, &[u8])]) -> Vec<Library> {
    let bytes = made.bytes();
    words
        .iter()
        .map(|&(word, answer)| {
            let library = Library::asked(bytes.clone(), vec![of_word(ask, word)]);
            expect(library, ask, &[answer])
        })
        .collect()
}

/// A function of 23 bytes ends the functions, and one of 24 is yielded: its number is 0, and 1 is yielded then. Before
/// each answer stands how many are left.
fn funcs() -> Vec<Library> {
    [23, 24]
        .map(|size: u16| {
            let mut made = Made::new(&[0]);
            let mut block = 100u32.to_le_bytes().to_vec();
            block.extend(func(size, 0, 24));
            let block_at = made.put(&block);
            let at = made.segment(0, &typeinfo(3, block_at, 1, 0, 0)) as u32;
            let asked = vec![question(Ask::Funcs, [at, TYPEINFO_SIZE as u32, 0])];
            let library = Library::asked(made.bytes(), asked);
            let one_left = &[0, 1, 0, 0, 0, 0, 0, 0, 0];
            let none_left = &[0, 0, 0, 0, 0, 0, 0, 0, 0];
            let mut place = vec![0];
            place.extend((block_at as u64 + 4).to_le_bytes());
            place.extend(24u64.to_le_bytes());
            let number = &[0, 0, 0, 0, 0, 0, 0, 0, 0, 1, 0, 0, 0, 0, 0, 0, 0];
            match size {
                23 => expect(library, Ask::Funcs, &[one_left, &[9], one_left, &[9]]),
                _ => expect(
                    library,
                    Ask::Funcs,
                    &[one_left, &place, number, none_left, &[9]],
                ),
            }
        })
        .into()
}

/// The library, if the first answers to what is asked are the document's.
fn expect(library: Library, ask: Ask, answers: &[&[u8]]) -> Library {
    let (_, readings) = library
        .asked
        .answered
        .iter()
        .find(|(question, _)| question.ask == ask)
        .expect("the edge is asked for");
    for (reading, answer) in readings.iter().zip(answers) {
        assert_eq!(reading.answer, *answer, "the document's edge of {ask:?}");
    }
    library
}
