//! The edges of document 01, one whole sheet written out by hand, and whole sheets around document 02's code 3.

use super::places::{C_ARRAY, Field, Place, SAFE_ARRAY};
use super::{MOST_BYTES, MOST_TYPES, program_line, refusal, sheet};
use crate::inputs::edges::{TOO_LONG, alias, long_then};
use crate::inputs::large::{self, typeinfo};
use crate::inputs::layout::{self, Layout, set_word, word, words};
use crate::inputs::misplaced;

/// The magic, then zeros.
fn zeros(length: usize) -> Vec<u8> {
    let mut bytes = vec![0; length];
    bytes[..4].copy_from_slice(b"MSFT");
    bytes
}

fn reply(bytes: &[u8]) -> Result<Vec<u8>, u8> {
    sheet(bytes, MOST_BYTES)
}

#[test]
fn the_shortest_library_prints_as_document_01_says() {
    assert_eq!(
        program_line(&zeros(324)),
        "000000000a00000000000000000000000000"
    );
}

#[test]
fn headers_at_their_edges() {
    assert_eq!(reply(&zeros(83)), Err(refusal::SHORT_HEADER));
    assert_eq!(reply(&[]), Err(refusal::SHORT_HEADER));
    assert_eq!(reply(&zeros(84)), Err(refusal::SHORT_DIRECTORY));
    assert_eq!(reply(&zeros(323)), Err(refusal::SHORT_DIRECTORY));
    assert_eq!(reply(&[0; 400]), Err(refusal::WRONG_MAGIC));
    let mut help = zeros(328);
    set_word(&mut help, layout::VARFLAGS, layout::HELP_DLL);
    assert_eq!(reply(&help[..327]), Err(refusal::SHORT_DIRECTORY));
    assert_eq!(reply(&help).map(|sheet| sheet.len()), Ok(18));
    for (count, number) in [
        (-1, refusal::BAD_COUNT),
        (i32::MIN, refusal::BAD_COUNT),
        (1 << 30, refusal::SHORT_DIRECTORY),
        (1, refusal::SHORT_DIRECTORY),
    ] {
        let mut bytes = zeros(324);
        set_word(&mut bytes, layout::COUNT, count as u32);
        assert_eq!(reply(&bytes), Err(number), "{count}");
    }
}

#[test]
fn inputs_too_long() {
    assert_eq!(reply(&zeros(MOST_BYTES)).map(|sheet| sheet.len()), Ok(18));
    assert_eq!(reply(&zeros(MOST_BYTES + 1)), Err(refusal::OVER_LONG));
    assert_eq!(program_line(&zeros(65_536)).len(), 36);
    assert_eq!(program_line(&zeros(65_537)), "refused 1");
}

#[test]
fn typeinfos_that_are_not_there() {
    let with_offset = |offset| {
        let mut layout = Layout::new(vec![offset]);
        layout.table(layout::TYPEINFOS, typeinfo(0, -1, 0));
        layout.bytes()
    };
    assert_eq!(reply(&with_offset(-1)), Err(refusal::NO_SUCH_TYPEINFO));
    assert_eq!(reply(&with_offset(1)), Err(refusal::SHORT_TYPEINFO));
    assert_eq!(reply(&with_offset(i32::MAX)), Err(refusal::SHORT_TYPEINFO));
    assert!(reply(&with_offset(0)).is_ok());
    let without_table = Layout::new(vec![0]).bytes();
    assert_eq!(reply(&without_table), Err(refusal::NO_TYPEINFO_TABLE));
    // A negative word comes before the missing table.
    let without_either = Layout::new(vec![-1]).bytes();
    assert_eq!(reply(&without_either), Err(refusal::NO_SUCH_TYPEINFO));
}

#[test]
fn too_many_types() {
    let most = reply(&large::many_types(MOST_TYPES)).expect("as many as a sheet holds");
    assert_eq!(word(&most, 0) as usize, MOST_TYPES);
    assert_eq!(most.len(), 8 + 4 * MOST_TYPES + 10 + 19 * MOST_TYPES);
    let more = large::many_types(MOST_TYPES + 1);
    assert_eq!(reply(&more), Err(refusal::TOO_MANY_TYPES));
}

#[test]
fn trees_at_their_depth() {
    let (base, nothing) = (0x8000_0003, 0x7000_0000);
    for end in [base, nothing] {
        assert!(reply(&alias(31, end)).is_ok());
        assert_eq!(reply(&alias(32, end)), Err(refusal::TOO_DEEP));
    }
    assert_eq!(reply(&alias(1, 0)), Err(refusal::TOO_DEEP));
    assert_eq!(reply(&alias(7, 8)), Err(refusal::TOO_DEEP));
}

#[test]
fn chains_that_end_and_chains_that_come_round() {
    let count = |bytes: &[u8]| reply(bytes).map(|sheet| word(&sheet, 12 + 10 + 15));
    assert_eq!(count(&large::coclasses(1, 5, -1)), Ok(5));
    // Past the file's end there is no record, and no refusal.
    assert_eq!(count(&large::coclasses(1, 5, 5 * 16)), Ok(5));
    for back_to in 0..5 {
        let circle = large::coclasses(1, 5, back_to * 16);
        assert_eq!(reply(&circle), Err(refusal::CIRCLE), "{back_to}");
    }
    assert_eq!(count(&large::coclasses(1, 100_000, -1)), Ok(100_000));
    let late = large::coclasses(1, 100_000, 16 * 99_998);
    assert_eq!(reply(&late), Err(refusal::CIRCLE));
}

#[test]
fn a_sheet_that_is_too_long_is_refused_last() {
    for length in [MOST_BYTES - 1, MOST_BYTES] {
        assert_eq!(
            reply(&large::sheet_of(length)).map(|sheet| sheet.len()),
            Ok(length)
        );
    }
    assert_eq!(
        reply(&large::sheet_of(MOST_BYTES + 1)),
        Err(refusal::NO_SPACE)
    );
    assert!(sheet(&large::sheet_of(500), 500).is_ok());
    for room in [0, 1, 11, 22, 499] {
        assert_eq!(sheet(&large::sheet_of(500), room), Err(refusal::NO_SPACE));
    }
    let circle = long_then(TOO_LONG, typeinfo(5, 0, 0));
    assert_eq!(reply(&circle), Err(refusal::CIRCLE));
    assert_eq!(sheet(&circle, 0), Err(refusal::CIRCLE));
    assert_eq!(
        reply(&long_then(TOO_LONG, typeinfo(6, 0, 0))),
        Err(refusal::TOO_DEEP)
    );
    assert_eq!(
        reply(&long_then(TOO_LONG, Vec::new())),
        Err(refusal::SHORT_TYPEINFO)
    );
    assert_eq!(
        reply(&long_then(TOO_LONG, typeinfo(0, 0, 0))),
        Err(refusal::NO_SPACE)
    );
}

/// Inline and stored constants of document 01's edges, as the sheet writes them.
#[test]
fn constants_at_their_own_width() {
    for (number, written) in [
        (0x8000_0000, vec![1, 0, 0]),
        (0x8800_FFFF, vec![1, 2, 0, 0xFF, 0xFF]),
        (0x8C00_FFFF, vec![1, 3, 0, 0xFF, 0xFF, 0, 0]),
        (0xC000_00FF, vec![1, 16, 0, 0xFF]),
        (0xFFFF_FFFF, vec![1, 3, 0, 0xFF, 0xFF, 0xFF, 3]),
        (0xAC00_0002, vec![1, 11, 0, 1]),
        (0, vec![1, 2, 0, 0x34, 0x12]),
        (6, vec![1, 4, 0, 1, 0, 0x80, 0x7F]),
        (12, vec![1, 8, 0, 0]),
        (18, vec![0]),
        (24, vec![1, 8, 0, 1, 2, 0, 0, 0, b'o', b'k']),
        (32, vec![1, 0xE7, 3, 1, 2, 3, 4]),
        (38, vec![0]),
    ] {
        assert_eq!(constant(number), written, "{number:#x}");
    }
}

/// The part of a sheet that a variable's constant takes.
fn constant(number: u32) -> Vec<u8> {
    let mut stored = vec![2, 0, 0x34, 0x12, 0x56, 0x78];
    stored.extend([4, 0, 1, 0, 0x80, 0x7F]);
    stored.extend([8, 0, 0xFF, 0xFF, 0xFF, 0xFF]);
    stored.extend([8, 0, 0xFE, 0xFF, 0xFF, 0xFF]);
    stored.extend([8, 0, 2, 0, 0, 0, b'o', b'k']);
    stored.extend([0xE7, 3, 1, 2, 3, 4]);
    stored.extend([5, 0, 1, 2, 3, 4, 5, 6, 7]);
    let mut layout = Layout::new(vec![0]);
    layout.table(layout::TYPEINFOS, typeinfo(0, -1, 1 << 16));
    let mut block = words([20, 20, 0x8003_0003, 0, 2, number]);
    block.extend(words([7, u32::MAX]));
    let block = layout.block(block);
    layout.memoffset(0, block);
    layout.table(layout::CONSTANTS, stored);
    let sheet = reply(&layout.bytes()).expect("it is read");
    sheet[12 + 10 + 19 + 5 + 1 + 3 + 6..].to_vec()
}

/// An interface of this base with a function, a parameter, a variable, an import, a C array, names and GUIDs.
fn rich(base: i32) -> Vec<u8> {
    let mut layout = Layout::new(vec![0]);
    layout.header_word(0x0C, 0x0409);
    layout.header_word(0x18, 3);
    layout.table(layout::TYPEINFOS, typeinfo(3, base, 1 << 16 | 1));
    layout.table(layout::GUIDS, (0..24).collect());
    layout.table(
        layout::NAMES,
        [words([0, 0, 2]), b"ab\0\0".to_vec()].concat(),
    );
    layout.table(layout::DESCRIPTORS, words([26, 8, 29, 1, 28, 0]));
    layout.table(layout::ARRAYS, words([0x8003_0003, 1, 2, u32::MAX]));
    layout.table(layout::IMPORTS, words([0x1_0000, 0, 0]));
    let file = [
        words([u32::MAX, 7, 0x0002_0001]),
        b"\x0C\0f.b\0\0\0".to_vec(),
    ];
    layout.table(layout::IMPORT_FILES, file.concat());
    let block = [
        words([60]),
        words([40, 0, 4, 28, 0x1021, 1, 0x8C00_0009, 16, 0, 0x20]),
        words([20, 0x8003_0003, 0, 0, 16]),
        words([5, 6, 0, u32::MAX]),
    ];
    let block = layout.block(block.concat());
    layout.memoffset(0, block);
    layout.bytes()
}

/// Without a reference that hits no typeinfo a sheet is what it was before document 02.
#[test]
fn a_whole_sheet_by_hand() {
    assert_eq!(reply(&rich(0x0100_0000)), Ok(rich_sheet(&[1, 1, 0, 0])));
}

/// With one, its own bytes and the length of its type's body are all that is another.
#[test]
fn the_same_sheet_with_a_base_that_hits_no_typeinfo() {
    let misplaced = rich_sheet(&[3, 1, 4, 0, 0, 0]);
    assert_eq!(reply(&rich(0x0100_0004)), Ok(misplaced));
}

/// The sheet of that library, its base being these bytes.
fn rich_sheet(base: &[u8]) -> Vec<u8> {
    let guid = (0..16).collect::<Vec<u8>>();
    let name = vec![1, 2, b'a', b'b'];
    let library = [words([0x0409, 3]), vec![1], guid.clone(), name.clone()].concat();
    let import = [
        vec![2, 0, 0, 0, 1, 0, 1],
        guid,
        vec![1, 0],
        words([7, 0x0002_0001]),
        vec![3, 0, b'f', b'.', b'b'],
    ];
    let typeinfo = [
        // Kind, flags, version, no GUID, no name, declared counts.
        vec![3, 0, 0, 0, 0, 0, 0, 0, 0, 0, 0, 1, 0, 1, 0],
        base.to_vec(),
        // One function: memid, name, a pointer to an import.
        vec![1, 0, 1, 5, 0, 0, 0],
        name.clone(),
        vec![2, 5],
        import.concat(),
        // Flags, slot, FKCCIC, arguments, optional ones.
        vec![4, 0, 0, 0, 28, 0, 0x21, 0x10, 0, 0, 1, 0, 0, 0],
        // One parameter: an array of two from -1, name, flags, default.
        vec![1, 0, 4, 1, 0, 2, 0, 0, 0, 0xFF, 0xFF, 0xFF, 0xFF, 1, 3, 0],
        name,
        vec![0x20, 0, 0, 0, 1, 3, 0, 9, 0, 0, 0],
        // One variable: memid, no name, base, flags, kind, offset.
        vec![
            1, 0, 1, 6, 0, 0, 0, 0, 1, 3, 0, 0, 0, 0, 0, 0, 0, 16, 0, 0, 0,
        ],
    ]
    .concat();
    let contents = words([1, library.len() as u32, typeinfo.len() as u32]);
    [contents, library, typeinfo].concat()
}

/// More references beside the worked cases, by the same words.
const REFERENCES: [(usize, i32, &[u8]); 9] = [
    // Before the range of the index is looked at.
    (1, 96, &[3, 0, 96, 0, 0, 0]),
    (1, 0x0100_0068, &[3, 1, 104, 0, 0, 0]),
    (1, 0x7FFF_FFFC, &[3, 1, 0xFC, 0xFF, 0xFF, 0x7E]),
    // A multiple of 100 as before, without the bit alone.
    (1, 0, &[1, 0, 0, 0]),
    (1, 0x0100_0000, &[1, 1, 0, 0]),
    (1, 100, &[0]),
    (1, 0x0100_0054, &[3, 1, 84, 0, 0, 0]),
    // An import, of which there are none.
    (2, 5, &[0]),
    (2, 0x0100_0005, &[0]),
];

#[test]
fn references_that_hit_no_typeinfo_are_told_in_every_field() {
    for (count, reference, written) in misplaced::WORKED.into_iter().chain(REFERENCES) {
        for place in Place::all() {
            let library = misplaced::library(count, place, reference);
            let right = sheet_around(count, place, written);
            assert_eq!(reply(&library), Ok(right), "{reference:#x} in {place}");
        }
    }
}

/// The whole sheet of a library whose first type holds a reference of these bytes in this place.
fn sheet_around(count: usize, place: Place, written: &[u8]) -> Vec<u8> {
    let first = type_around(place, written);
    let other = [0; 19];
    let mut sheet = words([count as u32, 10, first.len() as u32]);
    for _ in 1..count {
        sheet.extend(words([other.len() as u32]));
    }
    sheet.extend([0; 10]);
    sheet.extend(first);
    for _ in 1..count {
        sheet.extend(other);
    }
    sheet
}

/// The body of that type, in document 01's order.
fn type_around(place: Place, written: &[u8]) -> Vec<u8> {
    let (kind, functions, variables) = match place.field {
        Field::InterfaceBase => (3, 0, 0),
        Field::DispatchBase => (4, 0, 0),
        Field::ChainRecord => (5, 0, 0),
        Field::Alias => (6, 0, 0),
        Field::Result | Field::Parameter => (0, 1, 0),
        Field::Variable => (0, 0, 1),
    };
    // Kind, flags, version, no GUID, no name, declared counts.
    let mut body = vec![kind, 0, 0, 0, 0, 0, 0, 0, 0, 0, 0];
    body.extend([functions, 0, variables, 0]);
    // Base, functions, variables.
    match place.field {
        Field::InterfaceBase | Field::DispatchBase => body.extend(written),
        Field::ChainRecord => {
            body.extend(words([1]));
            body.extend(written);
            body.extend(words([misplaced::CHAIN_FLAGS]));
        }
        Field::Alias => body.extend(tree_around(place, written)),
        _ => {}
    }
    body.extend([functions, 0]);
    if functions > 0 {
        body.extend(function_around(place, written));
    }
    body.extend([variables, 0]);
    if variables > 0 {
        body.extend(member());
        body.extend(tree_around(place, written));
        // Flags, kind, offset.
        body.extend([0, 0, 0, 0, 0, 0, 16, 0, 0, 0]);
    }
    body
}

/// A function whose result is that tree, or a base type, and its one parameter the tree.
fn function_around(place: Place, written: &[u8]) -> Vec<u8> {
    let tree = tree_around(place, written);
    // Flags, slot, FKCCIC, arguments, optional ones, parameters; of these name, flags and default.
    match place.field {
        Field::Result => [member(), tree, vec![0; 16]].concat(),
        _ => {
            let mut fixed = [0; 16];
            fixed[10] = 1;
            fixed[14] = 1;
            [member(), vec![1, 3, 0], fixed.to_vec(), tree, vec![0; 6]].concat()
        }
    }
}

/// A memid and no name.
fn member() -> Vec<u8> {
    [vec![1], words([misplaced::MEMID]), vec![0]].concat()
}

/// The tree that ends in the reference.
fn tree_around(place: Place, written: &[u8]) -> Vec<u8> {
    let outer: &[u8] = match place.around {
        None => &[],
        // One dimension of two from 0.
        Some(C_ARRAY) => &[4, 1, 0, 2, 0, 0, 0, 0, 0, 0, 0],
        Some(SAFE_ARRAY) => &[3],
        Some(_) => &[2],
    };
    [outer, &[5], written].concat()
}
