//! Figures worked out by hand from the documents, and the figures of the fixed inputs beside their sheets.

use super::{ABOVE, Figures, MOST_TOLD, figures};
use crate::inputs::edges::{self, TOO_LONG, alias, long_then};
use crate::inputs::large::{self, typeinfo};
use crate::inputs::layout::{self, Layout, set_word, words};
use crate::inputs::{self, Input, Inputs, constants, misplaced, table_ends};
use crate::sheet::places::{C_ARRAY, Field, Place};
use crate::sheet::{MOST_BYTES, MOST_TYPES, refusal, sheet};

/// Contents of one type, the library's body without GUID and name, and the type's fixed fields with no GUID, no name,
/// no base, no function and no variable.
const CONTENTS: u64 = 4 + 4 + 4;
const LIBRARY: u64 = 4 + 4 + 1 + 1;
const TYPE: u64 = 1 + 4 + 4 + 1 + 1 + 2 + 2 + 2 + 2;
const ONE_TYPE: u64 = CONTENTS + LIBRARY + TYPE;

/// A function with no memid, no name and no parameter, and a parameter or a variable with nothing but its numbers,
/// each without its tree; and the tree of a base type.
const FUNCTION: u64 = 1 + 1 + 4 + 2 + 4 + 2 + 2 + 2;
const PARAMETER: u64 = 1 + 4 + 1;
const VARIABLE: u64 = 1 + 1 + 4 + 2 + 4;
const BASE: u64 = 1 + 2;

/// Type fields: a base type, and an offset at which no table has a descriptor.
const BASE_FIELD: u32 = 0x8003_0003;
const NOTHING_FIELD: u32 = 0x7000_0000;

fn of(length: u64, [functions, parameters, variables, references]: [u64; 4]) -> Figures {
    Figures {
        length,
        functions,
        parameters,
        variables,
        references,
    }
}

/// The magic, then zeros.
fn zeros(length: usize) -> Vec<u8> {
    let mut bytes = vec![0; length];
    bytes[..4].copy_from_slice(b"MSFT");
    bytes
}

/// A library of one type with this block and these declared counts, and nothing behind the block.
fn with_block(block: Vec<u8>, counts: u32) -> Vec<u8> {
    let mut layout = Layout::new(vec![0]);
    layout.table(layout::TYPEINFOS, typeinfo(0, -1, counts));
    let block = layout.block(block);
    layout.memoffset(0, block);
    layout.bytes()
}

#[test]
fn the_shortest_library_has_document_01s_18_bytes_and_nothing_else() {
    assert_eq!(figures(&zeros(324)), Ok(of(18, [0; 4])));
    let bytes = figures(&zeros(324)).map(Figures::bytes);
    let mut right = vec![0; 20];
    right[0] = 18;
    assert_eq!(bytes, Ok(right));
}

#[test]
fn each_figure_stops_by_itself_and_is_written_in_its_place() {
    let high = of(MOST_TOLD + 1, [MOST_TOLD, 3, MOST_TOLD + 2, 1 << 40]);
    assert_eq!(high.given(), [ABOVE, 1 << 24, 3, ABOVE, ABOVE]);
    let written = of(0x0003_0201, [5, 6, 7, 8]).bytes();
    let right = [1, 2, 3, 0, 5, 0, 0, 0, 6, 0, 0, 0, 7, 0, 0, 0, 8, 0, 0, 0];
    assert_eq!(written, right);
}

#[test]
fn what_no_library_is_refused_as_a_sheet_is() {
    assert_eq!(figures(&[]), Err(refusal::SHORT_HEADER));
    assert_eq!(figures(&zeros(83)), Err(refusal::SHORT_HEADER));
    assert_eq!(figures(&[0; 400]), Err(refusal::WRONG_MAGIC));
    assert_eq!(figures(&zeros(84)), Err(refusal::SHORT_DIRECTORY));
    assert_eq!(figures(&zeros(323)), Err(refusal::SHORT_DIRECTORY));
    let mut negative = zeros(324);
    set_word(&mut negative, layout::COUNT, u32::MAX);
    assert_eq!(figures(&negative), Err(refusal::BAD_COUNT));
    assert_eq!(figures(&zeros(MOST_BYTES)), Ok(of(18, [0; 4])));
    assert_eq!(figures(&zeros(MOST_BYTES + 1)), Err(refusal::OVER_LONG));
}

#[test]
fn too_many_types_come_before_any_type() {
    let most = MOST_TYPES as u64;
    let right = 4 + 4 + 4 * most + LIBRARY + TYPE * most;
    let types = figures(&large::many_types(MOST_TYPES));
    assert_eq!(types, Ok(of(right, [0; 4])));
    let more = large::many_types(MOST_TYPES + 1);
    assert_eq!(figures(&more), Err(refusal::TOO_MANY_TYPES));
    let no_table = Layout::new(vec![0; MOST_TYPES + 1]).bytes();
    assert_eq!(figures(&no_table), Err(refusal::TOO_MANY_TYPES));
}

#[test]
fn typeinfos_that_are_not_there() {
    let at = |offsets: Vec<i32>| {
        let mut layout = Layout::new(offsets);
        layout.table(layout::TYPEINFOS, typeinfo(0, -1, 0));
        figures(&layout.bytes())
    };
    assert_eq!(at(vec![0]), Ok(of(ONE_TYPE, [0; 4])));
    assert_eq!(at(vec![0, -1]), Err(refusal::NO_SUCH_TYPEINFO));
    assert_eq!(at(vec![0, 1]), Err(refusal::SHORT_TYPEINFO));
    assert_eq!(at(vec![1, -1]), Err(refusal::SHORT_TYPEINFO));
    assert_eq!(at(vec![-1, 1]), Err(refusal::NO_SUCH_TYPEINFO));
    let no_table = Layout::new(vec![0]).bytes();
    assert_eq!(figures(&no_table), Err(refusal::NO_TYPEINFO_TABLE));
}

/// Two functions and a variable are declared and there; two more functions only declared.
#[test]
fn members_count_as_they_are_yielded() {
    let function = [24, BASE_FIELD, 0, 0, 0, 0];
    let functions = [words([48]), words(function), words(function)].concat();
    let two = of(ONE_TYPE + 2 * (FUNCTION + BASE), [2, 0, 0, 0]);
    assert_eq!(figures(&with_block(functions.clone(), 2)), Ok(two));
    assert_eq!(figures(&with_block(functions.clone(), 4)), Ok(two));
    let one = of(ONE_TYPE + FUNCTION + BASE, [1, 0, 0, 0]);
    assert_eq!(figures(&with_block(functions, 1)), Ok(one));

    let variables = [words([40]), words([20, BASE_FIELD, 0, 0, 0]).repeat(2)].concat();
    let two = of(ONE_TYPE + 2 * (VARIABLE + BASE), [0, 0, 2, 0]);
    assert_eq!(figures(&with_block(variables.clone(), 2 << 16)), Ok(two));
    assert_eq!(figures(&with_block(variables, 9 << 16)), Ok(two));

    // A function of 23 bytes ends the functions; the variables behind it are found all the same.
    let short = [words([43]), words([23, 0, 0, 0, 0]), vec![0; 3]].concat();
    let short = [short, words([20, BASE_FIELD, 0, 0, 0])].concat();
    let right = of(ONE_TYPE + VARIABLE + BASE, [0, 0, 1, 0]);
    assert_eq!(figures(&with_block(short, 1 << 16 | 1)), Ok(right));
}

/// A function of three parameters; where more are said than the record holds, or fewer than none, there are none.
#[test]
fn parameters_count_as_they_are_yielded() {
    let three = |arguments: u32| {
        let function = words([60, BASE_FIELD, 0, 0, 0, arguments]);
        let parameter = words([BASE_FIELD, u32::MAX, 0]);
        let block = [words([60]), function, parameter.repeat(3)].concat();
        figures(&with_block(block, 1))
    };
    let with = |count| {
        let length = ONE_TYPE + FUNCTION + BASE + count * (PARAMETER + BASE);
        Ok(of(length, [1, count, 0, 0]))
    };
    assert_eq!(three(3), with(3));
    assert_eq!(three(1), with(1));
    assert_eq!(three(6), with(0));
    assert_eq!(three(0xFFFF), with(0));
}

#[test]
fn memids_names_and_guids_count_where_they_are_there() {
    let mut layout = Layout::new(vec![0]);
    let mut one = typeinfo(0, -1, 1 << 16 | 1);
    set_word(&mut one, 0x2C, 0);
    set_word(&mut one, 0x34, 0);
    layout.table(layout::TYPEINFOS, one);
    layout.table(layout::GUIDS, vec![7; 24]);
    let name = [words([0, 0, 3]), b"abc\0".to_vec()].concat();
    layout.table(layout::NAMES, name);
    let block = [
        words([44]),
        words([24, BASE_FIELD, 0, 0, 0, 0]),
        words([20, BASE_FIELD, 0, 0, 0]),
        // Memids, then names: the variable has none.
        words([5, 6, 0, u32::MAX]),
    ];
    let block = layout.block(block.concat());
    layout.memoffset(0, block);
    let library = layout.bytes();
    // The library's own GUID and name are at 0 too.
    let there = 16 + (1 + 3) + 16 + (1 + 3) + 4 + (1 + 3) + 4;
    let length = ONE_TYPE + FUNCTION + BASE + VARIABLE + BASE + there;
    assert_eq!(figures(&library), Ok(of(length, [1, 0, 1, 0])));
}

/// Each code counts once, in each field that is a reference or ends in one.
#[test]
fn every_reference_field_counts_once() {
    for (count, reference, written) in misplaced::WORKED {
        for place in Place::all() {
            let library = misplaced::library(count, place, reference);
            let right = around(count as u64, place, written.len() as u64);
            assert_eq!(figures(&library), Ok(right), "{reference:#x} in {place}");
        }
    }
}

/// The figures of a library whose first type has a reference of so many bytes in this place, and whose others are
/// enums without members.
fn around(count: u64, place: Place, reference: u64) -> Figures {
    let tree = reference
        + match place.around {
            None => 1,
            Some(C_ARRAY) => 1 + 2 + 8 + 1,
            Some(_) => 1 + 1,
        };
    // Its one member has a memid.
    let (fields, members) = match place.field {
        Field::InterfaceBase | Field::DispatchBase => (reference, [0; 3]),
        Field::ChainRecord => (4 + reference + 4, [0; 3]),
        Field::Alias => (tree, [0; 3]),
        Field::Result => (FUNCTION + 4 + tree, [1, 0, 0]),
        Field::Parameter => (FUNCTION + 4 + BASE + PARAMETER + tree, [1, 1, 0]),
        Field::Variable => (VARIABLE + 4 + tree, [0, 0, 1]),
    };
    let [functions, parameters, variables] = members;
    of(
        4 + 4 + 4 * count + LIBRARY + TYPE * count + fields,
        [functions, parameters, variables, 1],
    )
}

/// An import with a GUID and a file, one with the GUID's offset missing, and one without the flag.
#[test]
fn imports_count_once_with_their_bytes() {
    let import = |record: [u32; 3]| {
        let mut layout = Layout::new(vec![0]);
        layout.table(layout::TYPEINFOS, typeinfo(3, 1, 0));
        layout.table(layout::IMPORTS, words(record));
        let file = [words([0, 7, 1]), b"\x0C\0f.b\0\0\0".to_vec()];
        layout.table(layout::IMPORT_FILES, file.concat());
        layout.table(layout::GUIDS, vec![7; 24]);
        // The library's own GUID is at 0 too.
        figures(&layout.bytes()).map(|figures| (figures.length - ONE_TYPE - 16, figures.references))
    };
    let file = 1 + 16 + 4 + 4 + 2 + 3;
    let none = u32::MAX;
    let head = 1 + 1 + 4;
    assert_eq!(import([0x1_0000, 0, 0]), Ok((head + 17 + 1 + file, 1)));
    assert_eq!(import([0x1_0000, 0, none]), Ok((head + 1 + 1 + file, 1)));
    assert_eq!(import([0, none, 0]), Ok((head + 4 + 1, 1)));
}

#[test]
fn a_tree_that_ends_in_nothing_or_in_a_base_type_has_no_reference() {
    for (pointers, end, last) in [
        (1, NOTHING_FIELD, 1),
        (1, BASE_FIELD, 3),
        (31, NOTHING_FIELD, 1),
        (31, BASE_FIELD, 3),
    ] {
        let right = of(ONE_TYPE + pointers as u64 + last, [0; 4]);
        assert_eq!(figures(&alias(pointers, end)), Ok(right));
    }
    for (pointers, end) in [(32, NOTHING_FIELD), (32, BASE_FIELD), (1, 0), (7, 8)] {
        assert_eq!(figures(&alias(pointers, end)), Err(refusal::TOO_DEEP));
    }
}

/// Types upward, and in a type its base before its members: a chain that comes round is told before a tree that is too
/// deep in a result, a parameter or a variable, and each of these before the next type.
#[test]
fn refusals_come_in_document_01s_order() {
    let deep = 0;
    for (base, fields, right) in [
        (0, [deep, deep, deep], refusal::CIRCLE),
        (-1, [deep, BASE_FIELD, BASE_FIELD], refusal::TOO_DEEP),
        (-1, [BASE_FIELD, deep, BASE_FIELD], refusal::TOO_DEEP),
        (-1, [BASE_FIELD, BASE_FIELD, deep], refusal::TOO_DEEP),
        (-1, [BASE_FIELD; 3], refusal::NO_SUCH_TYPEINFO),
    ] {
        let [result, parameter, variable] = fields;
        let mut layout = Layout::new(vec![0, -1, 1 << 25]);
        layout.table(layout::TYPEINFOS, typeinfo(5, base, 1 << 16 | 1));
        layout.table(layout::REFERENCES, words([0, 0, 0, 0]));
        // A pointer to itself.
        layout.table(layout::DESCRIPTORS, words([26, 0]));
        let block = [
            words([56]),
            words([36, result, 0, 0, 0, 1, parameter, u32::MAX, 0]),
            words([20, variable, 0, 0, 0]),
        ];
        let block = layout.block(block.concat());
        layout.memoffset(0, block);
        assert_eq!(figures(&layout.bytes()), Err(right), "{base} {fields:x?}");
    }
}

#[test]
fn chains_count_each_record_and_are_refused_if_they_come_round() {
    for records in [1, 5, 100_000] {
        let library = large::coclasses(2, records, -1);
        // A reference to type 0, and the record's flags.
        let chain = 4 + records as u64 * (1 + 1 + 2 + 4);
        let length = 4 + LIBRARY + TYPE + CONTENTS + TYPE + 2 * chain;
        let right = of(length, [0, 0, 0, 2 * records as u64]);
        assert_eq!(figures(&library), Ok(right));
    }
    for back_to in 0..5 {
        let circle = large::coclasses(1, 5, 16 * back_to);
        assert_eq!(figures(&circle), Err(refusal::CIRCLE), "{back_to}");
    }
    let late = large::coclasses(1, 100_000, 16 * 99_998);
    assert_eq!(figures(&late), Err(refusal::CIRCLE));
}

/// A variable's constant of each width: the number that names it, and the bytes behind the opt's own.
#[test]
fn constants_count_at_their_own_width() {
    for (word, stored, bytes) in [
        (0x8000_0000, vec![], 2),
        (0x8800_FFFF, vec![], 2 + 2),
        (0xC000_00FF, vec![], 2 + 1),
        (0xAC00_0002, vec![], 2 + 1),
        (0xFFFF_FFFF, vec![], 2 + 4),
        (0, vec![0, 0], 2),
        (0, vec![2, 0, 0, 0, 0, 0], 2 + 2),
        (0, vec![11, 0, 1, 0], 2 + 1),
        (0, vec![17, 0, 1, 0, 0, 0], 2 + 1),
        (0, vec![4, 0, 1, 0, 0, 0], 2 + 4),
        (0, [vec![5, 0], vec![1; 8]].concat(), 2 + 8),
        (0, [vec![14, 0], vec![1; 16]].concat(), 2 + 16),
        (0, [vec![64, 0], vec![1; 8]].concat(), 2 + 8),
        (0, vec![0xE7, 3, 1, 2, 3, 4], 2 + 4),
        (0, vec![8, 0, 0xFF, 0xFF, 0xFF, 0xFF], 2 + 1),
        (0, vec![8, 0, 2, 0, 0, 0, b'o', b'k'], 2 + 1 + 4 + 2),
        // Nothing: a length below -1, and a value that is cut.
        (0, vec![8, 0, 0xFE, 0xFF, 0xFF, 0xFF], 0),
        (0, vec![5, 0, 1, 2, 3, 4, 5, 6, 7], 0),
    ] {
        let mut layout = Layout::new(vec![0]);
        layout.table(layout::TYPEINFOS, typeinfo(0, -1, 1 << 16));
        let block = layout.block(words([20, 20, BASE_FIELD, 0, 2, word, 0, u32::MAX]));
        layout.memoffset(0, block);
        layout.table(layout::CONSTANTS, stored.clone());
        // A memid, and the opt's byte in the place of the word.
        let right = ONE_TYPE + VARIABLE + 4 + BASE - 4 + 1 + bytes;
        let found = figures(&layout.bytes());
        assert_eq!(found, Ok(of(right, [0, 0, 1, 0])), "{stored:?}");
    }
}

#[test]
fn a_length_above_any_output_is_no_refusal_and_hides_none() {
    for (length, given) in [
        (MOST_BYTES - 1, 16_777_215),
        (MOST_BYTES, 16_777_216),
        (MOST_BYTES + 1, 16_777_217),
        (MOST_BYTES + 2, 16_777_217),
    ] {
        let found = figures(&large::sheet_of(length));
        let found = found.map(|figures| (figures.length, figures.given()));
        assert_eq!(found, Ok((length as u64, [given, 0, 0, 2, 0])));
    }
    for (last, right) in [
        (typeinfo(5, 0, 0), Err(refusal::CIRCLE)),
        (typeinfo(6, 0, 0), Err(refusal::TOO_DEEP)),
        (Vec::new(), Err(refusal::SHORT_TYPEINFO)),
        (typeinfo(0, 0, 0), Ok([ABOVE, 0, 0, 2, 0])),
    ] {
        let found = figures(&long_then(TOO_LONG, last)).map(Figures::given);
        assert_eq!(found, right);
    }
}

/// What each of these libraries was made for is what is counted.
#[test]
fn the_libraries_at_the_limit_have_the_figures_that_they_were_made_for() {
    for made in inputs::figures::limits() {
        let found = figures(&made.input.bytes).map(Figures::all);
        let found = found.map(|all| all[made.which]);
        assert_eq!(found, Ok(made.figure), "{}", made.input.name);
    }
}

/// The two references beside each other: where a sheet is made its length is the figure, and the
/// refusals are the same but for 12.
#[test]
fn figures_are_those_of_the_sheets_of_the_fixed_inputs() {
    let inputs = Inputs::new(1);
    let fixed = inputs.corpus().chain(misplaced::libraries());
    let fixed = fixed.chain(edges::quick()).chain(table_ends::libraries());
    let fixed = fixed.chain(constants::libraries());
    let numbered = (0..3_000).map(|number| inputs.input(number));
    let mut sheets = 0;
    for input in fixed.chain(numbered) {
        sheets += u32::from(is_promised(&input));
    }
    assert!(
        sheets > 3_000,
        "{sheets} sheets are too few to say something"
    );
}

/// Whether a sheet is made; if so, its length must be the figure.
fn is_promised(input: &Input) -> bool {
    let found = figures(&input.bytes);
    match sheet(&input.bytes, MOST_BYTES) {
        Ok(sheet) => {
            let length = found.map(|figures| figures.length);
            assert_eq!(length, Ok(sheet.len() as u64), "{}", input.name);
            true
        }
        Err(refusal::NO_SPACE) => {
            assert!(found.is_ok_and(|figures| figures.length > MOST_TOLD));
            false
        }
        Err(number) => {
            assert_eq!(found, Err(number), "{}", input.name);
            false
        }
    }
}
