//! Figures of small libraries, worked out by hand from the documents; and what all of them must be.

use super::members::{self, Beside};
use super::parameters::{self, Apart, Inner};
use super::shared::{self, ENDS, Last, PLACES};
use super::{MOST_LENGTH, WAYS, small, whole};
use crate::figures::{Figures, MOST_TOLD, figures};
use crate::sheet::{MOST_BYTES, refusal, sheet};

/// The library's body with neither GUID nor name, and a type's fields with nothing in it.
const LIBRARY: u64 = 4 + 4 + 1 + 1;
const TYPE: u64 = 1 + 4 + 4 + 1 + 1 + 2 + 2 + 2 + 2;

/// A function, a parameter and a variable with no memid and no name, without their trees.
const FUNCTION: u64 = 1 + 1 + 4 + 2 + 4 + 2 + 2 + 2;
const PARAMETER: u64 = 1 + 4 + 1;
const VARIABLE: u64 = 1 + 1 + 4 + 2 + 4;

/// The trees of a base type, and of 31 descriptions around one; what a memid and a name of eight bytes add.
const BASE: u64 = 1 + 2;
const DEEP: u64 = 31 + BASE;
const MEMID: u64 = 4;
const NAME: u64 = 1 + 8;

/// A constant that is a text of eight bytes, behind the opt's byte.
const TEXT: u64 = 2 + 1 + 4 + 8;

/// The contents of so many types, and the library's body.
fn head(types: u64) -> u64 {
    4 + 4 + 4 * types + LIBRARY
}

fn of(length: u64, [functions, parameters, variables, references]: [u64; 4]) -> Figures {
    Figures {
        length,
        functions,
        parameters,
        variables,
        references,
    }
}

#[test]
fn parameters_over_the_offset_table() {
    // The result is the same tree: the word of the library's GUID is 0, too.
    let each = TYPE + FUNCTION + DEEP + 4 * (PARAMETER + DEEP);
    let right = of(head(12) + 12 * each, [12, 48, 0, 0]);
    assert_eq!(figures(&parameters::one_field(12)), Ok(right));

    // The name of the library is at 0, and empty.
    let parameter = PARAMETER + DEEP + NAME + TEXT;
    let each = TYPE + FUNCTION + BASE + 4 * parameter;
    let right = of(head(16) + 1 + 16 * each, [16, 64, 0, 0]);
    assert_eq!(figures(&parameters::names_and_defaults(16)), Ok(right));

    for dimensions in [0, 1, 5, 300] {
        let tree = 31 * (1 + 2 + 8 * dimensions) + BASE;
        let each = TYPE + FUNCTION + BASE + 3 * (PARAMETER + tree);
        let right = of(head(9) + 9 * each, [9, 27, 0, 0]);
        let library = parameters::arrays(9, dimensions as usize);
        assert_eq!(figures(&library), Ok(right));
    }
}

#[test]
fn parameters_of_many_fields() {
    for apart in [Apart::Eight, Apart::Four, Apart::Unaligned] {
        let each = TYPE + FUNCTION + MEMID + BASE + 8 * (PARAMETER + DEEP);
        let right = of(head(24) + 24 * each, [24, 24 * 8, 0, 0]);
        let library = parameters::many_fields(24, apart, Inner::Pointers);
        assert_eq!(figures(&library), Ok(right));
    }
    // Eight words and those of a typeinfo behind them are 16 dimensions and a half.
    let tree = 1 + 30 * (1 + 2 + 8 * 16) + BASE;
    let each = TYPE + FUNCTION + MEMID + BASE + 8 * (PARAMETER + tree);
    let right = of(head(24) + 24 * each, [24, 24 * 8, 0, 0]);
    let library = parameters::many_fields(24, Apart::Four, Inner::Arrays);
    assert_eq!(figures(&library), Ok(right));
}

/// A library with room for ten parameters: their bytes and the function's are 18 dimensions and a half.
#[test]
fn arrays_whose_dimensions_are_the_parameters() {
    let tree = 31 * (1 + 2 + 8 * 18) + BASE;
    let each = TYPE + FUNCTION + BASE + 10 * (PARAMETER + tree);
    let right = of(head(2) + 2 * each, [2, 20, 0, 0]);
    // Header, offsets, directory, typeinfo, descriptors, array descriptors, block.
    let length = 84 + 8 + 240 + 100 + 1_024 + 248 + 248 + 28 + 120;
    let library = parameters::unkept_arrays(2, length);
    assert_eq!(library.len(), length);
    assert_eq!(figures(&library), Ok(right));
}

#[test]
fn members_over_the_offset_table() {
    // Two words are 0: types without members, with an empty name. The library's is empty, too.
    let function = FUNCTION + MEMID + NAME + DEEP;
    let length = head(16) + 1 + 14 * (TYPE + 2 * function) + 2 * (TYPE + 1);
    let right = of(length, [28, 0, 0, 0]);
    assert_eq!(figures(&members::functions(16)), Ok(right));

    // The constant's opt stands in the place of a word.
    let variable = VARIABLE - 4 + 1 + TEXT + MEMID + NAME + DEEP;
    let length = head(14) + 1 + 14 * (TYPE + 2 * variable);
    let right = of(length, [0, 0, 28, 0]);
    assert_eq!(figures(&members::variables(14)), Ok(right));
}

#[test]
fn variables_behind_functions_that_are_not_yielded() {
    // A decimal.
    let variable = VARIABLE - 4 + 1 + 2 + 16 + MEMID + DEEP;
    let right = of(head(6) + 6 * (TYPE + variable), [0, 0, 6, 0]);
    assert_eq!(figures(&members::skipped_functions(6)), Ok(right));

    let right = of(head(3) + 3 * (TYPE + VARIABLE + BASE), [0, 0, 3, 0]);
    assert_eq!(figures(&members::small_sizes(3, false)), Ok(right));
    let right = of(head(3) + 3 * TYPE, [0; 4]);
    assert_eq!(figures(&members::small_sizes(3, true)), Ok(right));
}

/// Three of four types have the whole chain, but for those whose typeinfos end in the directory: at most 13 of them.
#[test]
fn most_coclasses_have_the_whole_chain() {
    for beside in [Beside::Nothing, Beside::Defaults] {
        let library = members::coclasses(801, beside);
        let references = figures(&library).map(|figures| figures.references);
        let references = references.expect("it is not refused");
        // 402 words are the one reference; 399 are next offsets, and half of these coclasses.
        let least = (402 + 199 - 13) * 400;
        assert!(
            (least..=least + 2 * 13 * 400).contains(&references),
            "{references} is not about {least}"
        );
    }
}

/// Each end's bytes in a tree, how many references it has, and the trees around it a byte more each.
#[test]
fn shared_trees_have_their_own_length_and_reference() {
    let import = 1 + 1 + 4 + (1 + 16) + 1 + (1 + 16) + 4 + 4 + 2 + 3;
    let ends = [
        (BASE, 0),
        (1 + BASE, 0),
        (1 + 1, 0),
        (1 + 2 + 16 + BASE, 0),
        (1, 0),
        (1 + 1 + 1 + 2, 1),
        (1 + import, 1),
        (1 + 1, 1),
        (1 + 1 + 1 + 4, 1),
    ];
    for ((word, end), (bytes, references)) in ENDS.into_iter().zip(ends) {
        for depths in [[0, 10, 1], [10, 1, 0], [1, 0, 20], [20, 0, 20], [0, 0, 1]] {
            // The library's GUID is at 0, too.
            let around: u64 = depths.iter().map(|depth| u64::from(*depth)).sum();
            let length = head(3) + 16 + 3 * (TYPE + bytes) + around;
            let right = of(length, [0, 0, 0, 3 * references]);
            for place in PLACES {
                let fields = depths.map(|depth| place + 8 * depth);
                let library = shared::aliases(&fields, shared::leading_to(end, place));
                assert_eq!(figures(&library), Ok(right), "{fields:?} to {word}");
            }
        }
    }
}

#[test]
fn what_is_refused_last_is_refused() {
    for input in shared::refused_last(40) {
        let found = figures(&input.bytes);
        assert_eq!(found, Err(refusal::TOO_DEEP), "{}", input.name);
    }
    for input in shared::orders(70) {
        assert!(figures(&input.bytes).is_ok(), "{}", input.name);
    }
    let too_deep = figures(&shared::many_then(60, Last::TooDeep));
    assert_eq!(too_deep, Err(refusal::TOO_DEEP));
    let short = figures(&shared::many_then(60, Last::Short));
    assert_eq!(short, Err(refusal::SHORT_TYPEINFO));
}

/// The two references beside each other; and some of the drawn libraries are refused, but most are not.
#[test]
fn the_figures_of_small_ones_are_those_of_their_sheets() {
    let (mut given, mut refused) = (0, 0);
    for input in small() {
        let found = figures(&input.bytes);
        match (found, sheet(&input.bytes, MOST_BYTES)) {
            (Ok(found), Ok(sheet)) => {
                assert_eq!(found.length, sheet.len() as u64, "{}", input.name);
                given += 1;
            }
            (Ok(found), Err(refusal::NO_SPACE)) => assert!(found.length > MOST_TOLD),
            (found, sheet) => {
                assert_eq!(found.err(), sheet.err(), "{}", input.name);
                refused += 1;
            }
        }
    }
    assert!(given > 400 && refused > 40, "{given} and {refused}");
}

/// A few more types would make each too long.
#[test]
fn whole_ones_are_as_long_as_they_may_be() {
    for input in whole() {
        let length = input.bytes.len();
        assert!(length <= MOST_LENGTH, "{}: {length}", input.name);
        assert!(length > MOST_LENGTH - 600, "{}: {length}", input.name);
    }
    for way in WAYS {
        let longer = way.of(way.most_types + 150).bytes.len();
        assert!(longer > MOST_LENGTH, "{}: {longer}", way.name);
    }
}
