//! Libraries of at most 65,536 bytes that ask for as much work as can be for their figures, and small ones made the
//! same way. Document 02's §5 has them counted in one traversal; a program that keeps what a type field comes to reads
//! a tree once for each field. What is left is what must be read each time, and fields that are not kept.
//!
//! They are slow because tables overlap. The offset table has four bytes for each type; where the members of a type lie
//! over it, types and members are both as many as it has words, and the work is their product. Each word must then be
//! the offset of a typeinfo and what the members need there.

pub mod members;
pub mod parameters;
pub mod shared;

use super::Input;
use crate::random::Random;
use members::Beside;
use parameters::{Apart, Inner};
use shared::Last;

/// The most bytes of a library for which the figures' time is bounded.
pub const MOST_LENGTH: usize = 65_536;

/// A base type's field.
const BASE: u32 = 0x8003_0003;

/// Codes of type descriptors.
const CODE_POINTER: u32 = 26;
const CODE_SAFE_ARRAY: u32 = 27;
const CODE_ARRAY: u32 = 28;
const CODE_REFERENCE: u32 = 29;

/// How many types a small library has: a program may keep more fields of a library of more than 256 types.
const FEW: [usize; 4] = [200, 256, 257, 300];

/// How many drawn libraries there are for each of these.
const DRAWN: u64 = 100;

/// A way to make a library of so many types, or one or two fewer; and how many make it as long as it may be.
pub struct Way {
    pub name: &'static str,
    pub make: fn(usize) -> Vec<u8>,
    pub most_types: usize,
}

impl Way {
    /// The library of this many types.
    pub fn of(&self, types: usize) -> Input {
        let bytes = (self.make)(types);
        Input::new(format!("{}, {types} types", self.name), bytes)
    }

    /// The library that is as long as it may be.
    pub fn whole(&self) -> Input {
        self.of(self.most_types)
    }
}

/// All ways. Those of parameters come first, then members, chains and refusals.
pub const WAYS: [Way; 17] = [
    way("one field", parameters::one_field, 16_215),
    way("names and defaults", parameters::names_and_defaults, 16_124),
    way("drawn names and defaults", parameters::drawn_words, 15_480),
    way("arrays", |types| parameters::arrays(types, 1), 16_150),
    way(
        "arrays of many dimensions",
        |types| parameters::arrays(types, types / 2),
        8_060,
    ),
    way("fields 8 apart", |types| fields(types, Apart::Eight), 9_660),
    way("fields 4 apart", |types| fields(types, Apart::Four), 12_075),
    way(
        "unaligned fields",
        |types| fields(types, Apart::Unaligned),
        12_000,
    ),
    way("fields of arrays", array_fields, 12_000),
    way(
        "fields by height",
        |types| parameters::fields_by_height(types, 8 * types + 2_500),
        7_870,
    ),
    way("functions", members::functions, 16_192),
    way("variables", members::variables, 16_177),
    way("skipped functions", members::skipped_functions, 16_040),
    way(
        "coclasses",
        |types| members::coclasses(odd(types), Beside::Nothing),
        16_191,
    ),
    way(
        "coclasses with defaults",
        |types| members::coclasses(odd(types), Beside::Defaults),
        16_191,
    ),
    way(
        "a tree too deep at last",
        |types| shared::many_then(types, Last::TooDeep),
        16_188,
    ),
    way(
        "a short typeinfo at last",
        |types| shared::many_then(types, Last::Short),
        16_188,
    ),
];

const fn way(name: &'static str, make: fn(usize) -> Vec<u8>, most_types: usize) -> Way {
    Way {
        name,
        make,
        most_types,
    }
}

fn fields(types: usize, apart: Apart) -> Vec<u8> {
    parameters::many_fields(types, apart, Inner::Pointers)
}

fn array_fields(types: usize) -> Vec<u8> {
    parameters::many_fields(types, Apart::Four, Inner::Arrays)
}

/// The number, or the one below it.
fn odd(number: usize) -> usize {
    number - 1 + number % 2
}

/// Every way with its longest library, and libraries of 256 and 257 types that are as long as may be, most of it
/// parameters: with the fewer types a program may keep fewer fields. The arrays come last, as they take a program
/// longest that reads dimensions one by one.
pub fn whole() -> impl Iterator<Item = Input> {
    const FEW: [usize; 2] = [257, 256];
    let by_height = FEW.map(|types| {
        let bytes = parameters::fields_by_height(types, MOST_LENGTH);
        Input::new(format!("long function, {types} types"), bytes)
    });
    let arrays = FEW.map(|types| {
        let bytes = parameters::unkept_arrays(types, MOST_LENGTH);
        Input::new(format!("long function of arrays, {types} types"), bytes)
    });
    let ways = WAYS.iter().map(Way::whole);
    ways.chain(by_height).chain(arrays)
}

/// Libraries of few types that are made in the same ways, and trees that share what is inside them.
pub fn small() -> impl Iterator<Item = Input> {
    FEW.into_iter().flat_map(|types| {
        let ways = WAYS.iter().map(move |way| way.of(types));
        let sizes = [false, true].map(|ends| {
            let name = format!("functions of small sizes, one of 0: {ends}, {types} types");
            Input::new(name, members::small_sizes(types, ends))
        });
        let arrays = parameters::unkept_arrays(types, 4 * types + 2_500);
        let arrays = Input::new(format!("long arrays, {types} types"), arrays);
        let ways = ways.chain(sizes).chain([arrays]);
        let ways = ways.chain(shared::orders(types));
        let ways = ways.chain(shared::refused_last(types));
        ways.chain((0..DRAWN).map(move |number| {
            let mut random = Random::new(number << 16 | types as u64);
            let name = format!("shared trees {number}, {types} types");
            Input::new(name, shared::drawn(&mut random, types))
        }))
    })
}

#[cfg(test)]
mod tests;
