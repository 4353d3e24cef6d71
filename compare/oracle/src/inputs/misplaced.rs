//! References that hit no typeinfo, and their neighbours: numbers that document 02's §4 tells apart, and libraries
//! with one of them in each place of a description.

use super::Input;
use super::large::typeinfo;
use super::layout::{self, Layout, TYPEINFO_SIZE, words};
use crate::random::Random;
use crate::sheet::places::{C_ARRAY, Field, Place, SAFE_ARRAY};

/// The bit that is cleared before a reference is looked at.
pub const MARK: i32 = 0x0100_0000;

/// How many types the libraries have.
pub const COUNTS: [usize; 2] = [1, 2];

/// The worked cases of document 02's §4 and choice 14, in libraries of so many types: a reference, and its bytes in the
/// sheet. A resolver gives those of 4, with the bit and without, an index all the same.
pub const WORKED: [(usize, i32, &[u8]); 8] = [
    (2, 4, &[3, 0, 4, 0, 0, 0]),
    (2, 100, &[1, 0, 1, 0]),
    (2, 200, &[0]),
    (2, 0x0100_0064, &[1, 1, 1, 0]),
    (2, 0x0100_0004, &[3, 1, 4, 0, 0, 0]),
    (2, 0x0200_0000, &[3, 0, 0, 0, 0, 2]),
    (2, -4, &[0]),
    (1, 104, &[3, 0, 104, 0, 0, 0]),
];

/// More bytes than a library has whose sheet the product makes in memory of its own.
const LONG: usize = 131_073;

/// The codes of type descriptors.
const POINTER_DESCRIPTOR: u32 = 26;
const SAFE_ARRAY_DESCRIPTOR: u32 = 27;
const C_ARRAY_DESCRIPTOR: u32 = 28;
const REFERENCE_DESCRIPTOR: u32 = 29;

/// A type field that is a base type.
const BASE: u32 = 0x8003_0003;

/// What the holder of a reference has behind its one function or variable: a memid, and no name.
pub const MEMID: u32 = 7;

/// The word behind the reference of a chain's record.
pub const CHAIN_FLAGS: u32 = 1;

/// Numbers at no typeinfo's place or at one, beside the count of types and far beyond it, with low bits and signs.
/// 335,545 times 100 has the bit 0x02000000, and 16,777,300 is a multiple of 100 only with its bit.
pub fn edges(count: usize) -> Vec<i32> {
    let count = count as i32;
    let indexes = [
        0,
        1,
        count - 1,
        count,
        count + 1,
        65_535,
        65_536,
        167_772,
        335_545,
    ];
    let mut numbers = Vec::new();
    for index in indexes {
        for beside in [-4, 0, 4, 48] {
            let number = 100 * index + beside;
            numbers.extend([number, number | MARK]);
        }
    }
    numbers.extend([1, 2, 3, 5, 99, 101, 102, 103, 105, MARK | 5, MARK | 101]);
    numbers.extend([84, 16_777_300, 0x0200_0000, 0x0200_0004, 0x0300_0000]);
    numbers.extend([0x0200_0001, 0x0300_0064, 0x4000_0000, 0x7EFF_FFFC]);
    numbers.extend([0x7FFF_FFFC, 0x7FFF_FFF8, 0x7FFF_FFD0, i32::MAX]);
    numbers.extend([-1, -4, -100, -104, i32::MIN, i32::MIN + 4, i32::MIN + 100]);
    numbers.extend([i32::MIN | MARK, i32::MIN | MARK | 4]);
    numbers.sort();
    numbers.dedup();
    numbers
}

/// An edge of a library of so many types, a number near one of its typeinfos, or any, with and without the bit.
pub fn drawn(random: &mut Random, count: usize) -> i32 {
    let number = match random.below(10) {
        0..3 => random.one_of(&edges(count)),
        3..6 => 100 * random.below(count + 2) as i32 + random.one_of(&[-4, 4, 4, 48]),
        6 => 100 * random.below(count + 2) as i32,
        7 => 4 * random.below(1 << 22) as i32,
        8 => random.number() as i32 & !3,
        _ => random.number() as i32,
    };
    number | random.one_of(&[0, 0, MARK])
}

/// A library of so many types, the first of which holds the reference in this place. The others are enums without
/// members.
pub fn library(count: usize, place: Place, reference: i32) -> Vec<u8> {
    let mut offsets = vec![TYPEINFO_SIZE as i32; count];
    offsets[0] = 0;
    let (kind, base, counts) = match place.field {
        Field::InterfaceBase => (3, reference, 0),
        Field::DispatchBase => (4, reference, 0),
        Field::ChainRecord => (5, 0, 0),
        Field::Alias => (6, 0, 0),
        Field::Result | Field::Parameter => (0, -1, 1),
        Field::Variable => (0, -1, 1 << 16),
    };
    let typeinfos = [typeinfo(kind, base, counts), typeinfo(0, -1, 0)];
    let reference = reference as u32;
    let mut layout = Layout::new(offsets);
    layout.table(layout::TYPEINFOS, typeinfos.concat());
    let record = words([reference, CHAIN_FLAGS, u32::MAX, u32::MAX]);
    layout.table(layout::REFERENCES, record);
    layout.table(layout::DESCRIPTORS, descriptors(place.around, reference));
    layout.table(layout::ARRAYS, words([8, 1, 2, 0]));
    if let Some(block) = block(place.field) {
        let block = layout.block([block, words([MEMID, u32::MAX])].concat());
        layout.memoffset(0, block);
    }
    layout.bytes()
}

/// Type descriptors of which the first is the tree: the reference, or what is around it. The element of the one array
/// is the second.
fn descriptors(around: Option<u8>, reference: u32) -> Vec<u8> {
    let end = words([REFERENCE_DESCRIPTOR, reference]);
    let outer = match around {
        None => return end,
        Some(C_ARRAY) => words([C_ARRAY_DESCRIPTOR, 0]),
        Some(SAFE_ARRAY) => words([SAFE_ARRAY_DESCRIPTOR, 8]),
        Some(_) => words([POINTER_DESCRIPTOR, 8]),
    };
    [outer, end].concat()
}

/// The block of the one member that holds the tree, if a member does.
fn block(field: Field) -> Option<Vec<u8>> {
    match field {
        Field::Result => Some(words([24, 24, 0, 0, 0, 0, 0])),
        Field::Parameter => Some(words([36, 36, BASE, 0, 0, 0, 1, 0, u32::MAX, 0])),
        Field::Variable => Some(words([20, 20, 0, 0, 0, 16])),
        _ => None,
    }
}

/// Every place with every number.
pub fn libraries() -> impl Iterator<Item = Input> {
    COUNTS.into_iter().flat_map(|count| {
        let numbers = edges(count);
        Place::all().flat_map(move |place| {
            let numbers = numbers.clone().into_iter();
            numbers.map(move |number| input(count, place, number))
        })
    })
}

/// Every place with a reference that hits no typeinfo, once with its bit and once without.
pub fn places() -> impl Iterator<Item = Input> {
    Place::all().flat_map(|place| [4, MARK | 96].map(|number| input(2, place, number)))
}

/// The same in libraries so long that the product measures their sheets before it makes them.
pub fn long() -> impl Iterator<Item = Input> {
    places().map(|mut input| {
        input.name += ", long";
        input.bytes.resize(LONG, 0xA5);
        input
    })
}

/// A place, a count and a number that are drawn.
pub fn any(random: &mut Random) -> Input {
    let places: Vec<Place> = Place::all().collect();
    let place = random.one_of(&places);
    let count = 1 + random.below(4);
    input(count, place, drawn(random, count))
}

fn input(count: usize, place: Place, number: i32) -> Input {
    let name = format!("{number:#x} in {place} among {count} types");
    Input::new(name, library(count, place, number))
}
