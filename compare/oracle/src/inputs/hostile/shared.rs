//! Trees that share what is inside them, read in every order: a program that keeps what a field comes to must keep it
//! for this field alone, with its reference, and must find a tree too deep that begins outside of one that it kept.

use std::array;

use super::{BASE, CODE_ARRAY, CODE_POINTER, CODE_REFERENCE, CODE_SAFE_ARRAY};
use crate::inputs::Input;
use crate::inputs::large::{self, typeinfo};
use crate::inputs::layout::{self, Layout, TYPEINFO_SIZE, set_word, words};
use crate::random::Random;

/// A library of one alias for each of these fields, in their order. Array descriptors and imports are at hand: an array
/// of two dimensions of a base type at 0, one of the deepest field of `leading_to` at 24, and at 40 one that passes its
/// table; an import with a file at 0.
pub fn aliases(fields: &[u32], descriptors: Vec<u8>) -> Vec<u8> {
    let offsets = (0..fields.len()).map(|number| (TYPEINFO_SIZE * number) as i32);
    let mut layout = Layout::new(offsets.collect());
    let typeinfos = fields.iter().map(|field| typeinfo(6, *field as i32, 0));
    layout.table(layout::TYPEINFOS, typeinfos.collect::<Vec<_>>().concat());
    layout.table(layout::DESCRIPTORS, descriptors);
    tables_at_hand(&mut layout);
    layout.bytes()
}

fn tables_at_hand(layout: &mut Layout) {
    let arrays = [
        words([BASE, 2, 3, 0, 4, 0]),
        words([8 * LEADING, 1, 5, 0]),
        words([0, 3, 1]),
    ];
    layout.table(layout::IMPORTS, words([0x1_0000, 0, 0]));
    layout.table(
        layout::IMPORT_FILES,
        [words([0, 7, 1]), b"\x0C\0f.b\0\0\0".to_vec()].concat(),
    );
    layout.table(layout::GUIDS, vec![7; 16]);
    layout.table(layout::ARRAYS, arrays.concat());
}

/// What the innermost descriptor of a shared tree is, in words, and its descriptor.
pub const ENDS: [(&str, [u32; 2]); 9] = [
    ("a base type", [3, 0]),
    ("a pointer to a base type", [CODE_POINTER, BASE]),
    ("a safe array of nothing", [CODE_SAFE_ARRAY, 0x7000_0000]),
    ("an array", [CODE_ARRAY, 0]),
    ("an array that passes its table", [CODE_ARRAY, 40]),
    ("a typeinfo", [CODE_REFERENCE, 0]),
    ("an import", [CODE_REFERENCE, 1]),
    ("no reference", [CODE_REFERENCE, 0xFFFF_FFF0]),
    ("a misplaced reference", [CODE_REFERENCE, 4]),
];

/// How many descriptors lead to such an end, one inside another: from the first the tree has 31 descriptions and the
/// end's.
const LEADING: u32 = 31;

/// Descriptors from this field on of which each leads to the one before, and the first is the end: 8 times a number
/// further is a tree of so many and the end's. Pointers and safe arrays stand in turn.
pub fn leading_to(end: [u32; 2], first: u32) -> Vec<u8> {
    let mut descriptors = vec![0; first as usize];
    descriptors.extend(words(end));
    for number in 0..LEADING {
        let code = [CODE_POINTER, CODE_SAFE_ARRAY][number as usize % 2];
        descriptors.extend(words([code, first + 8 * number]));
    }
    descriptors
}

/// Where such trees lie: below the field 1,024, up to which a program may keep few, and on both sides of it.
pub const PLACES: [u32; 2] = [0, 903];

/// How many descriptions an end has of its own: those that hold something else are refused where it is the 32nd.
fn depth_of(end: [u32; 2]) -> u32 {
    match end[0] {
        CODE_POINTER | CODE_SAFE_ARRAY => 2,
        CODE_ARRAY if end[1] == 0 => 2,
        _ => 1,
    }
}

/// Every field to each end, from the shallowest to the deepest, back, and from both sides in turn. Fewer types than
/// these are aliases of the first fields; more are those fields again.
pub fn orders(types: usize) -> impl Iterator<Item = Input> {
    let ends = ENDS.into_iter();
    let places = ends.flat_map(|end| PLACES.map(|place| (end, place)));
    places.flat_map(move |((word, end), place)| {
        // The deepest that is not refused.
        let most = LEADING + 1 - depth_of(end);
        let upward: Vec<u32> = (0..=most).map(|number| place + 8 * number).collect();
        let downward: Vec<u32> = upward.iter().rev().copied().collect();
        let turns = upward.iter().zip(&downward);
        let turns: Vec<u32> = turns.flat_map(|(low, high)| [*low, *high]).collect();
        let orders = [
            ("upward", upward),
            ("downward", downward),
            ("in turn", turns),
        ];
        orders.map(|(order, fields)| {
            let fields: Vec<u32> = fields.into_iter().cycle().take(types).collect();
            let name = format!("{types} aliases from {place} on {order} to {word}");
            Input::new(name, aliases(&fields, leading_to(end, place)))
        })
    })
}

/// The refusals that come last: the same aliases, and behind them one that is a description deeper than a tree may be,
/// as a pointer, a safe array or an array to a tree of 32. That tree was read before, or only those inside it.
pub fn refused_last(types: usize) -> impl Iterator<Item = Input> {
    let deepest = 8 * LEADING;
    let above = deepest + 8;
    let outer = [
        ("a pointer to it", [CODE_POINTER, deepest]),
        ("a safe array of it", [CODE_SAFE_ARRAY, deepest]),
        ("an array of it", [CODE_ARRAY, 24]),
    ];
    let read = [
        ("a tree of 32", vec![deepest]),
        (
            "trees of 1 to 31",
            (0..LEADING).map(|number| 8 * number).collect(),
        ),
    ];
    read.into_iter().flat_map(move |(word, fields)| {
        outer.map(|(outer, descriptor)| {
            let mut descriptors = leading_to([3, 0], 0);
            descriptors.extend(words(descriptor));
            let mut all: Vec<u32> = fields.iter().copied().cycle().take(types - 1).collect();
            all.push(above);
            let name = format!("{types} types, {word}, then {outer}");
            Input::new(name, aliases(&all, descriptors))
        })
    })
}

/// Many types with the parameters of `one_field`, and a last one that is refused: its tree has 33 descriptions and
/// begins outside of the one that was read for every parameter; or the typeinfo is cut.
pub fn many_then(types: usize, last: Last) -> Vec<u8> {
    let mut offsets = vec![0; types];
    offsets[types - 1] = TYPEINFO_SIZE as i32;
    let table = 4 * types;
    let mut layout = Layout::new(offsets);
    layout.header_word(0x04, (layout::HEADER_SIZE - 4 + table) as u32);
    layout.header_word(0x18, (table / 12) as u32);
    let mut typeinfos = typeinfo(0, -1, 1);
    set_word(&mut typeinfos, 0x04, 0);
    let mut descriptors = large::pointers(32);
    let outside = descriptors.len() as i32;
    descriptors.extend(words([CODE_POINTER, 0]));
    let alias = typeinfo(6, outside, 0);
    typeinfos.extend(match last {
        Last::TooDeep => &alias[..],
        Last::Short => &alias[..TYPEINFO_SIZE - 1],
    });
    layout.table(layout::DESCRIPTORS, descriptors);
    // At the end, so that a short one has no byte behind it.
    layout.table(layout::TYPEINFOS, typeinfos);
    layout.bytes()
}

/// The type that comes last.
#[derive(Clone, Copy)]
pub enum Last {
    TooDeep,
    Short,
}

/// How many descriptors a drawn table has.
const DRAWN: usize = 80;

/// A library with drawn descriptors, each of which holds one before it, so that no tree comes round; many are shared.
/// Every type has a function whose result, two parameters and a variable have drawn fields, and some types are aliases.
/// In some each descriptor holds the one right before, up to trees of 31 to 34 descriptions.
pub fn drawn(random: &mut Random, types: usize) -> Vec<u8> {
    let is_deep = random.percent(30);
    let highest = if is_deep { 30 + random.below(4) } else { DRAWN };
    let offsets = (0..types).map(|number| (TYPEINFO_SIZE * number) as i32);
    let mut layout = Layout::new(offsets.collect());
    let (mut typeinfos, mut blocks) = (Vec::new(), Vec::new());
    for _ in 0..types {
        let kind = random.one_of(&[0, 6, 6]);
        let base = field(random, highest) as i32;
        typeinfos.extend(typeinfo(kind, base, 1 << 16 | 1));
        let fields = array::from_fn(|_| field(random, highest));
        blocks.push(members(fields));
    }
    layout.table(layout::TYPEINFOS, typeinfos);
    layout.table(layout::DESCRIPTORS, descriptors(random, is_deep));
    tables_at_hand(&mut layout);
    for (number, block) in blocks.into_iter().enumerate() {
        let block = layout.block(block);
        layout.memoffset(TYPEINFO_SIZE * number, block);
    }
    layout.bytes()
}

/// Drawn descriptors, of which few are ends; where they are deep, next to none.
fn descriptors(random: &mut Random, is_deep: bool) -> Vec<u8> {
    let (farthest, ends) = if is_deep { (1, 1) } else { (12, 5) };
    let mut descriptors = Vec::new();
    for number in 0..DRAWN {
        let before = number.checked_sub(1 + random.below(farthest));
        let inner = before.map_or(BASE, |before| 8 * before as u32);
        let code = random.one_of(&[CODE_POINTER, CODE_POINTER, CODE_SAFE_ARRAY]);
        let end = random.one_of(&ENDS).1;
        descriptors.extend(words(match random.percent(ends) {
            true => end,
            false => [code, inner],
        }));
    }
    descriptors
}

/// The field of one of so many descriptors; now and then one between two of them, or past them.
fn field(random: &mut Random, highest: usize) -> u32 {
    let at = 8 * random.below(highest) as u32;
    match random.below(40) {
        0 => at + 4,
        1 => at + 1,
        2 => random.one_of(&[BASE, 65_535, 65_536, at | 1 << 16, i32::MAX as u32]),
        _ => at,
    }
}

/// The block of a function of two parameters and a variable.
fn members([result, one, two, variable]: [u32; 4]) -> Vec<u8> {
    let none = u32::MAX;
    let function = words([48, result, 0, 0, 0, 2, one, none, 0, two, none, 0]);
    [words([68]), function, words([20, variable, 0, 0, 0])].concat()
}
