//! Functions whose parameters lie over the offset table: each word of the table is a type's offset and, for each of the
//! types, a word of a parameter. So types and parameters are both as many as the table has words.

use super::{BASE, CODE_ARRAY, CODE_POINTER};
use crate::inputs::large::{self, typeinfo};
use crate::inputs::layout::{self, HEADER_SIZE, Layout, TYPEINFO_SIZE, set_word, words};
use crate::random::Random;

/// The most descriptions of a tree.
const LEVELS: usize = 32;

/// The flag of a function that has default values, in its word at 0x10.
const HAS_DEFAULTS: u32 = 0x1000;

/// All words are 0: every type is the first typeinfo, and every parameter has the same tree of 32. A program that reads
/// each tree reads 2,700 million descriptions.
pub fn one_field(types: usize) -> Vec<u8> {
    large::overlapping(types, LEVELS)
}

/// A typeinfo whose function begins with the header's second word: the header is the function's fixed part.
fn in_header() -> Vec<u8> {
    let mut bytes = typeinfo(0, -1, 1);
    set_word(&mut bytes, 0x04, 0);
    bytes
}

/// A library of these words, and the function that begins with the header's second word.
fn header_function(offsets: Vec<i32>, parameters: usize, flags: u32) -> Layout {
    let size = HEADER_SIZE - 4 + 4 * offsets.len();
    let mut layout = Layout::new(offsets);
    layout.header_word(0x04, size as u32);
    // The function's type, and the library's GUID.
    layout.header_word(0x08, BASE);
    layout.header_word(0x14, flags);
    layout.header_word(0x18, parameters as u32);
    layout
}

/// Each parameter has a name and a default value too, and these are read each time. A quarter of the words are the
/// default values, and of the rest each third is a type field, a name's offset and a parameter's flags; the typeinfos
/// lie at what these are. No word of it is read twice for a type, so a program can look nothing up but the tree.
pub fn names_and_defaults(types: usize) -> Vec<u8> {
    const NAME: usize = TYPEINFO_SIZE;
    // It has the flag of a default value.
    const FLAGS: usize = 0xE0;
    let count = types / 4;
    let mut offsets = vec![0; count];
    for _ in 0..count {
        offsets.extend([0, NAME as i32, FLAGS as i32]);
    }
    let mut typeinfos = in_header().repeat(2);
    typeinfos.resize(FLAGS, 0);
    typeinfos.extend(in_header());
    let mut names = vec![0; NAME];
    names.extend(words([0, 0, 8]));
    names.extend(b"drawdraw");

    let mut layout = header_function(offsets, count, HAS_DEFAULTS);
    layout.table(layout::TYPEINFOS, typeinfos);
    layout.table(layout::DESCRIPTORS, large::pointers(LEVELS));
    layout.table(layout::NAMES, names);
    layout.table(layout::CONSTANTS, text());
    layout.bytes()
}

/// A stored constant that is a text.
fn text() -> Vec<u8> {
    [vec![8, 0], words([8]), b"returned".to_vec()].concat()
}

/// The same with words that are drawn from eight: constants of each width, names that are there and missing, trees of
/// eight depths and flags with a default value and without stand in no order, so that a processor foresees none.
pub fn drawn_words(types: usize) -> Vec<u8> {
    const CHOICES: usize = 8;
    let mut random = Random::new(5);
    let count = types / 4;
    let offsets = (0..4 * count).map(|_| (TYPEINFO_SIZE * random.below(CHOICES)) as i32);
    let mut layout = header_function(offsets.collect(), count, HAS_DEFAULTS);
    layout.table(layout::TYPEINFOS, in_header().repeat(CHOICES));

    let (mut descriptors, mut names, mut constants) = (Vec::new(), Vec::new(), Vec::new());
    for (number, code) in [8, 14, 11, 64, 2, 16, 5, 999].into_iter().enumerate() {
        let at = TYPEINFO_SIZE * number;
        descriptors.resize(at, 0);
        names.resize(at, 0);
        constants.resize(at, 0);
        // A pointer far inside, where the trees lie.
        let inside = TYPEINFO_SIZE * CHOICES + 32 * number;
        descriptors.extend(words([CODE_POINTER, inside as u32]));
        // A name of no byte, and one of 255, which passes its table at the last two.
        names.extend(words([0, 0, [0, 255][number % 2]]));
        constants.extend([code as u8, (code >> 8) as u8, 8, 0, 0, 0]);
    }
    descriptors.resize(TYPEINFO_SIZE * CHOICES, 0);
    let first = descriptors.len() as u32;
    descriptors.extend(inner_pointers(LEVELS - 2, first));
    constants.resize(constants.len() + 16, 1);
    layout.table(layout::DESCRIPTORS, descriptors);
    layout.table(layout::NAMES, names);
    layout.table(layout::CONSTANTS, constants);
    layout.bytes()
}

/// So many pointers that lie one behind another from this field on, the last to a base type.
fn inner_pointers(count: usize, first: u32) -> Vec<u8> {
    let mut descriptors = Vec::new();
    for number in 1..=count as u32 {
        let inner = match number == count as u32 {
            true => BASE,
            false => first + 8 * number,
        };
        descriptors.extend(words([CODE_POINTER, inner]));
    }
    descriptors
}

/// So many C arrays one inside another, described from this field on, each of so many dimensions; and their array
/// descriptors. These overlap: each begins eight bytes behind the one before, and what lies behind the last must be
/// long enough for its dimensions.
fn inner_arrays(count: usize, first: u32, dimensions: u32) -> (Vec<u8>, Vec<u8>) {
    let (mut descriptors, mut arrays) = (Vec::new(), Vec::new());
    for number in 1..=count as u32 {
        let element = match number == count as u32 {
            true => BASE,
            false => first + 8 * number,
        };
        descriptors.extend(words([CODE_ARRAY, 8 * (number - 1)]));
        arrays.extend(words([element, dimensions]));
    }
    (descriptors, arrays)
}

/// All words are 0, and the tree is 31 C arrays one inside another. With many dimensions a program that reads these one
/// by one takes long for each array.
pub fn arrays(types: usize, dimensions: usize) -> Vec<u8> {
    let (descriptors, mut arrays) = inner_arrays(LEVELS - 1, 0, dimensions as u32);
    arrays.resize(arrays.len() + 8 * dimensions, 0);
    let mut layout = header_function(vec![0; types], types / 3, 0);
    layout.table(layout::TYPEINFOS, in_header());
    layout.table(layout::DESCRIPTORS, descriptors);
    layout.table(layout::ARRAYS, arrays);
    layout.bytes()
}

/// Which bytes the many type fields are apart.
#[derive(Clone, Copy)]
pub enum Apart {
    Eight,
    Four,
    /// Four, and each quarter of them a byte further than the one before.
    Unaligned,
}

/// What stands inside the outermost pointer of each of the many fields.
#[derive(Clone, Copy)]
pub enum Inner {
    Pointers,
    /// As many dimensions as fit.
    Arrays,
}

/// The word of which the region is made that the many fields lie in. As a type's offset, with what lies there, it is a
/// typeinfo of no known kind with a block at byte 26 of the header and 26 functions, of which there is one; as a type
/// field it is a pointer to the field 26.
const EVERY_WORD: u32 = CODE_POINTER;

/// Where the function of that block begins.
const BLOCK: usize = EVERY_WORD as usize;
const RECORD: usize = BLOCK + 4;

/// Every parameter has a type field of its own, and each is a tree of 32: a program that keeps what few fields come to
/// reads most trees each time. The fields lie in a region that is full of one word, and the type's offsets do too.
pub fn many_fields(types: usize, apart: Apart, inner: Inner) -> Vec<u8> {
    let count = types / 3;
    let first = EVERY_WORD + 8 * (LEVELS as u32 - 1);
    let (region, fields) = region(count, first, apart);
    let dimensions = match inner {
        Inner::Pointers => 0,
        Inner::Arrays => region.len() as u32 / 8,
    };
    let depth = LEVELS - 2;
    let (descriptors, arrays) = match inner {
        Inner::Pointers => (inner_pointers(depth, EVERY_WORD), Vec::new()),
        Inner::Arrays => inner_arrays(depth, EVERY_WORD, dimensions),
    };
    let mut table = vec![0; EVERY_WORD as usize];
    table.extend(descriptors);
    table.resize(first as usize, 0);
    table.extend(region);

    let offsets = fields
        .iter()
        .flat_map(|field| [*field, first as i32, first as i32]);
    let mut layout = Layout::new(offsets.collect());
    function_behind_flags(&mut layout, 3 * count);
    let place = layout.first_place();
    let table_at = place + arrays.len();
    if !arrays.is_empty() {
        layout.block(arrays);
        layout.over(layout::ARRAYS, place);
    }
    layout.table(layout::DESCRIPTORS, table);
    layout.over(layout::TYPEINFOS, table_at);
    layout.bytes()
}

/// So many fields in a region that begins at this field, and its bytes.
fn region(count: usize, first: u32, apart: Apart) -> (Vec<u8>, Vec<i32>) {
    let word = words([EVERY_WORD]);
    let (mut bytes, mut fields) = (Vec::new(), Vec::new());
    for number in 0..count {
        if matches!(apart, Apart::Unaligned) && number > 0 && number % (count / 4).max(1) == 0 {
            // What lies before reads on through whole words.
            bytes.extend(word.repeat(TYPEINFO_SIZE / 4));
            bytes.push(0);
        }
        fields.push(first as i32 + bytes.len() as i32);
        bytes.extend(&word);
        if matches!(apart, Apart::Eight) {
            bytes.extend(&word);
        }
    }
    bytes.extend(word.repeat(TYPEINFO_SIZE / 4));
    (bytes, fields)
}

/// Writes the function into the header that all of the region's typeinfos have: its fixed part lies around the count of
/// types, and its parameters over the so many words of the offset table.
fn function_behind_flags(layout: &mut Layout, types: usize) {
    let size = (HEADER_SIZE + 4 * types - RECORD) as u32;
    layout.header_word(BLOCK, size);
    // The upper half is the count of types, which the record does not use.
    layout.header_word(RECORD, size | (types as u32) << 16);
    // The upper half of its type.
    layout.header_word(RECORD + 6, 0x8000);
    layout.header_word(RECORD + 0x14, types as u32 / 3);
}

/// The block of a function whose parameters have these type fields.
fn block(fields: &[u32]) -> Vec<u8> {
    let size = (24 + 12 * fields.len()) as u32;
    let mut block = words([size, size, BASE, 0, 0, 0, fields.len() as u32]);
    for field in fields {
        block.extend(words([*field, u32::MAX, 0]));
    }
    block
}

/// The field of a deep tree.
const DEEP: u32 = 1_000;

/// Types that share a function of its own block, so long that the library has this length. Its parameters' type fields
/// lie around every number at which a program may change its way (1,024 and 65,536), or are a deep tree's field and a
/// multiple of one of these, where there is nothing. A library of 256 types has few trees to keep; one of 257 many.
pub fn fields_by_height(types: usize, length: usize) -> Vec<u8> {
    let mut descriptors = vec![0; DEEP as usize];
    descriptors.extend(inner_pointers(LEVELS - 1, DEEP));
    let first = descriptors.len() as u32;
    descriptors.extend(words([CODE_POINTER, DEEP + 8]).repeat(100));
    let mut layout = Layout::new(vec![0; types]);
    let before = layout.first_place() + TYPEINFO_SIZE + descriptors.len() + 28;
    let count = length.saturating_sub(before) / 12;
    layout.table(layout::TYPEINFOS, typeinfo(0, -1, 1));
    layout.table(layout::DESCRIPTORS, descriptors);
    let block = layout.block(block(&heights(count, first)));
    layout.memoffset(0, block);
    layout.bytes()
}

/// So many fields, three of four of them those of a hundred deep trees from this field on.
fn heights(count: usize, first: u32) -> Vec<u32> {
    let edges = [
        DEEP,
        1_016,
        1_023,
        1_024,
        1_025,
        65_535,
        65_536,
        65_537,
        DEEP + 65_536,
        DEEP + 1_024,
        0,
        DEEP + (1 << 24),
        i32::MAX as u32,
        u32::MAX,
        BASE,
    ];
    let fields = (0..count).map(|number| match number % 4 {
        0 => edges[number / 4 % edges.len()],
        _ => first + 8 * (number % 100) as u32,
    });
    fields.collect()
}

/// The same with parameters that are 31 C arrays one inside another. Their field is one that a program may not keep for
/// few types, and their dimensions run over the parameters to the library's end.
pub fn unkept_arrays(types: usize, length: usize) -> Vec<u8> {
    const FIELD: u32 = 1_024;
    let mut layout = Layout::new(vec![0; types]);
    let place = layout.first_place() + TYPEINFO_SIZE + FIELD as usize + 8 * (LEVELS - 1);
    let before = place + 8 * (LEVELS - 1) + 28;
    let count = length.saturating_sub(before) / 12;
    let dimensions = (28 + 12 * count) / 8;
    let (inner, arrays) = inner_arrays(LEVELS - 1, FIELD, dimensions as u32);
    let mut descriptors = vec![0; FIELD as usize];
    descriptors.extend(inner);
    layout.table(layout::TYPEINFOS, typeinfo(0, -1, 1));
    layout.table(layout::DESCRIPTORS, descriptors);
    layout.block(arrays);
    layout.over(layout::ARRAYS, place);
    let block = layout.block(block(&vec![FIELD; count]));
    layout.memoffset(0, block);
    layout.bytes()
}
