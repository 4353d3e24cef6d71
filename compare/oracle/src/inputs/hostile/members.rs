//! Functions, variables and chains that lie over the offset table, so that every type has as many of them as there are
//! words for.

use super::{BASE, CODE_POINTER};
use crate::inputs::large::typeinfo;
use crate::inputs::layout::{self, HEADER_SIZE, Layout, TYPEINFO_SIZE, set_word, words};

/// The block's size word is the header's last, so that its records begin with the offset table.
const BLOCK: usize = HEADER_SIZE - 4;

/// A tree of 32 at this field: pointers from it on.
fn pointers_at(field: u32) -> Vec<u8> {
    let mut table = vec![0; field as usize];
    for number in 1..32 {
        let inner = match number == 31 {
            true => BASE,
            false => field + 8 * number,
        };
        table.extend(words([CODE_POINTER, inner]));
    }
    table
}

/// A table with a name at this offset.
fn name_at(offset: usize) -> Vec<u8> {
    let mut table = vec![0; offset];
    table.extend(words([0, 0, 8]));
    table.extend(b"drawdraw");
    table
}

/// Functions of 24 bytes without parameters, each with a memid, a name and a tree of 32. A quarter of the words are the
/// memids and names.
pub fn functions(types: usize) -> Vec<u8> {
    const SIZE: usize = 24;
    let count = types / 8;
    let mut offsets = Vec::new();
    for _ in 0..count {
        // Its size is its type, flags and kind too; it has no parameters.
        offsets.extend([SIZE as i32; 5]);
        offsets.push(0);
    }
    offsets.extend(vec![SIZE as i32; 2 * count]);
    let mut layout = Layout::new(offsets);
    layout.header_word(BLOCK, (SIZE * count) as u32);
    // The type at 0 has no members: its counts are the other's kind.
    let mut typeinfos = vec![0; SIZE];
    typeinfos.extend(typeinfo(0, -1, count as u32));
    set_word(&mut typeinfos, SIZE + 0x04, BLOCK as u32);
    layout.table(layout::TYPEINFOS, typeinfos);
    layout.table(layout::DESCRIPTORS, pointers_at(SIZE as u32));
    layout.table(layout::NAMES, name_at(SIZE));
    layout.bytes()
}

/// Variables of 20 bytes, each with a memid, a name, a tree of 32 and a stored text for its value. Two of seven words
/// are the memids and names. The variables' kind, 2, is a type's offset too: that typeinfo overlaps the other.
pub fn variables(types: usize) -> Vec<u8> {
    const SIZE: usize = 20;
    const KIND: usize = 2;
    let count = types / 7;
    let size = SIZE as i32;
    let mut offsets = [size, size, size, KIND as i32, size].repeat(count);
    offsets.extend(vec![size; 2 * count]);
    let mut layout = Layout::new(offsets);
    layout.header_word(BLOCK, (SIZE * count) as u32);

    let counts = (count as u32) << 16;
    let mut typeinfos = vec![0; SIZE + TYPEINFO_SIZE];
    for (at, value) in [
        (KIND + 0x04, BLOCK as u32),
        (KIND + 0x18, counts),
        // No GUID; its lower half is how many variables the other type has.
        (KIND + 0x2C, 0xFFFF_0000),
        (KIND + 0x34, u32::MAX),
        (SIZE + 0x04, BLOCK as u32),
        (SIZE + 0x18, counts),
        (SIZE + 0x2C, u32::MAX),
        (SIZE + 0x34, u32::MAX),
    ] {
        set_word(&mut typeinfos, at, value);
    }
    let mut constants = vec![0; SIZE];
    constants.extend([8, 0, 8, 0, 0, 0]);
    constants.extend(b"returned");
    layout.table(layout::TYPEINFOS, typeinfos);
    layout.table(layout::DESCRIPTORS, pointers_at(SIZE as u32));
    layout.table(layout::NAMES, name_at(SIZE));
    layout.table(layout::CONSTANTS, constants);
    layout.bytes()
}

/// One variable behind as many declared functions as there are words: each word, 4, is the size of a function that is
/// not yielded and that the variables begin behind. The last leads over the directory to the variable.
pub fn skipped_functions(types: usize) -> Vec<u8> {
    const STEP: usize = 4;
    const LAST: usize = STEP + 240;
    let mut offsets = vec![STEP as i32; types - 1];
    offsets.push(LAST as i32);
    let mut layout = Layout::new(offsets);
    let end = HEADER_SIZE + 4 * types + 240 + 20;
    layout.header_word(BLOCK, (end - HEADER_SIZE) as u32);
    layout.block(words([20, STEP as u32, 0, 2, STEP as u32]));
    let mut one = typeinfo(0, -1, 1 << 16 | types as u32);
    set_word(&mut one, 0x04, BLOCK as u32);
    let mut typeinfos = vec![0; STEP];
    typeinfos.extend(&one);
    typeinfos.resize(LAST, 0);
    typeinfos.extend(&one);
    layout.table(layout::TYPEINFOS, typeinfos);
    layout.table(layout::DESCRIPTORS, pointers_at(STEP as u32));
    layout.table(
        layout::CONSTANTS,
        [vec![0; STEP], vec![14, 0], vec![7; 16]].concat(),
    );
    layout.bytes()
}

/// The types share a block of functions of each size from 23 down to 1, which are not yielded, then one of 256, and
/// behind them a variable. Where `ends` is set the function of 5 has size 0, and there is no variable.
pub fn small_sizes(types: usize, ends: bool) -> Vec<u8> {
    let mut block = words([0]);
    for size in (2..24).rev() {
        let stored = if ends && size == 5 { 0 } else { size };
        let from = block.len();
        block.extend([stored, 0]);
        block.resize(from + usize::from(size), 0);
    }
    // The second byte is the lower half of the next size, 256, which begins there.
    block.extend([1, 0, 1]);
    block.resize(block.len() + 254, 0);
    block.extend(words([20, BASE, 0, 0, 0]));
    let size = block.len() as u32 - 4;
    set_word(&mut block, 0, size);
    let mut layout = Layout::new(vec![0; types]);
    layout.table(layout::TYPEINFOS, typeinfo(0, -1, 1 << 16 | 24));
    let block = layout.block(block);
    layout.memoffset(0, block);
    layout.bytes()
}

/// What the types of coclasses have beside a chain.
#[derive(Clone, Copy)]
pub enum Beside {
    Nothing,
    /// A function over the offset table, with names and default values.
    Defaults,
}

/// Coclasses whose chain lies over the offset table, so that each of the types has a reference to an import in every
/// second word: with a GUID, and a file that has a GUID and a name. Records of 16 bytes overlap by half: a record's
/// next lies in the record behind it, and only its reference, which is one word for all of them, is its own.
///
/// That word, `PLACE`, is the offset of a typeinfo too; the next offsets are other typeinfos. All of these lie over the
/// offset table and are made of these words: there the lower bits of a next offset are the kind, a coclass for each
/// second, and `PLACE` is the chain's beginning and the block's place. So three of four types have the whole chain, and
/// all have the block. `types` is odd, so that the last record's next is a word of -1 in the directory.
pub fn coclasses(types: usize, beside: Beside) -> Vec<u8> {
    let offsets = chain_words(types);
    // The typeinfo at `PLACE` must be a coclass.
    let is_coclass = |index: &usize| offsets[*index] & 0x0F == 5;
    let first = (3..types).step_by(2).find(is_coclass);
    let first = first.expect("each second next offset is that of a coclass");
    let references = HEADER_SIZE - PLACE;
    let mut layout = Layout::new(offsets);
    if matches!(beside, Beside::Defaults) {
        function_at_place(&mut layout, types);
    }
    // The function's kind, with default values; and for a chain that begins at 0, in the header, no next record.
    layout.header_word(PLACE + 4 + 0x10, 0xFFFF_1000);
    let import = PLACE & !3;
    let file = [words([0, 7, 1]), b"\x30\0ffffffff.tlb\0\0".to_vec()].concat();
    layout.table(
        layout::IMPORTS,
        [vec![0; import], words([0x1_0000, 0, 0])].concat(),
    );
    layout.table(layout::IMPORT_FILES, file);
    layout.table(layout::GUIDS, vec![7; 16]);
    layout.table(layout::DESCRIPTORS, pointers_at(PLACE as u32));
    layout.table(layout::NAMES, name_at(PLACE));
    // Stored constants of an unknown code, at each offset that is a word of the table.
    layout.over(layout::CONSTANTS, references);
    layout.over(layout::REFERENCES, references);
    layout.over(layout::TYPEINFOS, references + 4 * first);
    layout.bytes()
}

/// The place of the function's block in the header, and by its lower bits an import; as a parameter's flags it has a
/// default value.
const PLACE: usize = 0x25;

/// The words of the offset table: references at the even ones, and next offsets at the odd ones from the fourth on.
/// The chain passes all records but the last but one, whose next is the directory's first word.
fn chain_words(types: usize) -> Vec<i32> {
    let last = types / 2;
    let mut offsets = vec![PLACE as i32; types];
    for record in 0..last - 1 {
        let next = if record + 2 == last { last } else { record + 1 };
        offsets[2 * record + 3] = (PLACE + 8 * next) as i32;
    }
    offsets
}

/// Writes the function into the header that all of these types have.
fn function_at_place(layout: &mut Layout, types: usize) {
    let record = PLACE + 4;
    let size = (HEADER_SIZE + 4 * types - record) as u32;
    layout.header_word(PLACE, size);
    layout.header_word(record, size);
    layout.header_word(record + 0x04, BASE);
    layout.header_word(record + 0x14, types as u32 / 4);
}
