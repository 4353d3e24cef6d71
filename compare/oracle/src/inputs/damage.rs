//! Libraries with something changed: at random, or aimed at the fields that a sheet reads.

use super::layout::{set_word, word};
use super::misplaced;
use crate::enumerate::{self, Placed};
use crate::library::TYPE_DESCRIPTOR_SEGMENT;
use crate::random::Random;
use crate::readings::Kind;
use crate::{TypeInfoEntry, TypeKind, TypeLib, inputs::layout};

/// The most changes to one library.
const MOST_CHANGES: usize = 4;

/// The most bytes that are put behind a library.
const MOST_ADDED: usize = 40;

/// The place of a base in a typeinfo, and of a type descriptor's second word; its size, and the code of one that holds
/// a reference.
const BASE: usize = 0x54;
const SECOND_WORD: usize = 4;
const DESCRIPTOR_SIZE: usize = 8;
const REFERENCE_DESCRIPTOR: i32 = 29;

/// A library to be damaged, and the records that the reference finds in it.
pub struct Victim {
    pub name: String,
    pub bytes: Vec<u8>,
    records: Vec<Placed>,
    segments: Vec<(usize, usize)>,
    /// The places of the words that are references.
    references: Vec<usize>,
    type_count: usize,
}

impl Victim {
    /// A library that can be parsed.
    pub fn new(name: String, bytes: Vec<u8>) -> Self {
        let lib = TypeLib::parse(&bytes).expect("a real library is well formed");
        let records = enumerate::records(&lib);
        let segments = (0..15).filter_map(|number| lib.segment(number)).collect();
        let references = references(&lib, &records);
        let type_count = lib.typeinfo_count();
        Victim {
            name,
            records,
            segments,
            references,
            type_count,
            bytes,
        }
    }

    /// Whether some word of it is a reference.
    pub fn has_references(&self) -> bool {
        !self.references.is_empty()
    }

    /// The library with one, some or all of its references replaced by ones that hit no typeinfo, or their neighbours.
    pub fn with_other_references(&self, random: &mut Random) -> Vec<u8> {
        let mut bytes = self.bytes.clone();
        let times = random.one_of(&[0, 40, 100]);
        let always = random.below(self.references.len().max(1));
        for (index, at) in self.references.iter().enumerate() {
            if index == always || random.percent(times) {
                let number = misplaced::drawn(random, self.type_count);
                set_word(&mut bytes, *at, number as u32);
            }
        }
        bytes
    }

    /// The library with one to a few changes.
    pub fn damaged(&self, random: &mut Random) -> Vec<u8> {
        let mut bytes = self.bytes.clone();
        for _ in 0..=random.below(MOST_CHANGES) {
            if random.percent(60) {
                self.aim(random, &mut bytes);
            } else {
                change(random, &mut bytes);
            }
        }
        bytes
    }

    /// Changes a word of a record, of a table, of the directory or of the header.
    fn aim(&self, random: &mut Random, bytes: &mut [u8]) {
        let at = match random.below(10) {
            0..6 if !self.records.is_empty() => self.field(random),
            6 | 7 if !self.segments.is_empty() => {
                let (start, length) = random.one_of(&self.segments);
                start + 4 * random.below(length.div_ceil(4))
            }
            8 => 4 * random.below(21),
            _ => 84 + 4 * random.below(80),
        };
        let value = if random.percent(25) {
            self.place(random)
        } else {
            interesting(random, bytes, at)
        };
        if at + 4 <= bytes.len() {
            set_word(bytes, at, value);
        }
    }

    /// The place of a field of a record.
    fn field(&self, random: &mut Random) -> usize {
        let record = random.one_of(&self.records);
        let fields: &[usize] = match record.kind {
            Kind::TypeInfo => &[0x00, 0x04, 0x18, 0x2C, 0x34, 0x54],
            Kind::Func => &[0x00, 0x04, 0x08, 0x0C, 0x10, 0x14],
            Kind::Var => &[0x00, 0x04, 0x0C, 0x10],
            Kind::RefRecord => &[0x00, 0x04, 0x0C],
            Kind::Param | Kind::ImpInfo => &[0x00, 0x04, 0x08],
            Kind::ArrayDesc => &[0x00, 0x04],
            Kind::ImpFile => &[0x00, 0x0C],
            _ => &[0x00],
        };
        record.at + random.one_of(fields)
    }

    /// The place of a record, from the file's start or from that of a segment.
    fn place(&self, random: &mut Random) -> u32 {
        if self.records.is_empty() || self.segments.is_empty() {
            return random.number() as u32;
        }
        let place = random.one_of(&self.records).at;
        let (segment, _) = random.one_of(&self.segments);
        let start = random.one_of(&[0, segment]);
        place.wrapping_sub(start) as u32
    }
}

/// The places of a library's references: bases of kinds 3 and 4, chain records, and descriptors that hold one.
fn references(lib: &TypeLib, records: &[Placed]) -> Vec<usize> {
    let held = records.iter().filter_map(|record| match record.kind {
        Kind::TypeInfo => {
            let typeinfo = TypeInfoEntry::new(&lib.data()[record.at..][..record.len]);
            let kinds = [TypeKind::Interface, TypeKind::Dispatch];
            let has_base = kinds.contains(&typeinfo.typekind());
            has_base.then_some(record.at + BASE)
        }
        Kind::RefRecord => Some(record.at),
        _ => None,
    });
    let (start, length) = lib.segment(TYPE_DESCRIPTOR_SEGMENT).unwrap_or((0, 0));
    let descriptors = (0..length.min(lib.data().len())).step_by(DESCRIPTOR_SIZE);
    let user_defined = descriptors.filter(|offset| {
        let descriptor = lib.type_desc(*offset as i32);
        descriptor.is_some_and(|(first, _)| first & 0xFFF == REFERENCE_DESCRIPTOR)
    });
    let described = user_defined.map(|offset| start + offset + SECOND_WORD);
    held.chain(described).collect()
}

/// One change anywhere in the bytes.
pub fn change(random: &mut Random, bytes: &mut Vec<u8>) {
    if bytes.len() < 8 {
        return;
    }
    let at = random.below(bytes.len() - 4);
    let aligned = at & !3;
    match random.below(12) {
        0..3 => {
            let value = interesting(random, bytes, aligned);
            set_word(bytes, aligned, value);
        }
        3 => set_half(random, bytes, at & !1),
        4 | 5 => bytes[at] = random.number() as u8,
        6 | 7 => bytes[at] ^= 1 << random.below(8),
        8 => bytes.truncate(at),
        9 => {
            let count = random.below(MOST_ADDED);
            bytes.extend(random.bytes(count));
        }
        10 => swap_words(random, bytes, aligned),
        _ => {
            let from = random.below(bytes.len() - 4) & !3;
            let value = word(bytes, from);
            set_word(bytes, aligned, value);
        }
    }
}

fn set_half(random: &mut Random, bytes: &mut [u8], at: usize) {
    let any = random.number() as u16;
    let value = random.one_of(&[0, 1, 23, 24, 0x7FFF, 0x8000, 0xFFFF, any]);
    bytes[at..at + 2].copy_from_slice(&value.to_le_bytes());
}

fn swap_words(random: &mut Random, bytes: &mut [u8], at: usize) {
    let other = random.below(bytes.len() - 4) & !3;
    let (one, two) = (word(bytes, at), word(bytes, other));
    set_word(bytes, at, two);
    set_word(bytes, other, one);
}

/// A value for the word at this place that may decide something.
fn interesting(random: &mut Random, bytes: &[u8], at: usize) -> u32 {
    let old = if at + 4 <= bytes.len() {
        word(bytes, at)
    } else {
        0
    };
    let length = bytes.len() as u32;
    match random.below(8) {
        0 => random.one_of(&[0, 1, u32::MAX, 0x7FFF_FFFF, 0x8000_0000, layout::HELP_DLL]),
        1 => old.wrapping_add(random.one_of(&[1, 4, 8, 16, 100, u32::MAX, u32::MAX - 3])),
        2 => old ^ 1 << random.below(32),
        3 => length.wrapping_sub(random.below(130) as u32),
        4 => random.below(256) as u32,
        5 => random.below(bytes.len().max(1)) as u32,
        6 => old ^ 0xFFFF & random.number() as u32,
        _ => random.number() as u32,
    }
}
