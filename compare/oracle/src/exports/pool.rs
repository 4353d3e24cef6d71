//! The numbers that exports are asked with: real ones, which a library itself names, and hostile ones.

pub(super) mod found;

use std::collections::HashMap;

use super::Parsed;
use super::numbers::{Asks, Cursor, Numbers, Words};
use crate::inputs::misplaced;
use crate::random::Random;
use crate::readings::Kind;
use found::{Found, SEGMENTS};

/// How often out of a hundred draws the numbers are real, and how often one real number is changed.
const REAL: usize = 60;
const CHANGED: usize = 20;

/// The real numbers of an input, by what they mean.
pub struct Pool {
    length: usize,
    segments: [(usize, usize); SEGMENTS],
    real: HashMap<Asks, Vec<Numbers>>,
}

/// The counts that a cursor must have had: none, and the two largest.
pub const EDGE_COUNTS: [usize; 3] = [0, usize::MAX - 1, usize::MAX];

/// How far beside a real number one is that is near it.
const NEAR: usize = 20;

/// References are drawn around those of libraries with fewer types.
const FEW_TYPES: usize = 6;

impl Pool {
    pub fn new(bytes: &[u8]) -> Self {
        let input = Parsed::new(bytes);
        let found = input
            .lib
            .as_ref()
            .map_or_else(|_| Found::default(), Found::new);
        Pool {
            length: bytes.len(),
            segments: found.segments,
            real: found.real,
        }
    }

    /// Every real set of numbers, each with an index drawn for it where it has none of its own.
    pub fn every(&self, asks: Asks, random: &mut Random) -> Vec<Numbers> {
        let mut all = self.real.get(&asks).cloned().unwrap_or_default();
        for numbers in &mut all {
            if let Asks::Record(_) = asks {
                numbers[2] = self.index(random);
            }
        }
        all
    }

    /// So many sets of numbers. Where there are no numbers, one is all there is.
    pub fn drawn(&self, count: usize, asks: Asks, random: &mut Random) -> Vec<Numbers> {
        let count = match asks {
            Asks::Nothing => 1,
            _ => count,
        };
        (0..count).map(|_| self.draw(asks, random)).collect()
    }

    /// A set of numbers: a real one, one of which a number is changed, or a hostile one.
    fn draw(&self, asks: Asks, random: &mut Random) -> Numbers {
        let real = self.real.get(&asks).filter(|real| !real.is_empty());
        let choice = random.below(100);
        let Some(real) = real.filter(|_| choice < REAL + CHANGED) else {
            return self.hostile(asks, random);
        };
        let mut numbers = random.one_of(real);
        if choice >= REAL {
            let which = random.below(numbers.len());
            numbers[which] = match random.percent(50) {
                true => self.hostile(asks, random)[which],
                false => beside(numbers[which], random),
            };
        } else if let Asks::Record(_) = asks {
            numbers[2] = self.index(random);
        }
        numbers
    }

    fn hostile(&self, asks: Asks, random: &mut Random) -> Numbers {
        match asks {
            Asks::Nothing => [0; 4],
            Asks::Record(kind) => self.place(kind, random),
            Asks::Segment => [self.index(random), 0, 0, 0],
            Asks::Type | Asks::Member => [self.index(random), self.index(random), 0, 0],
            Asks::Word(words) => [self.word(words, random) as u32 as usize, 0, 0, 0],
            Asks::Cursor(cursor) => {
                let mut numbers = [self.size(random), self.size(random), self.size(random), 0];
                if cursor == Cursor::Chain {
                    numbers[2] = self.word(Words::Reference, random) as u32 as usize;
                }
                numbers[cursor.count_at()] = count(random);
                numbers
            }
            Asks::RawKind => [random.below(1 << 8), 0, 0, 0],
            Asks::Code if random.percent(50) => [random.below(1 << 6), 0, 0, 0],
            Asks::Code => [random.below(1 << 16), 0, 0, 0],
            Asks::Hreftype => [hreftype(random) as u32 as usize, 0, 0, 0],
        }
    }

    /// A place that may hold no whole record: around the file's end, around the fixed part's length.
    fn place(&self, kind: Kind, random: &mut Random) -> Numbers {
        let fixed = kind.fixed_part();
        let near = [
            0,
            fixed.saturating_sub(1),
            fixed,
            fixed + 1,
            fixed + 8,
            fixed + 100,
        ];
        let len = match random.percent(80) {
            true => random.one_of(&near),
            false => self.size(random),
        };
        // Half of them end at the file's end, or a byte or so beside it.
        let at = match random.percent(50) {
            true => (self.length + random.below(3)).wrapping_sub(len.wrapping_add(1)),
            false => self.size(random),
        };
        [at, len, self.index(random), 0]
    }

    /// A small number, or any size.
    fn index(&self, random: &mut Random) -> usize {
        match random.below(10) {
            0..5 => random.below(4),
            5 => random.below(20),
            6 => random.below(70_000),
            _ => self.size(random),
        }
    }

    /// A size around 0, the file's length, or the edges of 32 and 64 bits; or a place in the file.
    fn size(&self, random: &mut Random) -> usize {
        let edges = [
            0,
            self.length,
            1 << 16,
            1 << 31,
            1 << 32,
            1 << 61,
            1 << 62,
            1 << 63,
            usize::MAX / 100,
            usize::MAX,
        ];
        match random.below(10) {
            0..5 => random.below(self.length + 1),
            5 | 6 => (self.length + 2).wrapping_sub(random.below(130)),
            _ => random
                .one_of(&edges)
                .wrapping_add(random.below(9))
                .wrapping_sub(4),
        }
    }

    /// A word around 0, the edges of 32 bits, its segment's end, or the file's end counted from the
    /// segment; a multiple of a record's size, or a byte beside; or a reference.
    fn word(&self, words: Words, random: &mut Random) -> i32 {
        let (start, length) = self.segments[words.segment()];
        let beside = random.below(5) as i32 - 2;
        let edge = match random.below(12) {
            0 => 0,
            1 => -1,
            2 => i32::MIN,
            3 => i32::MAX,
            4 | 5 => length as i32 - random.below(20) as i32,
            6 | 7 => (self.length as i32).wrapping_sub(start as i32) - random.below(40) as i32,
            8 => random.one_of(&[4, 8, 12, 24, 100]) * random.below(50) as i32,
            9 => return hreftype(random),
            10 => random.below(length.max(1)) as i32,
            _ => return random.number() as i32,
        };
        edge.wrapping_add(beside)
    }
}

/// A reference around those of a library of few types.
fn hreftype(random: &mut Random) -> i32 {
    let count = random.below(FEW_TYPES);
    misplaced::drawn(random, count)
}

/// The count of a cursor: none, one of the two largest, a small one, or any.
fn count(random: &mut Random) -> usize {
    match random.below(5) {
        edge @ 0..3 => EDGE_COUNTS[edge],
        3 => random.below(100),
        _ => random.number() as usize,
    }
}

/// A number near a real one.
fn beside(number: usize, random: &mut Random) -> usize {
    number
        .wrapping_add(random.below(2 * NEAR + 1))
        .wrapping_sub(NEAR)
}
