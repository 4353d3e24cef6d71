//! The reference's answers in the form that the header gives them: a number of at most 32 bits is the
//! reply; anything else is a row of values, little-endian and at their own widths, in the output.

use crate::readings::{NOTHING, place_in};
use crate::text_check::TextCheck;
use crate::{Guid, SafeArrayBound, TypeKind, VarRecord};

/// What an export answers: a number, the bytes that it writes, or a refusal.
#[derive(Clone, Debug, PartialEq, Eq)]
pub enum Answer {
    Number(u32),
    Row(Vec<u8>),
    /// A cursor that has nothing left and has yielded nothing, whose numbers before these two are left to the
    /// program.
    Ended(Vec<u8>),
    Refused(u8),
}

/// A value of the reference, told as an answer about the lent bytes.
pub(super) trait Tell {
    fn tell(self, lent: &[u8]) -> Answer;
}

/// The reference's `None`.
impl<T: Tell> Tell for Option<T> {
    fn tell(self, lent: &[u8]) -> Answer {
        self.map_or(Answer::Refused(NOTHING), |value| value.tell(lent))
    }
}

macro_rules! numbers_by_bits {
    ($($number:ty as $bits:ty),*) => {$(
        impl Tell for $number {
            fn tell(self, _: &[u8]) -> Answer {
                Answer::Number(u32::from(self as $bits))
            }
        }
    )*};
}

numbers_by_bits!(
    bool as u8, u8 as u8, u16 as u16, u32 as u32, i16 as u16, i32 as u32
);

/// The number that the reference takes the kind from.
impl Tell for TypeKind {
    fn tell(self, lent: &[u8]) -> Answer {
        let raw = (0..=u8::MAX).find(|raw| TypeKind::from_raw(*raw) == self);
        raw.expect("a kind comes from a number").tell(lent)
    }
}

impl Tell for usize {
    fn tell(self, _: &[u8]) -> Answer {
        Row::new().sizes([self]).answer()
    }
}

/// A part of the lent bytes: its place and its length.
impl Tell for &[u8] {
    fn tell(self, lent: &[u8]) -> Answer {
        Row::new().place(lent, self).answer()
    }
}

impl Tell for &str {
    fn tell(self, lent: &[u8]) -> Answer {
        self.as_bytes().tell(lent)
    }
}

/// A text that the reference makes.
impl Tell for String {
    fn tell(self, _: &[u8]) -> Answer {
        Answer::Row(self.into_bytes())
    }
}

impl Tell for Guid<'_> {
    fn tell(self, lent: &[u8]) -> Answer {
        self.as_bytes().tell(lent)
    }
}

impl Tell for VarRecord<'_> {
    fn tell(self, lent: &[u8]) -> Answer {
        self.as_bytes().tell(lent)
    }
}

impl Tell for SafeArrayBound {
    fn tell(self, _: &[u8]) -> Answer {
        let (count, lower) = (self.count(), self.lower_bound());
        Row::new()
            .le(count.to_le_bytes())
            .le(lower.to_le_bytes())
            .answer()
    }
}

impl Tell for TextCheck {
    fn tell(self, _: &[u8]) -> Answer {
        Row::new().le(self.bytes()).answer()
    }
}

impl Tell for Row {
    fn tell(self, _: &[u8]) -> Answer {
        self.answer()
    }
}

/// Values one behind another.
#[derive(Default)]
pub(super) struct Row(Vec<u8>);

impl Row {
    pub fn new() -> Self {
        Row::default()
    }

    /// The bytes of a value, the lowest first.
    pub fn le<const N: usize>(mut self, bytes: [u8; N]) -> Self {
        self.0.extend(bytes);
        self
    }

    /// Places, lengths, indexes and a cursor's numbers: eight bytes each.
    pub fn sizes<const N: usize>(self, sizes: [usize; N]) -> Self {
        sizes
            .into_iter()
            .fold(self, |row, size| row.le((size as u64).to_le_bytes()))
    }

    /// The place of a part of the lent bytes, and its length.
    pub fn place(self, lent: &[u8], part: &[u8]) -> Self {
        self.sizes([place_in(lent, part), part.len()])
    }

    pub fn answer(self) -> Answer {
        Answer::Row(self.0)
    }

    pub fn bytes(self) -> Vec<u8> {
        self.0
    }
}
