//! The check of a text as document 02's §3 has it, by Rust's own check: the reference gives a text or nothing, and not
//! how far it looked.

use std::str::{Utf8Error, from_utf8};

/// Whether bytes are UTF-8, and how many of them are looked at.
#[derive(Clone, Copy, Debug, PartialEq, Eq)]
pub struct TextCheck {
    pub valid: bool,
    pub looked: usize,
}

impl TextCheck {
    /// How many bytes it has where it is written.
    pub const BYTES: usize = 9;

    /// 1 or 0 for whether the text is valid, and how many bytes are looked at, in eight bytes.
    pub fn bytes(self) -> [u8; Self::BYTES] {
        let mut bytes = [u8::from(self.valid); Self::BYTES];
        bytes[1..].copy_from_slice(&(self.looked as u64).to_le_bytes());
        bytes
    }
}

/// What the check replies of these bytes. All of a valid text are looked at.
pub fn text_check(text: &[u8]) -> TextCheck {
    let error = from_utf8(text).err();
    TextCheck {
        valid: error.is_none(),
        looked: error.map_or(text.len(), |error| looked(text, error)),
    }
}

/// How many bytes are looked at of a text with this error: the whole length, unless some beginning of it is the beginning
/// of no valid text; then the length of the shortest such beginning.
///
/// Where `error_len` is `None` the text only breaks off: more bytes could mend it, so it begins a valid text itself. Where it
/// is `Some(k)`, the k bytes at `valid_up_to` are the longest part of a character there. The bytes with that part still
/// begin a valid text, and with the byte behind it they begin none. But where already the first byte there begins no
/// character, k is 1, and this byte is the one.
fn looked(text: &[u8], error: Utf8Error) -> usize {
    let at = error.valid_up_to();
    match error.error_len() {
        None => text.len(),
        Some(1) if begins_no_text(&text[at..at + 1]) => at + 1,
        Some(part) => at + part + 1,
    }
}

/// Whether no valid text begins with these bytes: no bytes behind them could mend them.
pub fn begins_no_text(bytes: &[u8]) -> bool {
    from_utf8(bytes).is_err_and(|error| error.error_len().is_some())
}

// Nothing here is the reference's, so the tests are not run once more over its copy.
#[cfg(all(test, not(bounded)))]
mod tests {
    use std::collections::HashSet;

    use super::{TextCheck, begins_no_text, text_check};
    use crate::inputs::text_bytes::{EDGE_BYTES, drawn, strings};
    use crate::random::Random;

    /// The words of the definition: the shortest beginning that begins no valid text, or the whole length.
    fn by_its_words(text: &[u8], begins_none: impl Fn(&[u8]) -> bool) -> usize {
        let mut beginnings = 0..=text.len();
        let shortest = beginnings.find(|length| begins_none(&text[..*length]));
        shortest.unwrap_or(text.len())
    }

    /// All texts of up to three bytes, those of four at the edges, and drawn ones.
    fn for_each_text(check: impl Fn(&[u8])) {
        let any: Vec<u8> = (0..=u8::MAX).collect();
        let short = (0..4).flat_map(|length| strings(&any, length));
        let mut random = Random::new(3);
        let drawn = (0..2_000).map(|_| drawn(200, &mut random));
        let all = short.chain(strings(&EDGE_BYTES, 4)).chain(drawn);
        all.for_each(|text| check(&text));
    }

    #[test]
    fn the_count_is_the_shortest_beginning_that_cannot_be_mended() {
        for_each_text(|text| {
            let words = by_its_words(text, begins_no_text);
            assert_eq!(text_check(text).looked, words, "{text:x?}");
        });
    }

    /// What is left of the bytes behind the characters that they begin with.
    fn behind<'a>(mut bytes: &'a [u8], characters: &HashSet<Vec<u8>>) -> &'a [u8] {
        let is_one =
            |bytes: &[u8], length| bytes.len() >= length && characters.contains(&bytes[..length]);
        while let Some(length) = (1..=4).find(|length| is_one(bytes, *length)) {
            bytes = &bytes[length..];
        }
        bytes
    }

    /// The same by the characters themselves: a valid text is a row of them, and what begins one is such a row with the
    /// beginning of a character behind it.
    #[test]
    fn what_cannot_be_mended_is_no_row_of_characters_and_a_beginning_of_one() {
        let mut characters = HashSet::new();
        let mut beginnings = HashSet::from([Vec::new()]);
        for character in '\0'..=char::MAX {
            let mut bytes = [0; 4];
            let bytes = character.encode_utf8(&mut bytes).as_bytes();
            characters.insert(bytes.to_vec());
            beginnings.extend((1..bytes.len()).map(|length| bytes[..length].to_vec()));
        }
        for_each_text(|text| {
            let begins_none = |bytes: &[u8]| !beginnings.contains(behind(bytes, &characters));
            let right = TextCheck {
                valid: behind(text, &characters).is_empty(),
                looked: by_its_words(text, begins_none),
            };
            assert_eq!(text_check(text), right, "{text:x?}");
        });
    }

    #[test]
    fn the_last_byte_looked_at_is_the_first_that_no_text_has_there() {
        let looked = |text: &[u8]| {
            let check = text_check(text);
            (check.valid, check.looked)
        };
        assert_eq!(looked(b""), (true, 0));
        assert_eq!(looked(b"caf\xC3\xA9"), (true, 5));
        assert_eq!(looked(b"a\xF0\x9F\x98"), (false, 4));
        assert_eq!(looked(b"a\x80bc"), (false, 2));
        assert_eq!(looked(b"\xC3abc"), (false, 2));
        assert_eq!(looked(b"\xE2\x82abc"), (false, 3));
        assert_eq!(looked(b"\xF0\x9F\x98abc"), (false, 4));
        assert_eq!(looked(b"\xED\xA0\x80"), (false, 2));
    }
}
