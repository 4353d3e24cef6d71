//! Bytes to be checked as a text: all of a few bytes, and drawn ones.

use super::records::INVALID_NAMES;
use crate::random::Random;

/// The first and the last byte of each range in RFC 3629's grammar, and the bytes beside these.
pub const EDGE_BYTES: [u8; 24] = [
    0x00, 0x7F, 0x80, 0x8F, 0x90, 0x9F, 0xA0, 0xBF, 0xC0, 0xC1, 0xC2, 0xDF, 0xE0, 0xE1, 0xEC, 0xED,
    0xEE, 0xEF, 0xF0, 0xF1, 0xF3, 0xF4, 0xF5, 0xFF,
];

/// All strings of so many of the given bytes.
pub fn strings(bytes: &[u8], length: u32) -> impl Iterator<Item = Vec<u8>> {
    let count = bytes.len();
    let byte = move |number: usize, place| bytes[number / count.pow(place) % count];
    let string = move |number| (0..length).map(|place| byte(number, place)).collect();
    (0..count.pow(length)).map(string)
}

/// The first and the last character of each range that takes as many bytes, on both sides of the surrogates.
const RANGES: [(char, char); 5] = [
    ('\0', '\u{7F}'),
    ('\u{80}', '\u{7FF}'),
    ('\u{800}', '\u{D7FF}'),
    ('\u{E000}', '\u{FFFF}'),
    ('\u{10000}', char::MAX),
];

/// The lengths up to which drawn texts are short or middling.
const SHORT: usize = 24;
const MIDDLING: usize = 600;

/// The most faults of a drawn text.
const MOST_FAULTS: usize = 2;

/// A text of at most so many bytes, mostly a short one, with a few faults or none.
pub fn drawn(most: usize, random: &mut Random) -> Vec<u8> {
    let longest = match random.below(10) {
        0..5 => most.min(SHORT),
        5..9 => most.min(MIDDLING),
        _ => most,
    };
    let mut text = valid(random.below(longest + 1), random);
    for _ in 0..random.below(MOST_FAULTS + 1) {
        damage(&mut text, random);
    }
    text.truncate(most);
    text
}

/// A valid text of about so many bytes: hardly, half or mostly ASCII.
fn valid(length: usize, random: &mut Random) -> Vec<u8> {
    let of_ascii = random.one_of(&[0, 50, 95]);
    let mut text = String::new();
    while text.len() < length {
        let range = match random.percent(of_ascii) {
            true => RANGES[0],
            false => random.one_of(&RANGES),
        };
        text.push(character(range, random));
    }
    text.into_bytes()
}

/// The first or the last character of a range, or any of it.
fn character((first, last): (char, char), random: &mut Random) -> char {
    let count = u32::from(last) - u32::from(first) + 1;
    let any = u32::from(first) + random.below(count as usize) as u32;
    let any = char::from_u32(any).expect("no surrogate lies between");
    random.one_of(&[first, last, any, any])
}

/// Puts a fault into the text, anywhere or near its end: a byte that is changed, taken out or put in, bytes that are no
/// text, or an early end.
fn damage(text: &mut Vec<u8>, random: &mut Random) {
    let near = random.one_of(&[text.len(), text.len().min(SHORT)]);
    let at = text.len() - random.below(near + 1);
    let edge = random.one_of(&EDGE_BYTES);
    let fault: &[u8] = match random.below(5) {
        0 => &[],
        1 => &[random.number() as u8],
        2 => random.one_of(&INVALID_NAMES),
        3 => return text.truncate(at),
        _ => &[edge],
    };
    let end = (at + random.below(2)).min(text.len());
    text.splice(at..end, fault.iter().copied());
}
