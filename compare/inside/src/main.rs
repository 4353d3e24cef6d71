//! Times names and texts of the product beside the reference's without the C boundary: a call reads many of them. The static
//! library that is linked must be the one that `compare/inside/build` makes.

use std::hint::black_box;
use std::str::from_utf8;

use msft_typelib::TypeLib;
use msft_typelib::inputs::Inputs;
use msft_typelib::timing::{Case, Work, print_titles};

/// The most rounds of a case.
const ROUNDS: usize = 2_001;

/// How often each name is read in a round, and about how many bytes of one text are checked in it.
const TIMES_READ: usize = 10;
const BYTES_CHECKED: usize = 1_000_000;

unsafe extern "C" {
    fn msft_inside_names(lib: *const u8, n: usize, offsets: *const u8, count: usize) -> i64;
    fn msft_inside_texts(lib: *const u8, n: usize, places: *const u8, count: usize) -> i64;
}

/// A call over a library, or a text, and many numbers.
type Inside = unsafe extern "C" fn(*const u8, usize, *const u8, usize) -> i64;

fn main() {
    let inputs = Inputs::new(0);
    let libraries = inputs.corpus().map(|input| input.bytes);
    let largest = libraries.max_by_key(Vec::len).expect("there are libraries");
    print_titles();
    print_names("names of the largest real library", &largest);
    print_texts("their texts alone", &largest, &texts(&largest));
    for (name, character, count) in [
        ("UTF-8, 12 bytes, ASCII", "a", 12),
        ("UTF-8, 12 bytes, characters of 2", "\u{E9}", 6),
        ("UTF-8, 12 bytes, characters of 3", "\u{20AC}", 4),
        ("UTF-8, 12 bytes, characters of 4", "\u{1F600}", 3),
        ("UTF-8, 60,000 bytes, ASCII", "a", 60_000),
        ("UTF-8, 60,000 bytes, characters of 2", "\u{E9}", 30_000),
        ("UTF-8, 60,000 bytes, characters of 3", "\u{20AC}", 20_000),
        ("UTF-8, 60,000 bytes, characters of 4", "\u{1F600}", 15_000),
        ("UTF-8, 60,000 bytes, mixed", "ab\u{E9}c\u{20AC}", 7_500),
    ] {
        let text = character.repeat(count);
        let places = vec![(0, text.len()); BYTES_CHECKED / text.len()];
        print_texts(name, text.as_bytes(), &places);
    }
}

/// The names at all offsets of the library's names; both sides parse it once.
fn print_names(name: &'static str, library: &[u8]) {
    let lib = TypeLib::parse(library).expect("it is a library");
    let offsets: Vec<u32> = lib.names().map(|entry| entry.offset() as u32).collect();
    let offsets = offsets.repeat(TIMES_READ);
    let packed = packed(offsets.iter().copied());
    let rust = || {
        let lib = TypeLib::parse(black_box(library)).expect("it is a library");
        let length = |offset: &u32| lib.name(*offset as i32).map_or(0, str::len) as u64;
        black_box(&offsets).iter().map(length).sum()
    };
    let case = Case {
        name,
        bytes: library.len(),
        calls: Some(offsets.len()),
        rust: Box::new(rust),
        product: Some(product(msft_inside_names, library, &packed)),
    };
    case.print_rounds(ROUNDS);
}

/// The texts at these places of the bytes.
fn print_texts(name: &'static str, bytes: &[u8], places: &[(usize, usize)]) {
    let numbers = places.iter().flat_map(|(at, len)| [*at, *len]);
    let packed = packed(numbers.map(|number| number as u32));
    let rust = || {
        let text = |(at, len): &(usize, usize)| from_utf8(&black_box(bytes)[*at..at + len]);
        let length = |place| text(place).map_or(0, str::len) as u64;
        black_box(places).iter().map(length).sum()
    };
    let case = Case {
        name,
        bytes: bytes.len(),
        calls: Some(places.len()),
        rust: Box::new(rust),
        product: Some(product(msft_inside_texts, bytes, &packed)),
    };
    case.print_rounds(ROUNDS);
}

/// The places of the library's names.
fn texts(library: &[u8]) -> Vec<(usize, usize)> {
    let lib = TypeLib::parse(library).expect("it is a library");
    let place = |text: &str| (text.as_ptr().addr() - library.as_ptr().addr(), text.len());
    let places: Vec<_> = lib.names().map(|entry| place(entry.name())).collect();
    places.repeat(TIMES_READ)
}

/// One call with all of the numbers.
fn product<'a>(call: Inside, bytes: &'a [u8], numbers: &'a [u8]) -> Work<'a> {
    Box::new(move || {
        let (bytes, numbers) = (black_box(bytes), black_box(numbers));
        // The call only reads both.
        let sum = unsafe { call(bytes.as_ptr(), bytes.len(), numbers.as_ptr(), numbers.len()) };
        sum as u64
    })
}

/// Four bytes for each number, the lowest first.
fn packed(numbers: impl Iterator<Item = u32>) -> Vec<u8> {
    numbers.flat_map(u32::to_le_bytes).collect()
}
