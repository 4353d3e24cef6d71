//! Readings by single calls: names, constants, texts, and the cheapest there are.

use std::hint::black_box;
use std::str::from_utf8;

use crate::inputs::{Inputs, texts};
use crate::product::{self, Out};
use crate::readings::place_in;
use crate::timing::Case;
use crate::{ConstValue, TypeInfoEntry, TypeLib};

/// How often a cheap reading is called in a round.
const MANY: usize = 100_000;

/// About how many bytes of one text are checked in a round.
const BYTES_CHECKED: usize = 2_000_000;

/// A library, and words to ask it with.
type Asked = (Vec<u8>, Vec<i32>);

/// What is found at a word, as a number that both sides can count.
type Rust = fn(&TypeLib, i32) -> u64;
type Product = fn(&[u8], i32, &mut Out) -> u64;

pub fn print() {
    let largest = largest();
    let words = names(&largest);
    let asked = [(largest, words)];
    let rust_name: Rust = |lib, word| length(lib.name(word).map(str::as_bytes));
    let rust_bytes: Rust = |lib, word| length(lib.name_bytes(word));
    print_words(
        "names of the largest real library",
        &asked,
        rust_name,
        product::name,
    );
    print_parsing(
        "the same, the Rust parsing each time",
        &asked,
        rust_name,
        product::name,
    );
    print_words(
        "their bytes (no UTF-8)",
        &asked,
        rust_bytes,
        product::name_bytes,
    );
    let constants: Vec<Asked> = libraries().into_iter().map(with_constants).collect();
    print_words(
        "constants of all real libraries",
        &constants,
        constant,
        product::constant,
    );
    print_parsing(
        "the same, the Rust parsing each time",
        &constants,
        constant,
        product::constant,
    );
    print_texts();
    print_checks();
    print_cheap(&asked[0].0);
    print_field(&asked[0].0);
}

/// UTF-8 of one text, short as a name and long as a string can be, by the length of its characters.
fn print_texts() {
    let rust_text: Rust = |lib, word| length(lib.string(word).map(str::as_bytes));
    for (name, character, count) in [
        ("UTF-8, 12 bytes, ASCII", "a", 12),
        ("UTF-8, 12 bytes, characters of 2", "\u{E9}", 6),
        ("UTF-8, 12 bytes, characters of 4", "\u{1F600}", 3),
        ("UTF-8, 60,000 bytes, ASCII", "a", 60_000),
        ("UTF-8, 60,000 bytes, characters of 2", "\u{E9}", 30_000),
        ("UTF-8, 60,000 bytes, characters of 3", "\u{20AC}", 20_000),
        ("UTF-8, 60,000 bytes, characters of 4", "\u{1F600}", 15_000),
    ] {
        let library = texts::library(character.repeat(count).as_bytes(), 0);
        let times = BYTES_CHECKED / (character.len() * count);
        print_words(
            name,
            &[(library, vec![0; times])],
            rust_text,
            product::string,
        );
    }
}

/// The check of a text that is lent alone, beside Rust's own.
fn print_checks() {
    for (name, character, count) in [
        ("text check, 12 bytes, ASCII", "a", 12),
        ("text check, 12 bytes, characters of 2", "\u{E9}", 6),
        ("text check, 12 bytes, characters of 3", "\u{20AC}", 4),
        ("text check, 12 bytes, characters of 4", "\u{1F600}", 3),
        ("text check, 60,000 bytes, ASCII", "a", 60_000),
        (
            "text check, 60,000 bytes, characters of 2",
            "\u{E9}",
            30_000,
        ),
        (
            "text check, 60,000 bytes, characters of 3",
            "\u{20AC}",
            20_000,
        ),
        (
            "text check, 60,000 bytes, characters of 4",
            "\u{1F600}",
            15_000,
        ),
    ] {
        print_check(name, character.repeat(count).as_bytes());
    }
}

fn print_check(name: &'static str, text: &[u8]) {
    let times = BYTES_CHECKED / text.len();
    let case = Case {
        name,
        bytes: text.len(),
        calls: Some(times),
        rust: Box::new(move || {
            let length = || from_utf8(black_box(text)).map_or(0, |text| text.len() as u64);
            (0..times).map(|_| length()).sum()
        }),
        product: Some(Box::new(move || {
            let mut out = Out::default();
            let mut looked = || product::text_check(black_box(text), 0, text.len(), &mut out);
            (0..times).map(|_| looked()).sum()
        })),
    };
    case.print();
}

/// What a call costs that does next to nothing: the parsing, and a field of the header behind it.
fn print_cheap(library: &[u8]) {
    let rust_parse: fn(&[u8]) -> u64 = |library| u64::from(TypeLib::parse(library).is_err());
    print_many("parse", library, rust_parse, |library| {
        product::parse(library).unsigned_abs()
    });
    let rust_version: fn(&[u8]) -> u64 = |library| {
        let lib = TypeLib::parse(library).expect("it is a library");
        u64::from(lib.version())
    };
    print_many(
        "version of the library, the Rust parsing",
        library,
        rust_version,
        |library| product::version(library).unsigned_abs(),
    );
}

/// What a call costs that reads one field of a record and does not parse.
fn print_field(library: &[u8]) {
    let lib = TypeLib::parse(library).expect("it is a library");
    let record = lib.typeinfo(0).expect("it has a type").as_bytes();
    let at = place_in(library, record);
    let case = Case {
        name: "flags of a type by its place",
        bytes: library.len(),
        calls: Some(MANY),
        rust: Box::new(move || {
            let flags = || TypeInfoEntry::new(black_box(record)).flags();
            (0..MANY).map(|_| u64::from(flags())).sum()
        }),
        product: Some(Box::new(move || {
            let flags = || product::typeinfo_flags(black_box(library), at, record.len());
            (0..MANY).map(|_| flags().unsigned_abs()).sum()
        })),
    };
    case.print();
}

/// Asks every library with all of its words; the reference parses each library once.
fn print_words(name: &'static str, asked: &[Asked], rust: Rust, product: Product) {
    print_case(name, asked, product, move |library, words| {
        let lib = TypeLib::parse(library).expect("it is a library");
        words.iter().map(|word| rust(black_box(&lib), *word)).sum()
    });
}

/// The same, where the reference parses for each word, as a call does.
fn print_parsing(name: &'static str, asked: &[Asked], rust: Rust, product: Product) {
    print_case(name, asked, product, move |library, words| {
        let one = |word: &i32| {
            let lib = TypeLib::parse(black_box(library)).expect("it is a library");
            rust(black_box(&lib), *word)
        };
        words.iter().map(one).sum()
    });
}

fn print_case(
    name: &'static str,
    asked: &[Asked],
    product: Product,
    rust: impl Fn(&[u8], &[i32]) -> u64,
) {
    let case = Case {
        name,
        bytes: asked.iter().map(|(library, _)| library.len()).sum(),
        calls: Some(asked.iter().map(|(_, words)| words.len()).sum()),
        rust: Box::new(move || {
            asked
                .iter()
                .map(|(library, words)| rust(library, words))
                .sum()
        }),
        product: Some(Box::new(move || {
            let mut out = Out::default();
            let mut sum = 0;
            for (library, words) in asked {
                let each = words
                    .iter()
                    .map(|word| product(black_box(library), *word, &mut out));
                sum += each.sum::<u64>();
            }
            sum
        })),
    };
    case.print();
}

/// Times many calls of one reading without numbers.
fn print_many(name: &'static str, library: &[u8], rust: fn(&[u8]) -> u64, work: fn(&[u8]) -> u64) {
    let case = Case {
        name,
        bytes: library.len(),
        calls: Some(MANY),
        rust: Box::new(move || (0..MANY).map(|_| black_box(rust)(black_box(library))).sum()),
        product: Some(Box::new(move || {
            (0..MANY).map(|_| black_box(work)(black_box(library))).sum()
        })),
    };
    case.print();
}

fn libraries() -> Vec<Vec<u8>> {
    Inputs::new(0).corpus().map(|input| input.bytes).collect()
}

/// The largest real library.
pub fn largest() -> Vec<u8> {
    let largest = libraries().into_iter().max_by_key(Vec::len);
    largest.expect("there are libraries")
}

/// The offsets of all names.
fn names(library: &[u8]) -> Vec<i32> {
    let lib = TypeLib::parse(library).expect("it is a library");
    lib.names().map(|entry| entry.offset() as i32).collect()
}

/// The library, and the word of each variable that is a constant.
fn with_constants(library: Vec<u8>) -> Asked {
    let lib = TypeLib::parse(&library).expect("it is a library");
    let typeinfos = (0..lib.typeinfo_count()).filter_map(|index| lib.typeinfo(index).ok());
    let vars = typeinfos.flat_map(|typeinfo| lib.vars(&typeinfo));
    let constants = vars.filter(|var| var.varkind() == 2);
    let words = constants.map(|var| var.offs_value()).collect();
    (library, words)
}

fn length(bytes: Option<&[u8]>) -> u64 {
    black_box(bytes).map_or(0, |bytes| bytes.len() as u64)
}

/// The code of the constant's type; the value is read too.
fn constant(lib: &TypeLib, word: i32) -> u64 {
    let constant: Option<ConstValue> = black_box(lib.const_value(word));
    constant.map_or(0, |constant| u64::from(constant.vt()))
}
