//! Every export for C beside the reading of the reference that it stands for.

pub mod answer;
pub mod call;
mod cursors;
mod library;
pub mod numbers;
pub mod pool;
pub mod stepped;
mod table;
mod views;

use crate::TypeLib;
use crate::library::parse_refusal;
use crate::sheet::{MOST_BYTES, refusal};
use answer::Answer;
use call::Call;
use numbers::{Asks, Numbers};

/// An export: how it is called, what its numbers mean, and what the reference answers.
pub struct Export {
    pub name: &'static str,
    pub call: Call,
    pub asks: Asks,
    rust: Rust,
}

/// What an answer is made from: a library that can be parsed; the lent bytes alone, which need be no
/// library; the bytes that a sheet or its figures are made from; or numbers alone.
enum Rust {
    Library(fn(&TypeLib, Numbers) -> Answer),
    Lent(fn(&TypeLib, Numbers) -> Answer),
    Bytes(fn(&[u8]) -> Answer),
    Alone(fn(Numbers) -> Answer),
}

/// An input, and the library that the reference makes of it or the refusal.
pub struct Parsed<'a> {
    pub bytes: &'a [u8],
    pub lib: Result<TypeLib<'a>, u8>,
}

impl<'a> Parsed<'a> {
    /// The reference reads bytes of any length; above the limit document 01 has every entry refuse.
    pub fn new(bytes: &'a [u8]) -> Self {
        let lib = match bytes.len() > MOST_BYTES {
            true => Err(refusal::OVER_LONG),
            false => TypeLib::parse(bytes).map_err(parse_refusal),
        };
        Parsed { bytes, lib }
    }
}

impl Export {
    /// Whether the export reads the lent bytes alone, which need be no library.
    pub fn needs_no_library(&self) -> bool {
        matches!(self.rust, Rust::Lent(_))
    }

    /// What the export should answer.
    pub fn expected(&self, input: &Parsed, numbers: Numbers) -> Answer {
        match (&self.rust, &input.lib) {
            (Rust::Alone(answer), _) => answer(numbers),
            (Rust::Bytes(answer), _) => answer(input.bytes),
            (_, Err(refusal::OVER_LONG)) => Answer::Refused(refusal::OVER_LONG),
            (Rust::Library(_), Err(number)) => Answer::Refused(*number),
            (Rust::Library(answer) | Rust::Lent(answer), Ok(lib)) => answer(lib, numbers),
            (Rust::Lent(answer), Err(_)) => answer(&TypeLib::beside(input.bytes), numbers),
        }
    }
}

/// Every export that is driven.
pub fn all() -> Vec<Export> {
    let mut exports = views::exports();
    exports.extend(table::exports());
    exports.extend(library::exports());
    exports.extend(cursors::exports());
    exports
}

/// An export by its form and name, what its numbers mean, and what the reference answers.
macro_rules! export {
    ($form:ident $name:ident, $asks:expr, $rust:ident, $answer:expr) => {
        Export {
            name: stringify!($name),
            call: linked!($form $name),
            asks: $asks,
            rust: Rust::$rust($answer),
        }
    };
}

use call::linked;
use export;
