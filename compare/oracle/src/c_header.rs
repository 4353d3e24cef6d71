//! What the project's header for C declares: the exports, their parameters and their refusals.

use std::collections::BTreeSet;

/// The header, as it was when this was built.
const HEADER: &str = include_str!("../../../include/msft_typelib.h");

/// How a declaration begins.
const DECLARATION: &str = "int64_t msft_";

/// A declared export.
pub struct Declared {
    pub name: String,
    /// The types of its parameters.
    pub types: Vec<String>,
    /// The refusals that its comment names.
    pub refusals: BTreeSet<u8>,
    /// How many bytes the comment says that it writes.
    pub lengths: Lengths,
}

/// The lengths of what an export writes.
#[derive(Clone, Debug, PartialEq, Eq)]
pub enum Lengths {
    /// None is said.
    Any,
    /// Just these.
    These(BTreeSet<usize>),
    /// From the first, if it is said, to the last.
    Range(Option<usize>, usize),
}

/// Every export that the header declares.
pub fn declared() -> Vec<Declared> {
    declared_in(HEADER)
}

fn declared_in(header: &str) -> Vec<Declared> {
    let starts = header.match_indices(DECLARATION).map(|(at, _)| at);
    // A function with a body is none of the exports, and stands indented or behind other words.
    let starts = starts.filter(|at| *at == 0 || header[..*at].ends_with('\n'));
    starts.map(|at| declaration(header, at)).collect()
}

/// The declaration that begins at this place; its comment stands right before it.
fn declaration(header: &str, at: usize) -> Declared {
    let comment = header[..at]
        .rfind("/*")
        .map_or("", |start| &header[start..at]);
    let whole = &header[at..];
    let whole = &whole[..whole.find(';').expect("a declaration ends")];
    let (name, parameters) = whole.split_once('(').expect("an export has parameters");
    Declared {
        name: name.trim_start_matches("int64_t ").into(),
        types: parameters
            .trim_end_matches(')')
            .split(',')
            .map(parameter_type)
            .collect(),
        refusals: refusals(comment),
        lengths: lengths(comment),
    }
}

/// A parameter without its name.
fn parameter_type(parameter: &str) -> String {
    let parameter = parameter.trim();
    let name = parameter.rfind([' ', '*']).map_or(0, |at| at + 1);
    parameter[..name].trim_end().into()
}

/// The lengths in what the comment says is written, such as `(16 bytes)`, `(3, 5 or 17 bytes)`,
/// `(2 to 19 bytes)` or `(at most 12 bytes)`.
fn lengths(comment: &str) -> Lengths {
    let said = comment.rfind("Writes").map(|at| &comment[at..]);
    let said = said.and_then(|said| said.split_once('('));
    let Some((said, _)) = said.and_then(|(_, said)| said.split_once("bytes)")) else {
        return Lengths::Any;
    };
    let numbers = said.split(|letter: char| !letter.is_ascii_digit());
    let numbers: BTreeSet<usize> = numbers.filter_map(|number| number.parse().ok()).collect();
    let last = *numbers.last().expect("a length is a number");
    match (said.contains("at most"), said.contains("to")) {
        (true, _) => Lengths::Range(None, last),
        (_, true) => Lengths::Range(numbers.first().copied(), last),
        _ => Lengths::These(numbers),
    }
}

/// The numbers behind what the comment says is replied or written, such as `-9, -12` or `-1 to -5`.
fn refusals(comment: &str) -> BTreeSet<u8> {
    let said = comment.rfind("Replies").max(comment.rfind("Writes"));
    let said = &comment[said.expect("a comment says what is replied")..];
    let Some((_, listed)) = said.split_once(';') else {
        return BTreeSet::new();
    };
    let mut numbers = BTreeSet::new();
    let mut is_range = false;
    for word in listed.split_whitespace() {
        let number = word.trim_matches([',', '.', '*', '/']);
        if let Some(number) = number.strip_prefix('-') {
            let number: u8 = number.parse().expect("a refusal is a number");
            let first = match (is_range, numbers.last()) {
                (true, Some(last)) => *last,
                _ => number,
            };
            numbers.extend(first..=number);
        }
        is_range = word == "to";
    }
    numbers
}

#[cfg(test)]
mod tests {
    use super::{Lengths, declared, declared_in, lengths};

    #[test]
    fn a_declaration_is_taken_apart() {
        let text = "/* Nothing; -2 at its end. Writes a place (16\n   bytes); -6 to -8, -12. */\n\
            int64_t msft_x(\n    const uint8_t *lib, size_t lib_len,\n    int32_t offset);\n";
        let [export] = &declared_in(text)[..] else {
            panic!("one export")
        };
        assert_eq!(export.name, "msft_x");
        assert_eq!(export.types, ["const uint8_t *", "size_t", "int32_t"]);
        assert!(export.refusals.iter().eq(&[6, 7, 8, 12]));
        assert_eq!(export.lengths, Lengths::These([16].into()));
    }

    #[test]
    fn lengths_are_lists_or_ranges() {
        let these = |lengths: &[usize]| Lengths::These(lengths.iter().copied().collect());
        assert_eq!(
            lengths("Writes a row (3, 5 or 17\n   bytes); -9."),
            these(&[3, 5, 17])
        );
        assert_eq!(
            lengths("Writes (2 to 19 bytes)"),
            Lengths::Range(Some(2), 19)
        );
        assert_eq!(
            lengths("Writes (at most 12 bytes)"),
            Lengths::Range(None, 12)
        );
        assert_eq!(lengths("Replies a u32; -9."), Lengths::Any);
    }

    #[test]
    fn the_header_has_as_many_exports_as_lines_that_begin_one() {
        let lines = super::HEADER
            .lines()
            .filter(|line| line.starts_with("int64_t msft_"));
        assert_eq!(declared().len(), lines.count());
    }
}
