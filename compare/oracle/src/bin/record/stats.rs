//! Counts of the recorded questions and answers, and whether every method and reading is tried each
//! way.

use std::collections::{BTreeMap, HashSet};

use bounded::comparing::kinds::Kinds;
use bounded::coverage::Coverage;
use bounded::library::{Ask, NUMBER, Question};
use bounded::readings::{Kind, Reading, VALUE};
use bounded::sheet::PROGRAM_BYTES;

use crate::beside::Pair;
use crate::libraries::Library;
use crate::records::Entry;

/// How many entries of a kind ask for a whole record, for one that is also the last of the lent
/// bytes, for a short one, and for one not wholly inside the bytes.
#[derive(Default)]
struct Places {
    whole: usize,
    last: usize,
    short: usize,
    outside: usize,
}

/// How one method was answered.
#[derive(Default)]
struct Answers<'a> {
    method: &'static str,
    optional: bool,
    values: usize,
    different_values: HashSet<&'a [u8]>,
    nothing_in_whole_record: usize,
    nothing_without_record: usize,
}

impl Answers<'_> {
    /// What a record's method must have been seen to answer, and was not.
    fn gap(&self) -> Option<&'static str> {
        if self.values == 0 {
            Some("no value")
        } else if self.nothing_without_record == 0 {
            Some("no record refused")
        } else if self.optional && self.nothing_in_whole_record == 0 {
            Some("nothing never answered for a whole record")
        } else {
            None
        }
    }
}

/// Prints the counts. Replies whether every method of a record was seen to give values, to refuse
/// where there is no record and, if it can, to answer nothing where there is one.
pub fn records(entries: &[Entry]) -> bool {
    println!(
        "{:<10}{:>8}{:>8}{:>9}{:>8}{:>10}",
        "kind", "entries", "whole", "and last", "short", "outside"
    );
    for kind in Kind::ALL.into_iter().filter(|kind| kind.is_record()) {
        let places = places(entries, kind);
        println!(
            "{:<10}{:>8}{:>8}{:>9}{:>8}{:>10}",
            format!("{kind:?}"),
            places.whole + places.short + places.outside,
            places.whole,
            places.last,
            places.short,
            places.outside,
        );
    }

    println!();
    println!(
        "{:<32}{:>8}{:>11}{:>20}{:>20}",
        "method", "values", "different", "9 in whole record", "9 without record"
    );
    let mut complete = true;
    for kind in Kind::ALL {
        for answers in answers(entries, kind) {
            // A conversion from a number never refuses, nor do the numbers of a name entry.
            let refuses = kind.is_record() && (kind != Kind::Name || answers.method == "name");
            let gap = answers.gap().filter(|_| refuses);
            complete &= gap.is_none();
            println!(
                "{:<32}{:>8}{:>11}{:>20}{:>20}  {}",
                format!("{kind:?}.{}", answers.method),
                answers.values,
                answers.different_values.len(),
                answers.nothing_in_whole_record,
                answers.nothing_without_record,
                gap.unwrap_or_default(),
            );
        }
    }
    complete
}

fn places(entries: &[Entry], kind: Kind) -> Places {
    let mut places = Places::default();
    for entry in entries.iter().filter(|entry| entry.case.kind == kind) {
        if !entry.is_inside() {
            places.outside += 1;
        } else if !entry.is_whole() {
            places.short += 1;
        } else {
            places.whole += 1;
            places.last += usize::from(entry.end() == entry.case.lent.len() as u64);
        }
    }
    places
}

/// The answers of each method of a kind, in the order of the file.
fn answers(entries: &[Entry], kind: Kind) -> Vec<Answers<'_>> {
    let mut all: Vec<Answers> = Vec::new();
    for entry in entries.iter().filter(|entry| entry.case.kind == kind) {
        all.resize_with(all.len().max(entry.readings.len()), Answers::default);
        for (answers, reading) in all.iter_mut().zip(&entry.readings) {
            answers.method = reading.method;
            answers.optional = reading.optional;
            if reading.answer[0] == VALUE {
                answers.values += 1;
                answers.different_values.insert(&reading.answer);
            } else if entry.is_whole() {
                answers.nothing_in_whole_record += 1;
            } else {
                answers.nothing_without_record += 1;
            }
        }
    }
    all
}

/// The refusals that a reading must have been seen to give.
fn refusals_of(ask: Ask) -> &'static [u8] {
    match ask {
        Ask::Parse => &[2, 3, 4, 5],
        Ask::Typeinfo => &[6, 7, 8],
        Ask::Typeinfos => &[6, 7, 8, 9],
        Ask::Walk => &[9, 10],
        Ask::Sheet => &[2, 3, 4, 5, 6, 7, 8, 10, 11, 12],
        Ask::Table => &[],
        _ if ask < Ask::Segment => &[],
        _ => &[9],
    }
}

/// The numbers that records must have been seen with: the first, and from counts the two largest. Typeinfos are
/// numbered by their index.
fn numbers_of(ask: Ask) -> &'static [u64] {
    match ask {
        Ask::Typeinfos => &[0],
        _ if Ask::Typeinfos < ask && ask < Ask::Walk => &[0, u64::MAX - 1, u64::MAX],
        _ => &[],
    }
}

/// The cases of an answer that holds one of several: what the first answer to a question says.
fn case_of(question: Question, readings: &[Reading]) -> Option<String> {
    let word = question.numbers[0];
    let [number, rest @ ..] = readings[0].answer.as_slice() else {
        unreachable!("an answer has a byte");
    };
    if *number != VALUE {
        return match question.ask {
            Ask::ConstValue | Ask::TypeDescription | Ask::ResolveHreftypeFull => {
                Some("nothing".to_string())
            }
            _ => None,
        };
    }
    match question.ask {
        Ask::ConstValue => Some(constant_case(word, rest)),
        Ask::TypeDescription => Some(format!("case {}", rest[0])),
        Ask::ResolveHreftypeFull if rest[0] == 1 => Some("internal".to_string()),
        Ask::ResolveHreftypeFull if readings[2].answer[0] == VALUE => {
            Some("external with file".to_string())
        }
        Ask::ResolveHreftypeFull => Some("external without file".to_string()),
        _ => None,
    }
}

/// Where a constant stands and the code of its type, with what only some of the code's values are.
fn constant_case(word: u32, coded: &[u8]) -> String {
    let code = u16::from_le_bytes([coded[0], coded[1]]);
    let value = &coded[2..];
    if word >= 0x8000_0000 {
        return format!("inline {}, code {code}", word >> 26 & 31);
    }
    let more = match (code, value) {
        (4, &[a, b, c, d]) if f32::from_le_bytes([a, b, c, d]).is_nan() => " NaN",
        (5 | 7, _) if f64::from_le_bytes(value.try_into().unwrap()).is_nan() => " NaN",
        (8, [0]) => " null",
        _ => "",
    };
    format!("stored {code}{more}")
}

/// The cases that must have been seen.
fn cases_to_see() -> HashSet<String> {
    let inline = [0, 1, 2, 3, 10, 11, 16, 17, 18, 19, 22, 23, 24, 25];
    let mut cases = HashSet::new();
    for bits in 0..32 {
        let code = if inline.contains(&bits) { bits } else { 3 };
        cases.insert(format!("inline {bits}, code {code}"));
    }
    cases.extend(
        (0..=25)
            .chain([64, 65])
            .map(|code| format!("stored {code}")),
    );
    cases.extend((1..=5).map(|code| format!("case {code}")));
    let others = [
        "stored 4 NaN",
        "stored 5 NaN",
        "stored 7 NaN",
        "stored 8 null",
        "internal",
        "external with file",
        "external without file",
        "nothing",
    ];
    cases.extend(others.map(str::to_string));
    cases
}

/// Whether every case of a constant, of a description and of a reference was seen.
fn sees_all_cases(libraries: &[Library]) -> bool {
    let all = libraries.iter().flat_map(|library| &library.asked.answered);
    let seen: HashSet<String> = all
        .filter_map(|(question, readings)| case_of(*question, readings))
        .collect();
    let mut missing: Vec<String> = cases_to_see().difference(&seen).cloned().collect();
    missing.sort();
    println!(
        "cases of constants, descriptions and references: {} seen",
        seen.len()
    );
    for case in &missing {
        println!("not seen: {case}");
    }
    missing.is_empty()
}

/// How one reading was answered.
#[derive(Default)]
struct Answered<'a> {
    questions: usize,
    values: usize,
    different_values: HashSet<&'a [u8]>,
    refusals: BTreeMap<u8, usize>,
    numbers: HashSet<u64>,
}

impl<'a> Answered<'a> {
    fn of(libraries: &'a [Library], ask: Ask) -> Self {
        let mut answered = Answered::default();
        let all = libraries.iter().flat_map(|library| &library.asked.answered);
        for (_, readings) in all.filter(|(question, _)| question.ask == ask) {
            answered.questions += 1;
            for Reading { answer, method, .. } in readings {
                if *method == NUMBER {
                    let number = answer[1..9].try_into().expect("eight bytes");
                    answered.numbers.insert(u64::from_le_bytes(number));
                }
                if answer[0] == VALUE {
                    answered.values += 1;
                    answered.different_values.insert(answer);
                } else {
                    *answered.refusals.entry(answer[0]).or_default() += 1;
                }
            }
        }
        answered
    }

    /// Whether the reading was seen to give values, every refusal that it can give, and the first and the last numbers.
    fn each_way(&self, ask: Ask) -> bool {
        let refused = |number| self.refusals.contains_key(number);
        let numbered = |number| self.numbers.contains(number);
        self.values > 0
            && refusals_of(ask).iter().all(refused)
            && numbers_of(ask).iter().all(numbered)
    }
}

/// Prints for each reading how often it was asked and answered, with a value or a refusal. Replies
/// whether each was answered each way, and every case was seen.
pub fn libraries(libraries: &[Library]) -> bool {
    let questions: usize = libraries
        .iter()
        .map(|library| library.asked.answered.len())
        .sum();
    println!("{} libraries, {questions} questions", libraries.len());
    println!(
        "{:<24}{:>10}{:>9}{:>11}  refusals",
        "reading", "questions", "values", "different"
    );
    let mut complete = true;
    for &ask in Ask::ALL {
        let answered = Answered::of(libraries, ask);
        let refusals: Vec<String> = answered
            .refusals
            .iter()
            .map(|(number, times)| format!("{number}: {times}"))
            .collect();
        let each_way = answered.each_way(ask);
        complete &= each_way;
        println!(
            "{:<24}{:>10}{:>9}{:>11}  {}{}",
            ask.name(),
            answered.questions,
            answered.values,
            answered.different_values.len(),
            refusals.join(", "),
            if each_way { "" } else { "  not each way" },
        );
    }
    complete & sees_all_cases(libraries) & sees_all_places(libraries)
}

/// Whether a reference that hits no typeinfo was seen in each place of a sheet, with its bit and without.
fn sees_all_places(libraries: &[Library]) -> bool {
    let mut coverage = Coverage::default();
    for library in libraries {
        let _ = coverage.sheet(&library.bytes, PROGRAM_BYTES);
    }
    let missing = coverage.missing_misplaced();
    for place in &missing {
        println!("not seen: {place}");
    }
    missing.is_empty()
}

/// Prints how many libraries the reference reads as it is, and at how many questions something was cut.
pub fn kinds(libraries: &[Library], pairs: &[Pair]) {
    let of_libraries = libraries.iter().map(|library| &library.asked);
    let of_pairs = pairs.iter().map(|pair| &pair.asked);
    for (file, all) in [
        ("libraries", of_libraries.collect::<Vec<_>>()),
        ("beside", of_pairs.collect()),
    ] {
        let mut kinds = Kinds::default();
        all.iter().for_each(|asked| kinds.add(asked.is_kept()));
        let questions: usize = all.iter().map(|asked| asked.answered.len()).sum();
        let cut: usize = all.iter().map(|asked| asked.cut).sum();
        println!("{file}: {kinds}: at {cut} of {questions} questions");
    }
}

/// Prints what is asked of libraries beside other bytes. Replies whether each refusal came up that a
/// reading can give there.
pub fn beside(pairs: &[Pair]) -> bool {
    let asked: Vec<_> = pairs.iter().flat_map(|pair| &pair.asked.answered).collect();
    let mut answers: BTreeMap<u8, usize> = BTreeMap::new();
    for (_, readings) in &asked {
        for reading in readings {
            *answers.entry(reading.answer[0]).or_default() += 1;
        }
    }
    println!(
        "{} libraries beside other bytes, {} questions, answers by first byte: {answers:?}",
        pairs.len(),
        asked.len(),
    );
    [VALUE, 6, 7, 8, 9, 10]
        .iter()
        .all(|first| answers.contains_key(first))
}
