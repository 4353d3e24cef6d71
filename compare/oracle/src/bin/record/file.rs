//! The form of a recorded file, and what the replay of it prints.
//!
//! All numbers are little-endian. A file is u32 count of items, and the items. An item either lends
//! the bytes that the questions behind it are about: `LENT`, u32 count of bytes and these; `KEPT` in the same form,
//! where the reference is kept to its tables for the answer to one of the questions; `BESIDE` in the
//! same form lends other bytes, and the library that is asked stays the one in the bytes lent by `LENT` or `KEPT`
//! last. Or it is a question: u8 number of what is asked, three numbers u32, u16 count of answer bytes and
//! these, the answers one behind another as `readings.rs` and `library.rs` make them.

use bounded::comparing::kinds::Kinds;
use bounded::readings::{Reading, VALUE};

/// The numbers that no question has.
const LENT: u8 = 0xFF;
const BESIDE: u8 = 0xFE;
const KEPT: u8 = 0xFD;

pub enum Item<'a> {
    Lent(&'a [u8]),
    Kept(&'a [u8]),
    Beside(&'a [u8]),
    Question {
        number: u8,
        numbers: [u32; 3],
        readings: &'a [Reading],
    },
}

/// The bytes of a file.
pub fn bytes(items: &[Item]) -> Vec<u8> {
    let mut file = count(items.len()).to_vec();
    for item in items {
        match item {
            Item::Lent(bytes) => lend(&mut file, LENT, bytes),
            Item::Kept(bytes) => lend(&mut file, KEPT, bytes),
            Item::Beside(bytes) => lend(&mut file, BESIDE, bytes),
            Item::Question {
                number,
                numbers,
                readings,
            } => {
                assert!(*number < KEPT);
                file.push(*number);
                for number in numbers {
                    file.extend(number.to_le_bytes());
                }
                let answers: Vec<u8> = readings
                    .iter()
                    .flat_map(|reading| reading.answer.iter().copied())
                    .collect();
                let length = u16::try_from(answers.len()).expect("an answer is small");
                file.extend(length.to_le_bytes());
                file.extend(answers);
            }
        }
    }
    file
}

fn lend(file: &mut Vec<u8>, how: u8, bytes: &[u8]) {
    file.push(how);
    file.extend(count(bytes.len()));
    file.extend(bytes);
}

fn count(of: usize) -> [u8; 4] {
    u32::try_from(of).expect("a file is small").to_le_bytes()
}

/// What is counted of the questions that ask one thing, or of all.
#[derive(Default)]
struct Counts {
    questions: usize,
    answers: usize,
    refusals: usize,
}

impl Counts {
    fn add(&mut self, readings: &[Reading]) {
        self.questions += 1;
        self.answers += readings.len();
        self.refusals += readings
            .iter()
            .filter(|reading| reading.answer[0] != VALUE)
            .count();
    }

    fn line(&self, name: &str) -> String {
        let Counts {
            questions,
            answers,
            refusals,
        } = self;
        format!(
            "{name}: {questions} questions, {answers} answers, {refusals} refusals, 0 differences\n"
        )
    }
}

/// What the replay must print of a file: a line for each thing that is asked there, `names` by number from
/// `first` on, and a line for all.
pub fn printed(items: &[Item], file: &str, first: u8, names: &[&str]) -> String {
    let mut text = String::new();
    let mut all = Counts::default();
    for (number, name) in (first..).zip(names) {
        let mut counts = Counts::default();
        for item in items {
            if let Item::Question {
                number: asked,
                readings,
                ..
            } = item
                && *asked == number
            {
                counts.add(readings);
                all.add(readings);
            }
        }
        if counts.questions != 0 {
            text += &counts.line(name);
        }
    }
    text + &all.line(file)
}

/// What the replay must print of the libraries in a file.
pub fn printed_kinds(items: &[Item], file: &str) -> String {
    let mut kinds = Kinds::default();
    for item in items {
        match item {
            Item::Lent(_) => kinds.add(false),
            Item::Kept(_) => kinds.add(true),
            _ => {}
        }
    }
    format!("{file}: {kinds}\n")
}
