//! The answers to questions about a library, by the reference kept to its tables. Where nothing was cut, they must
//! be those of the reference as it is.

use bounded::bounds::noting;
use bounded::library::{Question, answers_beside};
use bounded::readings::Reading;
use msft_typelib::library as own;

use crate::file::Item;

/// Questions about one library with their answers, and at how many of them something was cut.
pub struct Asked {
    pub answered: Vec<(Question, Vec<Reading>)>,
    pub cut: usize,
}

impl Asked {
    /// Whether the reference had to be kept to the library's tables.
    pub fn is_kept(&self) -> bool {
        self.cut > 0
    }

    /// The item that lends the bytes that the library is parsed from.
    pub fn lent<'a>(&self, bytes: &'a [u8]) -> Item<'a> {
        match self.is_kept() {
            true => Item::Kept(bytes),
            false => Item::Lent(bytes),
        }
    }

    /// The items of the questions. `first` is the number of the first reading.
    pub fn items(&self, first: u8) -> impl Iterator<Item = Item<'_>> {
        let answered = self.answered.iter();
        answered.map(move |(question, readings)| Item::Question {
            number: first + question.ask as u8,
            numbers: question.numbers,
            readings,
        })
    }
}

/// The answers of the library in its own bytes, when its numbers stand beside the lent bytes.
pub fn judged(own: &[u8], lent: &[u8], asked: &[Question]) -> Asked {
    let mut cut = 0;
    let answered = asked.iter().map(|&question| {
        let (readings, is_cut) = answer(own, lent, question);
        cut += usize::from(is_cut);
        (question, readings)
    });
    let answered = answered.collect();
    Asked { answered, cut }
}

/// The answers to one question, and whether something was cut for them.
pub fn answer(own: &[u8], lent: &[u8], question: Question) -> (Vec<Reading>, bool) {
    let (readings, notes) = noting(|| answers_beside(own, lent, question));
    if notes.is_empty() {
        let is_same = bytes(&readings).eq(as_it_is(own, lent, question));
        assert!(
            is_same,
            "nothing was cut, and the Rust's own differs: {question:?}"
        );
    }
    (readings, !notes.is_empty())
}

fn bytes(readings: &[Reading]) -> impl Iterator<Item = Vec<u8>> {
    readings.iter().map(|reading| reading.answer.clone())
}

/// What the reference answers as it is.
fn as_it_is(own: &[u8], lent: &[u8], question: Question) -> impl Iterator<Item = Vec<u8>> {
    let ask = own::Ask::ALL[question.ask as usize];
    let question = own::Question::new(ask, question.numbers);
    let readings = own::answers_beside(own, lent, question).into_iter();
    readings.map(|reading| reading.answer)
}
