//! The questions about records, and the reference's answers to them.

use std::collections::HashSet;

use bounded::readings::{Kind, Reading, readings};
use bounded::{TypeLib, enumerate};
use msft_typelib::readings as own;

use crate::cases::{self, Case};
use crate::file::Item;

/// The most records of one kind to cut out of the libraries.
const MOST_CUT_OUT: usize = 60;

/// A case and the reference's answers to it.
pub struct Entry {
    pub case: Case,
    pub readings: Vec<Reading>,
}

impl Entry {
    /// A record lies in no table, so nothing is cut.
    fn new(case: Case) -> Self {
        let readings = readings(case.kind, &case.lent, case.at, case.len, case.arg);
        let kind = own::Kind::ALL[case.kind as usize];
        let right = own::readings(kind, &case.lent, case.at, case.len, case.arg);
        let pairs = readings.iter().zip(&right);
        let is_same = pairs.into_iter().all(|(one, two)| one.answer == two.answer);
        assert!(is_same && readings.len() == right.len(), "{kind:?}");
        Entry { case, readings }
    }

    /// The asked end, which may be past the lent bytes.
    pub fn end(&self) -> u64 {
        u64::from(self.case.at) + u64::from(self.case.len)
    }

    /// Whether the asked place and length lie inside the lent bytes.
    pub fn is_inside(&self) -> bool {
        self.end() <= self.case.lent.len() as u64
    }

    /// Whether the entry holds a record of at least the kind's fixed part.
    pub fn is_whole(&self) -> bool {
        self.is_inside() && self.case.len as usize >= self.case.kind.fixed_part()
    }
}

/// Every case of every kind with its answers.
pub fn entries(libraries: &[Vec<u8>]) -> Vec<Entry> {
    Kind::ALL
        .into_iter()
        .flat_map(|kind| cases::of_kind(kind, cut_out(kind, libraries)))
        .map(Entry::new)
        .collect()
}

/// Each entry lends its own bytes.
pub fn items(entries: &[Entry]) -> Vec<Item<'_>> {
    entries
        .iter()
        .flat_map(|Entry { case, readings }| {
            let question = Item::Question {
                number: case.kind as u8,
                numbers: [case.at, case.len, case.arg],
                readings,
            };
            [Item::Lent(&case.lent), question]
        })
        .collect()
}

/// Different records of a kind that the reference finds in the libraries; if there are too many,
/// some from everywhere among them.
fn cut_out(kind: Kind, libraries: &[Vec<u8>]) -> Vec<Vec<u8>> {
    let mut seen = HashSet::new();
    let mut records = Vec::new();
    for data in libraries {
        let lib = TypeLib::parse(data).expect("our own libraries are well formed");
        for record in enumerate::records(&lib) {
            let bytes = &data[record.at..record.at + record.len];
            if record.kind == kind && seen.insert(bytes) {
                records.push(bytes.to_vec());
            }
        }
    }
    let step = records.len().div_ceil(MOST_CUT_OUT).max(1);
    records.into_iter().step_by(step).collect()
}
