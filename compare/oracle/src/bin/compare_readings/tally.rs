//! How often each export was asked and how it should answer: a comparison says nothing about an
//! answer that never came up.

use std::collections::BTreeSet;
use std::fmt::{self, Display};

use bounded::c_header::{Declared, Lengths};
use bounded::coverage::{INLINE_CODES, stored_codes};
use bounded::exports::Export;
use bounded::exports::answer::Answer;
use bounded::exports::numbers::{Asks, Numbers};
use bounded::exports::pool::EDGE_COUNTS;
use bounded::readings::NOTHING;
use bounded::sheet::refusal;

/// The highest number of a refusal.
const LAST: usize = 13;

/// How often an export with an output is called in a case, and in how many of these the output is too
/// short for a row: one a byte short, and an empty one.
const CALLS: u64 = 4;
const TOO_SHORT: u64 = 2;

/// The export whose rows begin with a constant's code.
const CONSTANTS: &str = "msft_const_value";

/// The export that checks a text, and what its rows may say: whether the text is valid, and whether it is looked at
/// whole.
const TEXT_CHECK: &str = "msft_text_check";
const CHECKED: [(bool, bool); 3] = [(true, true), (false, true), (false, false)];

/// Values and refusals 9 about bytes that are no library.
#[derive(Default)]
struct Alone {
    values: u64,
    nothing: u64,
}

/// The counts of one export.
pub struct Tally {
    name: &'static str,
    has_output: bool,
    /// The refusals and the lengths of rows that it should come to.
    wanted: BTreeSet<u8>,
    wanted_lengths: Lengths,
    cases: u64,
    values: u64,
    refused: [u64; LAST + 1],
    /// Of an export that needs no library: what it came to about bytes that are none.
    alone: Option<Alone>,
    lengths: BTreeSet<usize>,
    /// Codes of constants, by whether they are stored.
    codes: BTreeSet<(bool, u16)>,
    /// What checks of texts said.
    checked: BTreeSet<(bool, bool)>,
    /// Of a cursor's step: which of its numbers is the count, and the edges that this had where it came to a value.
    counts: Option<(usize, BTreeSet<usize>)>,
}

impl Tally {
    /// Nothing counted yet. The header says which refusals an export has, and what it writes.
    pub fn new(export: &Export, declared: &[Declared]) -> Self {
        let declared = declared.iter().find(|other| other.name == export.name);
        let refusals = declared.map(|declared| declared.refusals.clone());
        Tally {
            name: export.name,
            has_output: export.call.has_output(),
            wanted: refusals.unwrap_or_default(),
            wanted_lengths: declared.map_or(Lengths::Any, |declared| declared.lengths.clone()),
            cases: 0,
            values: 0,
            refused: [0; LAST + 1],
            alone: export.needs_no_library().then(Alone::default),
            lengths: BTreeSet::new(),
            codes: BTreeSet::new(),
            checked: BTreeSet::new(),
            counts: match export.asks {
                Asks::Cursor(cursor) => Some((cursor.count_at(), BTreeSet::new())),
                _ => None,
            },
        }
    }

    /// Counts an answer about bytes that are a library or none.
    pub fn add(&mut self, is_library: bool, numbers: Numbers, answer: &Answer) {
        self.cases += 1;
        if let Some(alone) = self.alone.as_mut().filter(|_| !is_library) {
            match answer {
                Answer::Refused(number) => alone.nothing += u64::from(*number == NOTHING),
                _ => alone.values += 1,
            }
        }
        match answer {
            Answer::Refused(number) => self.refused[usize::from(*number)] += 1,
            Answer::Number(_) => self.values += 1,
            Answer::Row(row) | Answer::Ended(row) => {
                self.values += 1;
                self.refused[usize::from(refusal::NO_SPACE)] += TOO_SHORT;
                self.lengths.insert(row.len());
                if let Some((at, counts)) = &mut self.counts {
                    counts.extend(EDGE_COUNTS.iter().filter(|count| **count == numbers[*at]));
                }
                if self.name == CONSTANTS {
                    let is_stored = numbers[0] as i32 >= 0;
                    self.codes
                        .insert((is_stored, u16::from_le_bytes([row[0], row[1]])));
                }
                if self.name == TEXT_CHECK {
                    let is_whole = row[1..] == (numbers[1] as u64).to_le_bytes();
                    self.checked.insert((row[0] == 1, is_whole));
                }
            }
        }
    }

    pub fn cases(&self) -> u64 {
        self.cases
    }

    pub fn calls(&self) -> u64 {
        match self.has_output {
            true => CALLS * self.cases,
            false => self.cases,
        }
    }

    /// What never came up of what the export should come to, and what came up though it should not.
    pub fn faults(&self) -> Vec<String> {
        let mut faults = Vec::new();
        if self.values == 0 {
            faults.push("no value".into());
        }
        for number in 1..=LAST as u8 {
            let came_up = self.refused[usize::from(number)] > 0;
            match (self.wanted.contains(&number), came_up) {
                (true, false) => faults.push(format!("no refusal {number}")),
                (false, true) => faults.push(format!("refusal {number}, which is not named")),
                _ => {}
            }
        }
        if !self.has_wanted_lengths() {
            let (found, wanted) = (&self.lengths, &self.wanted_lengths);
            faults.push(format!("rows of {found:?} bytes instead of {wanted:?}"));
        }
        faults.extend(self.missing_alone());
        faults.extend(self.missing_codes());
        faults.extend(self.missing_checks());
        faults.extend(self.missing_counts());
        let named = |fault| format!("{}: {fault}", self.name);
        faults.into_iter().map(named).collect()
    }

    /// Whether the rows have all the lengths that are said, and no others; a bound may be above them.
    fn has_wanted_lengths(&self) -> bool {
        let (first, last) = (self.lengths.first(), self.lengths.last());
        match &self.wanted_lengths {
            Lengths::Any => true,
            Lengths::These(lengths) => self.lengths == *lengths,
            Lengths::Range(None, most) => last <= Some(most),
            Lengths::Range(Some(least), most) => first == Some(least) && last == Some(most),
        }
    }

    fn missing_alone(&self) -> Vec<String> {
        let mut missing = Vec::new();
        if let Some(alone) = &self.alone {
            if alone.values == 0 {
                missing.push("no value about bytes that are no library".into());
            }
            if self.wanted.contains(&NOTHING) && alone.nothing == 0 {
                missing.push("no refusal 9 about bytes that are no library".into());
            }
        }
        missing
    }

    /// Values and refusals 9 about bytes that are no library.
    pub fn alone(&self) -> (u64, u64) {
        let alone = self.alone.as_ref();
        alone.map_or((0, 0), |alone| (alone.values, alone.nothing))
    }

    fn missing_counts(&self) -> Vec<String> {
        let Some((_, counts)) = &self.counts else {
            return Vec::new();
        };
        let missing = EDGE_COUNTS.iter().filter(|count| !counts.contains(count));
        missing
            .map(|count| format!("no value from a count of {count:x}"))
            .collect()
    }

    fn missing_codes(&self) -> Vec<String> {
        if self.name != CONSTANTS {
            return Vec::new();
        }
        let inline = INLINE_CODES.into_iter().map(|code| (false, code));
        inline
            .chain(stored_codes().map(|code| (true, code)))
            .filter(|code| !self.codes.contains(code))
            .map(|(is_stored, code)| format!("no constant of code {code}, stored: {is_stored}"))
            .collect()
    }

    fn missing_checks(&self) -> Vec<String> {
        if self.name != TEXT_CHECK {
            return Vec::new();
        }
        let missing = CHECKED.iter().filter(|said| !self.checked.contains(said));
        missing
            .map(|(valid, whole)| format!("no text valid: {valid}, looked at whole: {whole}"))
            .collect()
    }
}

/// The titles of the columns of [`Tally`]'s lines.
pub fn titles() -> String {
    let refusals: String = (1..=LAST)
        .map(|number| format!(" {:>8}", format!("-{number}")))
        .collect();
    format!("{:32} {:>9} {:>9}{refusals}", "reading", "cases", "values")
}

/// Cases, values, and the refusals by number.
impl Display for Tally {
    fn fmt(&self, f: &mut fmt::Formatter) -> fmt::Result {
        write!(f, "{:32} {:>9} {:>9}", self.name, self.cases, self.values)?;
        for count in &self.refused[1..] {
            match count {
                0 => write!(f, " {:>8}", ".")?,
                _ => write!(f, " {count:>8}")?,
            }
        }
        Ok(())
    }
}
