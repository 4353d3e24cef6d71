//! What a run's inputs covered: a comparison says nothing about a case that never came up.

pub mod figures;

use std::collections::BTreeMap;
use std::fmt::{self, Debug, Display};

use crate::sheet::places::{Field, Place};
use crate::sheet::{self, Watch, refusal};

/// Tree codes, reference codes, and the kinds of a type's low four bits.
const TREE_CODES: u8 = 6;
const REFERENCE_CODES: u8 = 4;
const KINDS: u8 = 16;

/// The code of a reference that hits no typeinfo, and its bit bytes.
const MISPLACED: u8 = 3;
const MARKS: [u8; 2] = [0, 1];

/// The constant codes that an inline constant can give.
pub const INLINE_CODES: [u16; 14] = [0, 1, 2, 3, 10, 11, 16, 17, 18, 19, 22, 23, 24, 25];

/// Below this are the codes of stored constants with cases of their own, and above it the file time.
const STORED_CODES: u16 = 26;
const FILE_TIME: u16 = 64;

/// The codes of stored constants that have cases of their own.
pub fn stored_codes() -> impl Iterator<Item = u16> {
    (0..STORED_CODES)
        .filter(|code| ![9, 12, 13, 15].contains(code))
        .chain([FILE_TIME])
}

/// The fields that may hold nothing.
const OPTIONAL: [&str; 6] = ["GUID", "name", "memid", "constant", "import file", "text"];

/// How often each thing came up.
type Counts<T> = BTreeMap<T, u64>;

/// The replies of a run, and what its sheets are made of.
#[derive(Default)]
pub struct Coverage {
    pub sheets: u64,
    pub longest: usize,
    refusals: Counts<u8>,
    made_of: Parts,
}

/// What sheets are made of. Codes of stored constants without a case of their own are kept apart.
#[derive(Default)]
struct Parts {
    trees: Counts<u8>,
    references: Counts<u8>,
    /// References that hit no typeinfo, by their place and their bit.
    misplaced: Counts<(Place, u8)>,
    kinds: Counts<u8>,
    inline: Counts<u16>,
    stored: Counts<u16>,
    stored_raw: Counts<u16>,
    there: Counts<&'static str>,
    not_there: Counts<&'static str>,
    /// The field that is being laid out, and the codes of its tree so far: the last, and the one before.
    field: Option<Field>,
    innermost: Option<u8>,
    around: Option<u8>,
}

impl Coverage {
    /// The reference's sheet of the input, counted.
    pub fn sheet(&mut self, input: &[u8], room: usize) -> Result<Vec<u8>, u8> {
        let mut parts = Parts::default();
        let reply = sheet::watched_sheet(input, room, &mut parts);
        match &reply {
            Ok(sheet) => {
                self.sheets += 1;
                self.longest = self.longest.max(sheet.len());
                self.made_of.add(parts);
            }
            Err(number) => add_one(&mut self.refusals, *number),
        }
        reply
    }

    /// What the documents name and the run did not reach.
    pub fn missing(&self) -> Vec<String> {
        let parts = &self.made_of;
        let mut missing = not_in("refusal", refusal::ALL, &self.refusals);
        missing.extend(not_in("tree", 0..TREE_CODES, &parts.trees));
        missing.extend(not_in("reference", 0..REFERENCE_CODES, &parts.references));
        missing.extend(self.missing_misplaced());
        missing.extend(not_in("kind", 0..KINDS, &parts.kinds));
        missing.extend(not_in("inline constant", INLINE_CODES, &parts.inline));
        missing.extend(not_in("stored constant", stored_codes(), &parts.stored));
        missing.extend(not_in("a", OPTIONAL, &parts.there));
        missing.extend(not_in("no", OPTIONAL, &parts.not_there));
        if parts.stored_raw.is_empty() {
            missing.push("stored constant of another code".into());
        }
        missing
    }

    /// The places in which no reference stood that hits no typeinfo, by its bit.
    pub fn missing_misplaced(&self) -> Vec<String> {
        let wanted = Place::all().flat_map(|place| MARKS.map(|mark| (place, mark)));
        wanted
            .filter(|wanted| !self.made_of.misplaced.contains_key(wanted))
            .map(|wanted| format!("reference that hits no typeinfo: {}", placed(&wanted)))
            .collect()
    }
}

/// A reference's place and bit, in words.
fn placed((place, mark): &(Place, u8)) -> String {
    format!("{place} (bit {mark})")
}

impl Display for Coverage {
    fn fmt(&self, f: &mut fmt::Formatter) -> fmt::Result {
        let parts = &self.made_of;
        writeln!(f, "sheets: {}, longest {} bytes", self.sheets, self.longest)?;
        writeln!(f, "refusals: {}", listed(&self.refusals))?;
        writeln!(f, "kinds: {}", listed(&parts.kinds))?;
        writeln!(f, "tree codes: {}", listed(&parts.trees))?;
        writeln!(f, "reference codes: {}", listed(&parts.references))?;
        let misplaced = parts.misplaced.iter();
        let misplaced = misplaced.map(|(what, times)| (placed(what), *times));
        let misplaced = listed(&misplaced.collect());
        writeln!(f, "references that hit no typeinfo: {misplaced}")?;
        writeln!(f, "inline constants: {}", listed(&parts.inline))?;
        writeln!(f, "stored constants: {}", listed(&parts.stored))?;
        let times: u64 = parts.stored_raw.values().sum();
        let codes = parts.stored_raw.len();
        writeln!(f, "stored constants of {codes} other codes: {times}")?;
        writeln!(f, "fields that hold something: {}", listed(&parts.there))?;
        write!(f, "fields that hold nothing: {}", listed(&parts.not_there))
    }
}

impl Parts {
    fn add(&mut self, other: Parts) {
        add_all(&mut self.trees, other.trees);
        add_all(&mut self.references, other.references);
        add_all(&mut self.misplaced, other.misplaced);
        add_all(&mut self.kinds, other.kinds);
        add_all(&mut self.inline, other.inline);
        add_all(&mut self.stored, other.stored);
        add_all(&mut self.stored_raw, other.stored_raw);
        add_all(&mut self.there, other.there);
        add_all(&mut self.not_there, other.not_there);
    }
}

impl Watch for Parts {
    fn field(&mut self, field: Field) {
        self.field = Some(field);
        self.innermost = None;
        self.around = None;
    }

    fn tree(&mut self, code: u8) {
        add_one(&mut self.trees, code);
        self.around = self.innermost.replace(code);
    }

    fn constant(&mut self, code: u16, stored: bool) {
        let counts = match (stored, code) {
            (false, _) => &mut self.inline,
            (true, 9 | 12 | 13 | 15 | STORED_CODES..FILE_TIME) => &mut self.stored_raw,
            (true, 0..=FILE_TIME) => &mut self.stored,
            (true, _) => &mut self.stored_raw,
        };
        add_one(counts, code);
    }

    fn reference(&mut self, code: u8, mark: u8) {
        add_one(&mut self.references, code);
        if code == MISPLACED {
            let field = self.field.expect("a reference stands in a field");
            let around = self.around;
            add_one(&mut self.misplaced, (Place { field, around }, mark));
        }
    }

    fn base(&mut self, kind: u8) {
        add_one(&mut self.kinds, kind);
    }

    fn opt(&mut self, what: &'static str, is_there: bool) {
        let counts = match is_there {
            true => &mut self.there,
            false => &mut self.not_there,
        };
        add_one(counts, what);
    }
}

fn add_one<T: Ord>(counts: &mut Counts<T>, what: T) {
    *counts.entry(what).or_default() += 1;
}

fn add_all<T: Ord>(counts: &mut Counts<T>, more: Counts<T>) {
    for (what, times) in more {
        *counts.entry(what).or_default() += times;
    }
}

fn listed<T: Display>(counts: &Counts<T>) -> String {
    let entries: Vec<String> = counts
        .iter()
        .map(|(what, times)| format!("{what} x{times}"))
        .collect();
    entries.join(", ")
}

fn not_in<T: Ord + Debug>(
    word: &str,
    wanted: impl IntoIterator<Item = T>,
    counts: &Counts<T>,
) -> Vec<String> {
    wanted
        .into_iter()
        .filter(|what| !counts.contains_key(what))
        .map(|what| format!("{word} {what:?}"))
        .collect()
}

#[cfg(test)]
mod tests {
    use super::{Coverage, MARKS, placed};
    use crate::inputs::misplaced;
    use crate::sheet::MOST_BYTES;
    use crate::sheet::places::Place;

    /// Each of the libraries has one reference: without it, its own place is what is missing.
    #[test]
    fn a_place_that_no_misplaced_reference_stood_in_is_missing() {
        let wanted = Place::all().flat_map(|place| MARKS.map(|mark| (place, mark)));
        for (left_out, wanted) in wanted.enumerate() {
            let mut coverage = Coverage::default();
            for (number, input) in misplaced::places().enumerate() {
                if number != left_out {
                    let sheet = coverage.sheet(&input.bytes, MOST_BYTES);
                    sheet.expect("it is read");
                }
            }
            let missing = format!("reference that hits no typeinfo: {}", placed(&wanted));
            assert_eq!(coverage.missing_misplaced(), [missing]);
        }
    }
}
