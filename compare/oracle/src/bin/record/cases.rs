//! The cases to record: for each kind, lent bytes, a place and a length in them, and an index.

use std::collections::HashSet;

use bounded::readings::Kind;

use bounded::inputs::records::{self, Record};
use bounded::random::Random;

/// One question to all methods of a kind.
#[derive(Clone, PartialEq, Eq, Hash)]
pub struct Case {
    pub kind: Kind,
    pub lent: Vec<u8>,
    pub at: u32,
    pub len: u32,
    pub arg: u32,
}

/// Each kind begins at a seed of its own, so that a change to one kind's cases leaves the others as
/// they were.
const SEED: u64 = 0x5446_534D_0000_0000;

/// How many records are also asked for in places that hold no whole record.
const MISPLACED_RECORDS: usize = 5;

/// All cases of a kind. `cut_out` holds the bytes of records of this kind from real libraries.
pub fn of_kind(kind: Kind, cut_out: Vec<Vec<u8>>) -> Vec<Case> {
    match kind {
        Kind::VtName => return type_codes().map(|code| number(kind, code)).collect(),
        Kind::TypeKind => return (0..=0xFF).map(|raw| number(kind, raw)).collect(),
        _ => {}
    }

    let mut random = Random::new(SEED + kind as u64);
    let mut records = records::records(kind, &mut random);
    records.extend(cut_out.into_iter().map(|bytes| Record {
        bytes,
        arg: random.below(4) as u32,
    }));

    let mut cases: Vec<Case> = records
        .iter()
        .map(|record| framed(kind, record, &mut random))
        .collect();
    for record in records.iter().step_by(records.len() / MISPLACED_RECORDS) {
        cases.extend(misplaced(framed(kind, record, &mut random), &mut random));
    }
    let mut seen = HashSet::new();
    cases.retain(|case| seen.insert(case.clone()));
    cases
}

/// A case of a conversion from a number.
fn number(kind: Kind, arg: u32) -> Case {
    Case {
        kind,
        lent: Vec::new(),
        at: 0,
        len: 0,
        arg,
    }
}

/// Every code of one byte; known codes with a bit above them, those for vector (0x1000), array
/// (0x2000), reference (0x4000) and reserved (0x8000) included; and the greatest codes.
fn type_codes() -> impl Iterator<Item = u32> {
    let marked = [0x0100, 0x1000, 0x2000, 0x4000, 0x8000]
        .into_iter()
        .flat_map(|mark| [0, 3, 8, 29].map(|code| mark | code));
    (0..=0xFF)
        .chain(marked)
        .chain([0x0FFF, 0x7FFF, 0xFFFE, 0xFFFF])
}

/// The record whole, with up to three other bytes on either side: with none, it lies at the very
/// beginning or the very end of the lent bytes.
fn framed(kind: Kind, record: &Record, random: &mut Random) -> Case {
    let before = random.below(4);
    let after = random.below(4);
    let mut lent = random.bytes(before);
    lent.extend(&record.bytes);
    lent.extend(random.bytes(after));
    Case {
        kind,
        lent,
        at: before as u32,
        len: record.bytes.len() as u32,
        arg: record.arg,
    }
}

/// The same bytes, asked for with places and lengths that hold no whole record: too short, or not
/// wholly inside the lent bytes.
fn misplaced(whole: Case, random: &mut Random) -> Vec<Case> {
    let (at, len) = (whole.at, whole.len);
    let count = whole.lent.len() as u32;
    // A name entry has no fixed part.
    let fixed = whole.kind.fixed_part().max(1) as u32;
    let asked = |at, len| Case {
        at,
        len,
        ..whole.clone()
    };
    let cut_off = |kept: u32| Case {
        lent: whole.lent[..kept as usize].to_vec(),
        ..whole.clone()
    };
    vec![
        // Inside the lent bytes and shorter than the fixed part.
        asked(at, fixed - 1),
        asked(at, random.below(fixed as usize) as u32),
        asked(at, 0),
        asked(count, 0),
        // Ends past the lent bytes: they break off in the record, or it is said to be longer.
        cut_off(at + len - 1),
        cut_off(at + fixed - 1),
        cut_off(at),
        cut_off(0),
        asked(at, count - at + 1),
        asked(count - fixed + 1, fixed),
        // Begins at or past the end of the lent bytes.
        asked(count, fixed),
        asked(count + 1, 0),
        asked(count + 1, fixed),
        // Huge numbers. Kept to 32 bits, the last four sums would lie inside the lent bytes.
        asked(at, u32::MAX),
        asked(0x7FFF_FFFF, fixed),
        asked(0x8000_0000, fixed),
        asked(u32::MAX, u32::MAX),
        asked(u32::MAX, 0),
        asked(u32::MAX, 1),
        asked(u32::MAX, fixed),
        asked(u32::MAX, fixed + 1),
        asked(u32::MAX - fixed + 1, fixed),
    ]
}
