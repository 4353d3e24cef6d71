//! Libraries that are read beside other bytes than they were parsed from. The reference cannot hold such a
//! one, so the answers are document 01's and document 02's, by `rules.rs`. Where the reference's own code, kept to
//! its tables, answers when a library's numbers are put beside other bytes, it must answer the same.
//!
//! That too many bytes are 1 to every entry is in no file: the replay takes no file of so many.

mod rules;

use bounded::TypeLib;
use bounded::library::{
    ARRAY_DESCRIPTOR_SEGMENT, Ask, CONSTANT_SEGMENT, GUID_SEGMENT, IMPORT_FILE_SEGMENT,
    IMPORT_SEGMENT, NAME_SEGMENT, Question, REFERENCE_SEGMENT, STRING_SEGMENT,
    TYPE_DESCRIPTOR_SEGMENT, TYPEINFO_SEGMENT, answers,
};
use bounded::readings::Reading;

use crate::file::Item;
use crate::judged::{self, Asked};
use crate::made_libraries::{Made, func, imp_file, name_entry, typeinfo, words};
use crate::questions::{of_word, question};
use rules::{Beside, Numbers};

const HEADER_SIZE: usize = 84;
const DIRECTORY: usize = 96;
const GUID_HASH_SEGMENT: usize = 4;
const NAME_HASH_SEGMENT: usize = 6;

/// The bytes that a library is parsed from, those that it is read beside, and what is asked.
pub struct Pair {
    own: Vec<u8>,
    lent: Vec<u8>,
    pub asked: Asked,
}

/// A library with every table beside bytes of the same length that hold another library, beside its own
/// bytes cut off in the name table and in the offset table, beside bytes without a header, beside fewer
/// than a header has, beside none, and beside its own with a chain that comes round; a library without types or
/// tables, and one of two types without tables, beside it.
pub fn all() -> Vec<Pair> {
    let own = whole();
    let other = another(&own);
    let in_names = Numbers::of(&own).segment(NAME_SEGMENT).unwrap().0 + 30;
    let without_header = [&[0xEE; HEADER_SIZE], &other[HEADER_SIZE..]].concat();
    let every = [of_header(), of_tables(&own)].concat();
    let some = some(&own);
    let pairs = vec![
        pair(&own, &other, &every),
        pair(&own, &own[..in_names], &of_tables(&own)),
        pair(&own, &own[..90], &some),
        pair(&own, &without_header, &some),
        pair(&own, &without_header[..60], &some),
        pair(&own, &[], &some),
        pair(&own, &coming_round(&own), &some),
        pair(&Made::new(&[]).bytes(), &own, &some),
        pair(&Made::new(&[0, 0]).bytes(), &own, &some),
    ];
    tells_apart(&pairs[0]);
    pairs
}

/// Both files are lent before the questions. `first` is the number of the first reading.
pub fn items(pairs: &[Pair], first: u8) -> Vec<Item<'_>> {
    let mut items = Vec::new();
    for pair in pairs {
        items.extend([pair.asked.lent(&pair.own), Item::Beside(&pair.lent)]);
        items.extend(pair.asked.items(first));
    }
    items
}

/// The pair with the papers' answers, which the reference must agree with where it is asked.
fn pair(own: &[u8], lent: &[u8], asked: &[Question]) -> Pair {
    let beside = Beside {
        own: Numbers::of(own),
        lent,
    };
    let mut cut = 0;
    let answered = asked.iter().map(|&question| {
        let readings = expected(beside.answers(question));
        if is_asked_of_reference(lent, question.ask) {
            let (told, is_cut) = judged::answer(own, lent, question);
            assert!(are_same(&readings, &told), "of the reference: {question:?}");
            cut += usize::from(is_cut);
        }
        (question, readings)
    });
    let answered = answered.collect();
    Pair {
        own: own.to_vec(),
        lent: lent.to_vec(),
        asked: Asked { answered, cut },
    }
}

fn expected(answers: Vec<Vec<u8>>) -> Vec<Reading> {
    let reading = |answer| Reading {
        method: "expected",
        optional: false,
        answer,
    };
    answers.into_iter().map(reading).collect()
}

/// The reference reads on in a header that is cut off: it never holds one. Document 01 makes it nothing.
fn is_asked_of_reference(lent: &[u8], ask: Ask) -> bool {
    let by_header =
        ask < Ask::Segment || [Ask::LibName, Ask::LibGuid, Ask::LibHelpstring].contains(&ask);
    HEADER_SIZE <= lent.len() || !by_header || ask == Ask::TypeinfoCount
}

fn are_same(a: &[Reading], b: &[Reading]) -> bool {
    let bytes = |readings: &[Reading]| -> Vec<Vec<u8>> {
        readings.iter().map(|one| one.answer.clone()).collect()
    };
    bytes(a) == bytes(b)
}

/// Checks the pair of two libraries: every answer that needs the library's numbers would be another one
/// by the numbers of the lent bytes, and every field of the header another one in the library's own bytes.
fn tells_apart(pair: &Pair) {
    assert!(TypeLib::parse(&pair.lent).is_ok());
    for (question, readings) in &pair.asked.answered {
        let needs_numbers = question.ask >= Ask::Segment || question.ask == Ask::TypeinfoCount;
        let from = if needs_numbers { &pair.lent } else { &pair.own };
        let other = answers(from, *question);
        assert!(!are_same(readings, &other), "the same: {question:?}");
    }
}

/// A library of three typeinfos with every table that a reading looks into.
fn whole() -> Vec<u8> {
    let mut made = Made::new(&[0, 100, 200]);
    for (at, word) in [(0x08, 0), (0x14, 0x42), (0x24, 0), (0x38, 0)] {
        made.word(at, word);
    }
    // A function, its identifier, and its name's offset.
    let block = made.put(&[words(&[24]), func(24, 0, 24), words(&[7, 20])].concat());
    let typeinfos = [
        typeinfo(5, u32::MAX, 0, 0, 0),
        typeinfo(3, block, 1, 0, 0),
        typeinfo(6, u32::MAX, 0, 0, 8),
    ];
    made.segment(TYPEINFO_SEGMENT, &typeinfos.concat());
    let imports = words(&[0x0301_0000, 0, 0, 0x0301_0001, 28, 24]);
    made.segment(IMPORT_SEGMENT, &imports);
    let files = [imp_file(b"stdole2.tlb"), imp_file(b"dice.tlb")].concat();
    made.segment(IMPORT_FILE_SEGMENT, &files);
    let references = words(&[100, 1, u32::MAX, 16, 13, 2, u32::MAX, u32::MAX]);
    made.segment(REFERENCE_SEGMENT, &references);
    made.segment(GUID_HASH_SEGMENT, &[1; 12]);
    made.segment(GUID_SEGMENT, &(0..48).collect::<Vec<u8>>());
    made.segment(NAME_HASH_SEGMENT, &[2; 20]);
    made.segment(NAME_SEGMENT, &names());
    made.segment(STRING_SEGMENT, b"\x05\0SlotsW\x04\0DiceWW");
    made.segment(TYPE_DESCRIPTOR_SEGMENT, &type_descriptors());
    let arrays = words(&[0x8003_0003, 1, 3, 0, 0x8003_0003, 2, 4, 0, 5, 1]);
    made.segment(ARRAY_DESCRIPTOR_SEGMENT, &arrays);
    made.segment(CONSTANT_SEGMENT, &constants());
    made.bytes()
}

fn names() -> Vec<u8> {
    let names: [(u32, &[u8]); 4] = [(0, b"Random"), (0, b"Draw"), (100, b"Seed"), (0, b"Count")];
    names
        .map(|(typeinfo, name)| name_entry(typeinfo, name))
        .concat()
}

/// A pointer, a safe array, a C array and a reference.
fn type_descriptors() -> Vec<u8> {
    words(&[26, 0x8003_0003, 27, 8, 28, 0, 29, 100])
}

/// An I4 at 0, a text at 8, an R8 at 20 and a decimal at 32.
fn constants() -> Vec<u8> {
    let mut constants = b"\x03\0\x07\0\0\0WW\x08\0\x04\0\0\0diceWW".to_vec();
    constants.extend([5, 0]);
    constants.extend(0.5f64.to_le_bytes());
    constants.extend(b"WW\x0E\0");
    constants.extend(100..116);
    constants
}

/// Another library in as many bytes: a typeinfo fewer and the extra word behind the header, so that its
/// directory starts at the same place; the segments of its directory are those of the first, by other
/// numbers; and words in the tables are others.
fn another(own: &[u8]) -> Vec<u8> {
    let mut bytes = own.to_vec();
    for at in (4..HEADER_SIZE).step_by(4) {
        put(&mut bytes, at, 0x0203_0400 + at as u32);
    }
    // The count and the flag of the extra word; the offsets of the library's GUID, help and name.
    for (at, word) in [(0x20, 2), (0x14, 0x143), (0x08, 24), (0x24, 8), (0x38, 20)] {
        put(&mut bytes, at, word);
    }
    // The extra word, which the first library takes for its first offset, and two offsets.
    for (at, word) in [(84, 100), (88, u32::MAX), (92, 0x0200_0000)] {
        put(&mut bytes, at, word);
    }
    for segment in 0..15 {
        let from = DIRECTORY + 16 * ((segment + 3) % 15);
        let to = DIRECTORY + 16 * segment;
        bytes[to..to + 8].copy_from_slice(&own[from..from + 8]);
    }
    for (segment, offset, word) in CHANGED {
        let (start, _) = Numbers::of(own).segment(segment).unwrap();
        put(&mut bytes, start + offset, word);
    }
    bytes
}

/// The library with its second reference naming the first one.
fn coming_round(own: &[u8]) -> Vec<u8> {
    let (references, _) = Numbers::of(own).segment(REFERENCE_SEGMENT).unwrap();
    let mut bytes = own.to_vec();
    put(&mut bytes, references + 16 + 12, 0);
    bytes
}

/// Words of the tables that are others in the other library: where its chain starts, a shorter name of an
/// import file and where an import finds it, where the references go on, a shorter name and another
/// typeinfo's, shorter strings, a pointer to something else and another array, its dimensions, and
/// constants: an I2, and a shorter text.
const CHANGED: [(usize, usize, u32); 15] = [
    (TYPEINFO_SEGMENT, 100 + 0x54, 16),
    (IMPORT_FILE_SEGMENT, 12, u32::from_le_bytes(*b"\x1C\0st")),
    (IMPORT_SEGMENT, 12 + 4, 0),
    (REFERENCE_SEGMENT, 12, u32::MAX),
    (REFERENCE_SEGMENT, 16 + 12, 0),
    (NAME_SEGMENT, 8, 0xABCD_2005),
    (NAME_SEGMENT, 20, 100),
    (NAME_SEGMENT, 20 + 8, 0xABCD_2003),
    (STRING_SEGMENT, 0, u32::from_le_bytes(*b"\x04\0Sl")),
    (STRING_SEGMENT, 8, u32::from_le_bytes(*b"\x03\0Di")),
    (TYPE_DESCRIPTOR_SEGMENT, 4, 0x8005_0005),
    (TYPE_DESCRIPTOR_SEGMENT, 16 + 4, 16),
    (ARRAY_DESCRIPTOR_SEGMENT, 4, 2),
    (CONSTANT_SEGMENT, 0, 0xFFFE_0002),
    (CONSTANT_SEGMENT, 8, 0x0002_0008),
];

fn put(bytes: &mut [u8], at: usize, word: u32) {
    bytes[at..at + 4].copy_from_slice(&word.to_le_bytes());
}

/// Every field of the header.
fn of_header() -> Vec<Question> {
    let fields = Ask::ALL
        .iter()
        .filter(|&&ask| Ask::Parse < ask && ask < Ask::Segment);
    fields.map(|&ask| of_word(ask, 0)).collect()
}

/// The readings that look into the library's tables.
fn of_tables(own: &[u8]) -> Vec<Question> {
    let word = |ask, word| of_word(ask, word);
    let mut asked = vec![
        word(Ask::Segment, GUID_SEGMENT as u32),
        word(Ask::SegmentData, NAME_SEGMENT as u32),
        word(Ask::Table, TYPEINFO_SEGMENT as u32),
        word(Ask::GuidHashData, 0),
        word(Ask::NameHashData, 0),
        word(Ask::LibName, 0),
        word(Ask::LibGuid, 0),
        word(Ask::LibHelpstring, 0),
        word(Ask::NameBytes, 0),
        word(Ask::Name, 36),
        word(Ask::String, 0),
        word(Ask::Guid, 24),
        word(Ask::TypeDesc, 0),
        word(Ask::ArrayDesc, 0),
        word(Ask::TypeDescription, 0),
        word(Ask::TypeDescription, 16),
        word(Ask::ConstValue, 0),
        word(Ask::ConstValue, 8),
        word(Ask::ConstValue, 20),
        word(Ask::ConstValue, 32),
        word(Ask::ImpFile, 0),
        word(Ask::ResolveHreftype, 200),
        word(Ask::ResolveHreftypeFull, 200),
        word(Ask::ResolveHreftypeFull, 13),
        question(Ask::TablePlace, [GUID_SEGMENT as u32, 16, 24]),
        question(Ask::TablePlace, [IMPORT_SEGMENT as u32, 12, 12]),
    ];
    asked.extend(of_typeinfos(own));
    asked
}

/// The readings of typeinfos, and the cursors.
fn of_typeinfos(own: &[u8]) -> Vec<Question> {
    let (start, _) = Numbers::of(own).segment(TYPEINFO_SEGMENT).unwrap();
    let record = [start as u32 + 100, 100, 0];
    let mut asked: Vec<Question> = (0..3).map(|index| of_word(Ask::Typeinfo, index)).collect();
    asked.push(of_word(Ask::TypeinfoOffset, 1));
    asked.push(of_word(Ask::MemberName, 0));
    let cursors = [
        Ask::Typeinfos,
        Ask::Guids,
        Ask::Names,
        Ask::Imports,
        Ask::ImpFiles,
    ];
    asked.extend(cursors.map(|ask| of_word(ask, 0)));
    asked.extend([Ask::FuncName, Ask::ImplTypes, Ask::Walk].map(|ask| question(ask, record)));
    asked
}

/// A few of all these.
fn some(own: &[u8]) -> Vec<Question> {
    let few = [
        Ask::FormatVersion,
        Ask::Syskind,
        Ask::TypeinfoCount,
        Ask::NameOffset,
        Ask::Segment,
        Ask::LibName,
        Ask::NameBytes,
        Ask::Guid,
        Ask::ConstValue,
        Ask::ResolveHreftypeFull,
        Ask::Typeinfo,
        Ask::Guids,
        Ask::Names,
        Ask::ImplTypes,
        Ask::Walk,
    ];
    let mut asked = [of_header(), of_tables(own)].concat();
    asked.retain(|question| few.contains(&question.ask));
    asked
}
