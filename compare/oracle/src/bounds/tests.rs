//! Document 02's words, held against the bounded read and against the reference that goes through it.

use super::{Bytes, Notes, Read, Table, entry, noting, read_u16_le};
use crate::inputs::table_ends::{self, End, Ended, Outcome, Record};
use crate::library::answers;
use crate::sheet::{MOST_BYTES, sheet};

const FILE: [u8; 10] = [0, 1, 2, 3, 4, 5, 6, 7, 8, 9];

/// What a read of these bytes yields in a table that ends there, and whether it was noted.
fn cut(end: usize, at: usize, len: usize) -> (Option<&'static [u8]>, bool) {
    let table = Table::new(&FILE, end, Read::Guid);
    let (bytes, notes) = noting(|| table.get(at..at + len));
    let only_guids = notes.of(Read::Guid) > 0;
    assert_eq!(only_guids, !notes.is_empty());
    (bytes, only_guids)
}

#[test]
fn a_read_ends_with_its_table() {
    assert_eq!(cut(6, 2, 4), (Some(&FILE[2..6]), false));
    assert_eq!(cut(6, 3, 4), (None, true));
    assert_eq!(cut(6, 6, 1), (None, true));
    assert_eq!(cut(6, 6, 0), (Some(&FILE[6..6]), false));
    assert_eq!(cut(6, 7, 0), (None, true));
}

#[test]
fn a_read_ends_with_the_file_and_that_is_no_note() {
    assert_eq!(cut(20, 6, 4), (Some(&FILE[6..10]), false));
    assert_eq!(cut(20, 7, 4), (None, false));
    assert_eq!(cut(6, 7, 4), (None, false));
    assert_eq!(cut(usize::MAX, 7, 4), (None, false));
}

#[test]
fn a_table_of_no_bytes_has_none() {
    assert_eq!(cut(0, 0, 1), (None, true));
    assert_eq!(cut(0, 6, 4), (None, true));
    assert_eq!(cut(0, 7, 4), (None, false));
}

#[test]
fn bytes_and_numbers_are_cut_alike() {
    let table = entry(&FILE, 6);
    assert_eq!(noting(|| table.get(5).copied()).0, Some(5));
    let (byte, notes) = noting(|| table.get(6).copied());
    assert_eq!((byte, notes.of(Read::NameEntry)), (None, 1));
    assert_eq!(noting(|| read_u16_le(table, 4)).0, Some(0x0504));
    let (number, notes) = noting(|| read_u16_le(table, 5));
    assert_eq!((number, notes.of(Read::NameEntry)), (None, 1));
    assert_eq!(table.get(usize::MAX), None);
    assert_eq!(read_u16_le(table, usize::MAX), None);
}

#[test]
fn what_lies_in_no_table_is_as_it_was() {
    let (bytes, notes) = noting(|| FILE.as_slice().up_to(100));
    assert_eq!((bytes, notes.is_empty()), (FILE.as_slice(), true));
}

#[test]
fn notes_are_those_of_the_work_alone() {
    let table = Table::new(&FILE, 0, Read::String);
    let (inner, outer) = noting(|| {
        table.get(0..1);
        noting(|| table.get(0..2)).1
    });
    assert_eq!((inner.of(Read::String), outer.of(Read::String)), (1, 1));
    let mut both = inner;
    both.add(outer);
    assert_eq!(both.to_string(), "string x2");
    assert_eq!(Notes::default().to_string(), "none");
}

/// What a note says of the record.
fn read(record: Record) -> Read {
    match record {
        Record::Name | Record::LongName => Read::Name,
        Record::NameEntry => Read::NameEntry,
        Record::Guid => Read::Guid,
        Record::String => Read::String,
        Record::Typeinfo => Read::Typeinfo,
        Record::TypeDescriptor => Read::TypeDescriptor,
        Record::ArrayDescriptor => Read::ArrayDescriptor,
        Record::ImportFile => Read::ImportFile,
        Record::Reference => Read::Reference,
        Record::Constant(_) => Read::Constant,
        Record::Import => unreachable!("the reference keeps it to its table"),
    }
}

/// Whether the reference itself reads the record though document 02 has it be nothing. It keeps import
/// records to their table, and of import files and of the cursor's entries the fixed part; and only for
/// references it takes a missing table for one.
fn is_cut(record: Record, end: End) -> bool {
    match (end, record) {
        (_, Record::Import) => false,
        (End::NoTable, _) => record == Record::Reference,
        (End::PastOneByte | End::Behind, _) => {
            !matches!(record, Record::ImportFile | Record::NameEntry)
        }
        _ => matches!(end, End::PastTable | End::SecondPastTable),
    }
}

#[test]
fn each_record_is_read_or_refused_as_document_02_says() {
    for ended in table_ends::all() {
        let Ended { record, end, .. } = ended;
        let (told, notes) = noting(|| answers(&ended.input.bytes, ended.questions[0]));
        let outcome = match told[ended.answer].answer[0] {
            0 => Outcome::Read,
            number => Outcome::Refused(number),
        };
        assert_eq!(outcome, ended.outcome, "{record:?}, {end:?}");
        assert_eq!(
            notes.is_empty(),
            !is_cut(record, end),
            "{record:?}, {end:?}"
        );
        if is_cut(record, end) {
            let mut others = notes;
            others.0[read(record) as usize] = 0;
            assert!(others.is_empty(), "{record:?}, {end:?}: {notes}");
        }
    }
}

/// The sheet reads every record but a string and an entry of the cursor over names.
#[test]
fn a_sheet_is_cut_where_its_records_are() {
    for ended in table_ends::all() {
        let Ended { record, end, .. } = ended;
        let (sheet, notes) = noting(|| sheet(&ended.input.bytes, MOST_BYTES));
        let in_sheet = !matches!(record, Record::String | Record::NameEntry);
        let is_cut = in_sheet && is_cut(record, end);
        assert_eq!(!notes.is_empty(), is_cut, "{record:?}, {end:?}");
        match (record, ended.outcome) {
            (Record::Typeinfo, Outcome::Refused(number)) => assert_eq!(sheet, Err(number)),
            _ => assert!(sheet.is_ok(), "{record:?}, {end:?}"),
        }
    }
}

/// A chain without a table has no record, and its walk takes 0.
#[test]
fn a_chain_without_a_table_has_no_record() {
    let ended = table_ends::all()
        .find(|ended| ended.record == Record::Reference && ended.end == End::NoTable);
    let ended = ended.expect("it is among them");
    let walk = answers(&ended.input.bytes, ended.questions[1]);
    assert_eq!(walk[0].answer, [0; 9]);
}
