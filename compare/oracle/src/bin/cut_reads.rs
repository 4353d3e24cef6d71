//! Says what of libraries the reference reads past a table or from a missing one.
//!
//! - `cut_reads [FILE...]` prints for each library, and without a file for each of the usual folder, the reads
//!   that are cut when everything is read that the library itself names, and whether its sheet changes.
//! - `cut_reads --made` prints for each kind of record the made-up libraries whose reading changes, the smallest
//!   first, and what was answered and is now.

use std::fmt::{self, Display};
use std::{env, fs};

use bounded::bounds::{Notes, noting};
use bounded::comparing::kinds::Kinds;
use bounded::inputs::table_ends::{self, Ended, Record};
use bounded::inputs::{Input, Inputs};
use bounded::library::{Question, answers};
use bounded::sheet::{MOST_BYTES, sheet};
use bounded::{TypeInfoEntry, TypeKind, TypeLib};

/// The most records that are read of a chain, which may have no end.
const MOST_LINKS: usize = 1_000_000;

fn main() {
    let arguments: Vec<String> = env::args().skip(1).collect();
    if arguments == ["--made"] {
        return made();
    }
    let given = arguments.into_iter().map(|path| {
        let bytes = fs::read(&path).expect("the file can be read");
        Input::new(path, bytes)
    });
    let inputs: Vec<Input> = given.collect();
    match inputs.is_empty() {
        true => print_all(Inputs::new(0).corpus()),
        false => print_all(inputs.into_iter()),
    }
}

fn print_all(inputs: impl Iterator<Item = Input>) {
    let (mut kinds, mut sheets) = (Kinds::default(), 0);
    for input in inputs {
        let notes = own_reads(&input.bytes);
        kinds.add(!notes.is_empty());
        let after = sheet(&input.bytes, MOST_BYTES);
        let is_other = after != msft_typelib::sheet::sheet(&input.bytes, MOST_BYTES);
        sheets += usize::from(is_other);
        if !notes.is_empty() || is_other {
            println!("{}: {notes}; another sheet: {is_other}", input.name);
        }
    }
    println!("{kinds}; {sheets} of them with another sheet");
}

/// The notes of the sheet and of all other readings at what the library itself names.
fn own_reads(bytes: &[u8]) -> Notes {
    let (_, notes) = noting(|| {
        let _ = sheet(bytes, MOST_BYTES);
        if let Ok(lib) = TypeLib::parse(bytes) {
            of_tables(&lib);
            for index in 0..lib.typeinfo_count() {
                lib.member_names(index);
                if let Ok(typeinfo) = lib.typeinfo(index) {
                    of_typeinfo(&lib, &typeinfo);
                }
            }
        }
    });
    notes
}

fn of_tables(lib: &TypeLib) {
    lib.lib_name();
    lib.lib_helpstring();
    lib.string(lib.helpfile_offset());
    lib.names().for_each(drop);
    lib.guids().for_each(drop);
    lib.imp_files().for_each(drop);
    for import in lib.imports() {
        lib.guid(import.guid_offset());
        lib.imp_file(import.imp_file_offset());
    }
}

/// The help strings of a type and of its members, and its chain. Names, trees, constants and references are
/// in the sheet.
fn of_typeinfo(lib: &TypeLib, typeinfo: &TypeInfoEntry) {
    lib.string(typeinfo.docstring_offset());
    for func in lib.funcs(typeinfo) {
        lib.string(func.help_string_offset().unwrap_or(-1));
    }
    for var in lib.vars(typeinfo) {
        lib.string(var.help_string_offset().unwrap_or(-1));
    }
    if typeinfo.typekind() == TypeKind::CoClass {
        lib.impl_types(typeinfo).take(MOST_LINKS).for_each(drop);
    }
}

/// A made-up library, what its record's reading answers as the reference is and kept to its tables, and both
/// sheets.
struct Changed {
    ended: Ended,
    before: Vec<u8>,
    now: Vec<u8>,
    sheets: [Result<Vec<u8>, u8>; 2],
}

/// Prints the libraries of each record whose reading changes. Both builds make the same libraries.
fn made() {
    println!("record, end: bytes, reading: the Rust's answer, and now; the Rust's sheet, and now");
    let both = table_ends::all().zip(msft_typelib::inputs::table_ends::all());
    let all: Vec<Changed> = both.map(|(kept, own)| changed(kept, &own)).collect();
    for record in Record::ALL {
        let of_record = all.iter().filter(|one| one.ended.record == record);
        let mut changed: Vec<_> = of_record.filter(|one| one.before != one.now).collect();
        changed.sort_by_key(|one| one.ended.input.bytes.len());
        for one in &changed {
            println!("{one}");
        }
        if changed.is_empty() {
            println!("{record:?}: none changes");
        }
    }
}

fn changed(kept: Ended, own: &msft_typelib::inputs::table_ends::Ended) -> Changed {
    let bytes = &kept.input.bytes;
    let before = msft_typelib::library::answers(bytes, own.questions[0]);
    let now = answers(bytes, kept.questions[0]);
    Changed {
        before: before[own.answer].answer.clone(),
        now: now[kept.answer].answer.clone(),
        sheets: [
            msft_typelib::sheet::sheet(bytes, MOST_BYTES),
            sheet(bytes, MOST_BYTES),
        ],
        ended: kept,
    }
}

impl Display for Changed {
    fn fmt(&self, f: &mut fmt::Formatter) -> fmt::Result {
        let Input { name, bytes } = &self.ended.input;
        let Question { ask, numbers } = self.ended.questions[0];
        let (before, now) = (told(&self.before), told(&self.now));
        let [own, kept] = self.sheets.each_ref().map(|sheet| match sheet {
            Ok(sheet) => format!("{} bytes", sheet.len()),
            Err(number) => format!("refused {number}"),
        });
        let reading = format!("{} {numbers:?}", ask.name());
        let size = bytes.len();
        write!(
            f,
            "{name}: {size}, {reading}: {before}, {now}; {own}, {kept}"
        )
    }
}

/// An answer in words: a refusal, a place, or the bytes of another value.
fn told(answer: &[u8]) -> String {
    let number = |at: usize| answer[at..at + 8].try_into().map(u64::from_le_bytes);
    match answer {
        [0, places @ ..] if places.len() == 16 => match (number(1), number(9)) {
            (Ok(at), Ok(len)) => format!("{len} bytes at {at}"),
            _ => unreachable!("eight bytes"),
        },
        [0, value @ ..] => format!("{value:02x?}"),
        [number, ..] => format!("refused {number}"),
        [] => unreachable!("an answer has a byte"),
    }
}
