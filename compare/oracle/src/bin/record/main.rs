//! Records what the reference answers to every method of every kind of record, and to every reading
//! of a library, kept to its tables. Where nothing was cut it must answer the same as it is.
//!
//! `record` writes `crates/replay/data/records` and `data/libraries`; `data/beside`, questions about libraries
//! beside other bytes, with document 01's answers; and `crates/replay/stdout`: what the replay must print.
//! `record --stats` writes nothing: it prints what the files hold, and fails if
//! a method or a reading is not tried each way or if a file is not the one that would be written.
//! `file.rs` says what form the files have.

mod beside;
mod cases;
mod changed;
mod edges;
mod file;
mod judged;
mod libraries;
mod made_libraries;
mod questions;
mod records;
mod stats;
mod table_ends;

use std::path::{Path, PathBuf};
use std::process::ExitCode;
use std::{env, fs};

use bounded::library::Ask;
use bounded::readings::Kind;

/// The program that replays the answers, from the project root.
const REPLAY: &str = "crates/replay";

/// The folder of real libraries; a relative one is taken from the project root. Only our own
/// libraries are taken from it: the others are other people's work.
const CORPUS_VARIABLE: &str = "MSFT_TYPELIB_CORPUS";
const DEFAULT_CORPUS: &str = "../shared/corpus";
const OWN_LIBRARY: &str = "own-";

fn main() -> ExitCode {
    let arguments: Vec<String> = env::args().skip(1).collect();
    let own = own_libraries();
    let entries = records::entries(&own);
    let libraries = libraries::all(&own);
    let pairs = beside::all();
    let files = files(&entries, &libraries, &pairs);
    match arguments.as_slice() {
        [] => {
            for (path, bytes) in &files {
                fs::write(from_project_root(path), bytes).expect("the file can be written");
                println!("{path}: {} bytes", bytes.len());
            }
            stats::kinds(&libraries, &pairs);
            ExitCode::SUCCESS
        }
        [option] if option == "--stats" => stats(&entries, &libraries, &pairs, &files),
        _ => {
            eprintln!("usage: record [--stats]");
            ExitCode::FAILURE
        }
    }
}

/// A file's path from the project root, and its bytes.
type File = (String, Vec<u8>);

fn stats(
    entries: &[records::Entry],
    libraries: &[libraries::Library],
    pairs: &[beside::Pair],
    files: &[File],
) -> ExitCode {
    let records = stats::records(entries);
    println!();
    let readings = stats::libraries(libraries);
    println!();
    let beside = stats::beside(pairs);
    println!();
    stats::kinds(libraries, pairs);
    println!("every method of a record tried both ways: {records}");
    println!("every reading of a library tried each way: {readings}");
    println!("a library beside other bytes refused each way: {beside}");
    let mut complete = records && readings && beside;
    for (path, bytes) in files {
        let same = fs::read(from_project_root(path)).is_ok_and(|there| there == *bytes);
        println!(
            "{path} as it would be written, {} bytes: {same}",
            bytes.len()
        );
        complete &= same;
    }
    if complete {
        ExitCode::SUCCESS
    } else {
        ExitCode::FAILURE
    }
}

/// The files to write.
fn files(
    entries: &[records::Entry],
    libraries: &[libraries::Library],
    pairs: &[beside::Pair],
) -> Vec<File> {
    let first = Kind::ALL.len() as u8;
    let of_records = records::items(entries);
    let of_libraries = libraries::items(libraries, first);
    let of_pairs = beside::items(pairs, first);
    let kinds = Kind::ALL.map(Kind::name);
    let asks: Vec<&str> = Ask::ALL.iter().map(|ask| ask.name()).collect();
    let stdout = file::printed(&of_records, "records", 0, &kinds)
        + &file::printed(&of_libraries, "libraries", first, &asks)
        + &file::printed_kinds(&of_libraries, "libraries")
        + &file::printed(&of_pairs, "beside", first, &asks)
        + &file::printed_kinds(&of_pairs, "beside");
    vec![
        (format!("{REPLAY}/data/records"), file::bytes(&of_records)),
        (
            format!("{REPLAY}/data/libraries"),
            file::bytes(&of_libraries),
        ),
        (format!("{REPLAY}/data/beside"), file::bytes(&of_pairs)),
        (format!("{REPLAY}/stdout"), stdout.into_bytes()),
    ]
}

fn from_project_root(path: impl AsRef<Path>) -> PathBuf {
    Path::new(env!("CARGO_MANIFEST_DIR"))
        .join("../..")
        .join(path)
}

/// The bytes of our own libraries, by name, so that the order does not depend on the machine.
fn own_libraries() -> Vec<Vec<u8>> {
    let folder = env::var_os(CORPUS_VARIABLE).unwrap_or(DEFAULT_CORPUS.into());
    let folder = from_project_root(folder);
    let listed = fs::read_dir(&folder).unwrap_or_else(|error| {
        panic!(
            "{}: {error}; set {CORPUS_VARIABLE} to the folder of libraries",
            folder.display()
        )
    });
    let mut paths: Vec<PathBuf> = listed
        .map(|file| file.expect("the folder can be listed").path())
        .filter(|path| {
            let name = path.file_name().unwrap_or_default();
            name.to_string_lossy().starts_with(OWN_LIBRARY)
        })
        .collect();
    paths.sort();
    assert!(
        !paths.is_empty(),
        "{}: no library of ours",
        folder.display()
    );
    paths
        .iter()
        .map(|path| fs::read(path).expect("a library can be read"))
        .collect()
}
