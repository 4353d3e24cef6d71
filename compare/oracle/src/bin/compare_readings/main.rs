//! Compares every export for C with the reference, reading by reading, in one process. All answers are held to
//! the reference kept to its tables; where that had nothing to cut, it must answer as the reference itself does.
//!
//! `compare_readings [--seed S] [--cases N] [--corpus FOLDER]` tries real libraries, their beginnings,
//! made-up records and texts, the edges, an input that is too long, and then damaged and made-up
//! libraries until these make N cases. It ends with a failure if there was a difference, if the header
//! declares an export that is not driven or another form of it, if an export never answered with a
//! value or with one of its refusals, or if a read of some kind of record was never cut.

#[cfg(product)]
mod options;
#[cfg(product)]
mod plan;
#[cfg(product)]
mod run;
#[cfg(product)]
mod tally;

use std::process::ExitCode;

#[cfg(product)]
fn main() -> ExitCode {
    let Some(options) = options::Options::from_arguments() else {
        eprintln!("{}", options::USAGE);
        return ExitCode::FAILURE;
    };
    bounded::comparing::stopped::watch_for_signals();
    plan::compare(&options)
}

#[cfg(not(product))]
fn main() -> ExitCode {
    eprintln!("no static library was named at build time");
    ExitCode::FAILURE
}
