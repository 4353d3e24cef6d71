//! Compares the product's check of a text with Rust's own.
//!
//! `compare_texts [--seed S] [--count N]` tries all texts of up to three bytes, all of four bytes at the edges of the
//! ranges of RFC 3629's grammar, some with outputs of every length around what is written, and N drawn texts of up to
//! 64 KB, damaged or not. It ends with a failure if there was a difference, or if no text of one of these was valid, only
//! broke off, or stopped being one.

#[cfg(product)]
mod ends;
#[cfg(product)]
mod options;
#[cfg(product)]
mod plan;
#[cfg(product)]
mod run;

use std::process::ExitCode;

#[cfg(product)]
fn main() -> ExitCode {
    let Some(options) = options::Options::from_arguments() else {
        eprintln!("{}", options::USAGE);
        return ExitCode::FAILURE;
    };
    msft_typelib::comparing::stopped::watch_for_signals();
    plan::compare(&options)
}

#[cfg(not(product))]
fn main() -> ExitCode {
    eprintln!("no static library was named at build time");
    ExitCode::FAILURE
}
