//! Compares the product's sheets, and their figures, with those made from the reference, on real, cut, damaged and
//! made-up libraries. All are held to the reference kept to its tables; where that had nothing to cut, it must
//! answer as the reference itself does.
//!
//! - `compare_sheets [--seed S] [--count N]` tries the calls of the linked static library. If
//!   none was named at build time, it only counts what the inputs cover.
//! - `compare_sheets --hostile` tries the call for the figures on the libraries of 64 KB that take the reference longest.
//! - `compare_sheets --program PATH [--seed S] [--count N]` tries a sheet program.
//! - `compare_sheets --file PATH` tries the calls on one file.
//! - `compare_sheets --write NUMBER PATH [--seed S]` writes the input with this number.
//!
//! The count is that of the numbered inputs; the fixed ones are tried before. It ends with a
//! failure if there was a difference, or if something did not come up in a run by call that
//! the documents name.

#[cfg(product)]
mod call;
mod options;
mod program;
mod run;

use std::fs;
use std::path::Path;
use std::process::ExitCode;
use std::time::Instant;

use bounded::comparing::stopped;
use bounded::inputs::{Input, Inputs, edges, figures, hostile, misplaced, table_ends};
use bounded::sheet::{MOST_BYTES, sheet};

use options::{Options, What};
use run::Run;

/// Of the beginnings of libraries, a sheet program is tried on one in so many.
const PROGRAM_BEGINNINGS: usize = 37;

fn main() -> ExitCode {
    let Some(options) = Options::from_arguments() else {
        eprintln!("{}", options::USAGE);
        return ExitCode::FAILURE;
    };
    stopped::watch_for_signals();
    match &options.what {
        What::Call => compare_calls(&Inputs::new(options.seed), options.count),
        What::Program(path) => compare_program(path, &Inputs::new(options.seed), options.count),
        What::Hostile => compare_hostile(),
        What::File(path) => compare_file(path),
        What::Write(number, path) => write(&Inputs::new(options.seed).input(*number), path),
    }
}

fn compare_calls(inputs: &Inputs, count: u64) -> ExitCode {
    say_if_no_product();
    let mut run = Run::new();
    let fixed = inputs.corpus().chain(misplaced::libraries());
    let fixed = fixed.chain(misplaced::long());
    let fixed = fixed.chain(inputs.beginnings());
    let fixed = fixed.chain(edges::small()).chain(edges::large());
    let fixed = fixed.chain(table_ends::libraries());
    let fixed = fixed.chain(hostile::small());
    let limits = figures::limits().map(|made| made.input);
    try_all(&mut run, fixed, Run::call);
    try_all(&mut run, limits, Run::figures);
    try_all(&mut run, numbered(inputs, count), Run::call);
    let is_whole = !run.is_hopeless();
    run.end(is_whole)
}

fn say_if_no_product() {
    if !cfg!(product) {
        println!("no static library is linked: only what the inputs cover is counted");
    }
}

/// Compares on each of the inputs, as long as there is hope.
fn try_all(run: &mut Run, inputs: impl Iterator<Item = Input>, compare: fn(&mut Run, &Input)) {
    for input in inputs {
        if run.is_hopeless() {
            return;
        }
        compare(run, &input);
    }
}

fn compare_program(path: &Path, inputs: &Inputs, count: u64) -> ExitCode {
    let mut run = Run::new();
    let fixed = inputs
        .corpus()
        .chain(inputs.beginnings().step_by(PROGRAM_BEGINNINGS))
        .chain(edges::small())
        .chain(table_ends::libraries())
        .chain(misplaced::libraries());
    for input in fixed.chain(numbered(inputs, count)) {
        run.program(path, &input);
        if run.is_hopeless() {
            break;
        }
    }
    run.end(false)
}

/// Each is named when it is done, as it may take minutes: the reference counts it twice, as it is and kept to its
/// tables, and the product once for each output.
fn compare_hostile() -> ExitCode {
    say_if_no_product();
    let mut run = Run::new();
    try_all(&mut run, hostile::whole(), |run, input| {
        let started = Instant::now();
        run.figures(input);
        let seconds = started.elapsed().as_secs_f64();
        println!("{}: {seconds:.1} s", input.name);
    });
    run.end(false)
}

fn compare_file(path: &Path) -> ExitCode {
    let bytes = fs::read(path).expect("the file can be read");
    let mut run = Run::new();
    run.call(&Input::new(path.display().to_string(), bytes));
    run.end(false)
}

fn write(input: &Input, path: &Path) -> ExitCode {
    match sheet(&input.bytes, MOST_BYTES) {
        Ok(sheet) => println!("{}: a sheet of {} bytes", input.name, sheet.len()),
        Err(number) => println!("{}: refused {number}", input.name),
    }
    fs::write(path, &input.bytes).expect("the file can be written");
    ExitCode::SUCCESS
}

/// The numbered inputs, each named by its number too.
fn numbered(inputs: &Inputs, count: u64) -> impl Iterator<Item = Input> + '_ {
    (0..count).map(|number| {
        let input = inputs.input(number);
        Input::new(format!("input {number} ({})", input.name), input.bytes)
    })
}
