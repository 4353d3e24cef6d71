//! Compares what a sheet program prints with what the reference's would.

use std::io::Write;
use std::path::Path;
use std::process::{ChildStdin, Command, Stdio};
use std::thread;
use std::time::Duration;

use bounded::sheet::program_line;

/// Some inputs are written in pieces of this many bytes, with a pause behind the first: a program
/// that takes one read for all of its input then sees too little.
const PIECE: usize = 1_000;
const PAUSE: Duration = Duration::from_millis(10);

/// One input in so many is written in pieces.
const IN_PIECES: usize = 7;

/// What is wrong with what the program prints for this input.
pub fn difference(program: &Path, input: &[u8]) -> Option<String> {
    let mut child = Command::new(program)
        .stdin(Stdio::piped())
        .stdout(Stdio::piped())
        .spawn()
        .unwrap_or_else(|error| panic!("{}: {error}", program.display()));
    let stdin = child.stdin.take().expect("it was asked for");
    let output = thread::scope(|scope| {
        scope.spawn(|| write_input(stdin, input));
        child.wait_with_output().expect("a started program ends")
    });
    let right = program_line(input) + "\n";
    if output.stdout != right.as_bytes() {
        let printed = String::from_utf8_lossy(&output.stdout);
        return Some(format!(
            "printed {}, the Rust's {}",
            short(&printed),
            short(&right)
        ));
    }
    (!output.status.success()).then(|| format!("ended with {}", output.status))
}

/// A program that has read enough may close its input, so a failed write is no fault.
fn write_input(mut stdin: ChildStdin, input: &[u8]) {
    if !input.len().is_multiple_of(IN_PIECES) {
        let _ = stdin.write_all(input);
        return;
    }
    for (number, piece) in input.chunks(PIECE).enumerate() {
        if stdin.write_all(piece).is_err() {
            return;
        }
        if number == 0 {
            thread::sleep(PAUSE);
        }
    }
}

/// The beginning of a printed line.
fn short(line: &str) -> String {
    let beginning: String = line.chars().take(80).collect();
    format!("{beginning:?} ({} bytes)", line.len())
}
