//! Shows the small input of a difference and keeps it.

use std::{env, fs};

/// The most bytes of a small input that are printed whole; of a longer one, lines of so many bytes
/// that are not all zero, and so many of them.
const MOST_PRINTED: usize = 1_000;
const LINE: usize = 16;
const MOST_LINES: usize = 60;

/// Writes the input to the folder for temporary files, and prints it in hex.
pub fn keep(small: &[u8], number: usize) {
    let path = env::temp_dir().join(format!("difference-{number}.tlb"));
    match fs::write(&path, small) {
        Ok(()) => println!("  smaller: {} bytes, in {}", small.len(), path.display()),
        Err(error) => println!("  smaller: {} bytes ({error})", small.len()),
    }
    if small.len() <= MOST_PRINTED {
        println!("  {}", hex(small));
        return;
    }
    let lines = small.chunks(LINE).enumerate();
    let lines = lines.filter(|(_, line)| line.iter().any(|byte| *byte != 0));
    for (index, line) in lines.take(MOST_LINES) {
        println!("  {:06x}: {}", index * LINE, hex(line));
    }
}

fn hex(bytes: &[u8]) -> String {
    bytes.iter().map(|byte| format!("{byte:02x}")).collect()
}
