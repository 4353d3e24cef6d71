//! The sheet program as the reference, kept to its tables, would have it: a library on standard input, its
//! sheet in hexadecimal or its refusal on standard output.

use std::io::{self, Read};

use bounded::sheet::{PROGRAM_BYTES, program_line};

fn main() -> io::Result<()> {
    let mut input = Vec::new();
    // One byte more than is allowed is enough to tell that there are too many.
    let most = PROGRAM_BYTES as u64 + 1;
    io::stdin().lock().take(most).read_to_end(&mut input)?;
    println!("{}", program_line(&input));
    Ok(())
}
