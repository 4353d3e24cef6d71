//! The two kinds of libraries: those that the reference reads as it is, and those in which it reads past a
//! table or from a missing one and is kept to its tables.

use std::fmt::{self, Display};

#[derive(Default)]
pub struct Kinds {
    as_it_is: u64,
    kept: u64,
}

impl Kinds {
    /// Counts a library.
    pub fn add(&mut self, is_kept: bool) {
        match is_kept {
            true => self.kept += 1,
            false => self.as_it_is += 1,
        }
    }

    pub fn kept(&self) -> u64 {
        self.kept
    }
}

impl Display for Kinds {
    fn fmt(&self, f: &mut fmt::Formatter) -> fmt::Result {
        write!(
            f,
            "{} libraries as the Rust reads them, {} in which it is kept to its tables",
            self.as_it_is, self.kept
        )
    }
}
