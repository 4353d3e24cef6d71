//! How texts end: a comparison says nothing about an end that never came up.

use std::fmt::{self, Display};
use std::str::from_utf8;

/// How many texts are valid, only break off, or have a byte that no valid text has there.
#[derive(Default)]
pub struct Ends {
    valid: u64,
    broken_off: u64,
    stopped: u64,
}

impl Ends {
    pub fn add(&mut self, text: &[u8]) {
        match from_utf8(text).map_err(|error| error.error_len()) {
            Ok(_) => self.valid += 1,
            Err(None) => self.broken_off += 1,
            Err(Some(_)) => self.stopped += 1,
        }
    }

    pub fn count(&self) -> u64 {
        self.valid + self.broken_off + self.stopped
    }

    /// Whether there was a text of every end.
    pub fn has_all(&self) -> bool {
        self.valid > 0 && self.broken_off > 0 && self.stopped > 0
    }
}

impl Display for Ends {
    fn fmt(&self, f: &mut fmt::Formatter) -> fmt::Result {
        write!(
            f,
            "{} texts: {} valid, {} only break off, {} have a byte that no text has there",
            self.count(),
            self.valid,
            self.broken_off,
            self.stopped
        )
    }
}
