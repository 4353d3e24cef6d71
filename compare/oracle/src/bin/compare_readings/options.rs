//! What the command line asks for.

use std::env;
use std::path::PathBuf;

pub const USAGE: &str = "usage: compare_readings [--seed SEED] [--cases COUNT] [--corpus FOLDER]";

/// How many cases the numbered inputs make.
const CASES: u64 = 1_000_000;

pub struct Options {
    pub seed: u64,
    pub cases: u64,
    /// The folder of real libraries, if it is not the usual one.
    pub corpus: Option<PathBuf>,
}

impl Options {
    /// What the arguments ask for, or nothing if they cannot be understood.
    pub fn from_arguments() -> Option<Self> {
        let mut arguments = env::args().skip(1);
        let mut options = Options {
            seed: 1,
            cases: CASES,
            corpus: None,
        };
        while let Some(argument) = arguments.next() {
            let value = arguments.next()?;
            match argument.as_str() {
                "--seed" => options.seed = value.parse().ok()?,
                "--cases" => options.cases = value.parse().ok()?,
                "--corpus" => options.corpus = Some(value.into()),
                _ => return None,
            }
        }
        Some(options)
    }
}
