//! What the command line asks for.

use std::env;

pub const USAGE: &str = "usage: compare_texts [--seed SEED] [--count COUNT]";

/// How many texts are drawn.
const COUNT: u64 = 100_000;

pub struct Options {
    pub seed: u64,
    pub count: u64,
}

impl Options {
    /// What the arguments ask for, or nothing if they cannot be understood.
    pub fn from_arguments() -> Option<Self> {
        let mut arguments = env::args().skip(1);
        let mut options = Options {
            seed: 1,
            count: COUNT,
        };
        while let Some(argument) = arguments.next() {
            let value = arguments.next()?;
            match argument.as_str() {
                "--seed" => options.seed = value.parse().ok()?,
                "--count" => options.count = value.parse().ok()?,
                _ => return None,
            }
        }
        Some(options)
    }
}
