//! What the command line asks for.

use std::env;
use std::path::PathBuf;

pub const USAGE: &str =
    "usage: compare_sheets [--program PATH | --hostile | --file PATH | --write NUMBER PATH]
                      [--seed SEED] [--count COUNT]";

/// How many numbered inputs are tried by call, and by starting a program.
const COUNT_CALL: u64 = 100_000;
const COUNT_PROGRAM: u64 = 3_000;

/// What is to be done.
pub enum What {
    Call,
    Program(PathBuf),
    Hostile,
    File(PathBuf),
    Write(u64, PathBuf),
}

pub struct Options {
    pub what: What,
    pub seed: u64,
    pub count: u64,
}

impl Options {
    /// What the arguments ask for, or nothing if they cannot be understood.
    pub fn from_arguments() -> Option<Self> {
        let mut arguments = env::args().skip(1);
        let (mut what, mut seed, mut count) = (What::Call, 1, None);
        while let Some(argument) = arguments.next() {
            let mut next = || arguments.next();
            match argument.as_str() {
                "--program" => what = What::Program(next()?.into()),
                "--hostile" => what = What::Hostile,
                "--file" => what = What::File(next()?.into()),
                "--write" => what = What::Write(next()?.parse().ok()?, next()?.into()),
                "--seed" => seed = next()?.parse().ok()?,
                "--count" => count = Some(next()?.parse().ok()?),
                _ => return None,
            }
        }
        let usual = match what {
            What::Program(_) => COUNT_PROGRAM,
            _ => COUNT_CALL,
        };
        let count = count.unwrap_or(usual);
        Some(Options { what, seed, count })
    }
}
