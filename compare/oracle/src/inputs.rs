//! Inputs for comparing: real libraries, their beginnings, damaged ones, made-up ones, and
//! the edges of the documents. Each has a number, and the same seed always gives the same inputs.

pub mod constants;
pub mod damage;
pub mod edges;
pub mod figures;
pub mod hostile;
pub mod large;
pub mod layout;
pub mod made;
pub mod misplaced;
pub mod records;
pub mod table_ends;
pub mod text_bytes;
pub mod texts;

use std::path::{Path, PathBuf};
use std::{env, fs};

use crate::random::Random;
use damage::Victim;

/// The folder of real libraries; a relative one is taken from the project root.
const CORPUS_VARIABLE: &str = "MSFT_TYPELIB_CORPUS";
const DEFAULT_CORPUS: &str = "../shared/corpus";

/// Real libraries whose beginnings are all tried; if they are not there, the first ones.
const CUT_EVERYWHERE: [&str; 3] = [
    "own-win32--defaults",
    "own-win32--imports",
    "own-win32--coclasses",
];

/// The most bytes of a library that is damaged often. The few larger ones would take most of the
/// time of a run.
const OFTEN_DAMAGED: usize = 40_000;

/// An input and what it is.
pub struct Input {
    pub name: String,
    pub bytes: Vec<u8>,
}

impl Input {
    pub fn new(name: String, bytes: Vec<u8>) -> Self {
        Input { name, bytes }
    }

    /// It with one of its bits changed, for each of them.
    pub fn bit_changes(&self) -> impl Iterator<Item = Input> + '_ {
        (0..self.bytes.len() * 8).map(|bit| {
            let name = format!("{} with bit {bit} changed", self.name);
            let mut changed = Input::new(name, self.bytes.clone());
            changed.bytes[bit / 8] ^= 1 << (bit % 8);
            changed
        })
    }

    /// The first so many bytes of it.
    pub fn beginning(&self, length: usize) -> Self {
        let name = format!("{length} bytes of {}", self.name);
        Input::new(name, self.bytes[..length].to_vec())
    }
}

/// The real libraries, and what is made from them.
pub struct Inputs {
    corpus: Vec<Victim>,
    seed: u64,
}

impl Inputs {
    /// Inputs from the usual folder of real libraries.
    pub fn new(seed: u64) -> Self {
        let folder = env::var_os(CORPUS_VARIABLE).unwrap_or(DEFAULT_CORPUS.into());
        let root = Path::new(env!("CARGO_MANIFEST_DIR")).join("../..");
        Inputs::of_folder(seed, &root.join(folder))
    }

    /// Inputs from this folder of real libraries.
    pub fn of_folder(seed: u64, folder: &Path) -> Self {
        let corpus = corpus_paths(folder)
            .iter()
            .map(|path| {
                let name = path.file_stem().unwrap_or_default().to_string_lossy();
                let bytes = fs::read(path).expect("a library can be read");
                Victim::new(name.into(), bytes)
            })
            .collect();
        Inputs { corpus, seed }
    }

    /// The real libraries as they are.
    pub fn corpus(&self) -> impl Iterator<Item = Input> + '_ {
        let whole = |victim: &Victim| Input::new(victim.name.clone(), victim.bytes.clone());
        self.corpus.iter().map(whole)
    }

    /// Three real libraries and a made-up one, of which every beginning is tried.
    pub fn cut_everywhere(&self) -> Vec<Input> {
        let mut chosen: Vec<Input> = self
            .corpus()
            .filter(|input| CUT_EVERYWHERE.contains(&input.name.as_str()))
            .collect();
        if chosen.len() < CUT_EVERYWHERE.len() {
            chosen = self.corpus().take(CUT_EVERYWHERE.len()).collect();
        }
        chosen.push(self.rich());
        chosen
    }

    /// Every beginning of them.
    pub fn beginnings(&self) -> impl Iterator<Item = Input> + '_ {
        let chosen = self.cut_everywhere().into_iter();
        chosen.flat_map(|whole| (0..whole.bytes.len()).map(move |length| whole.beginning(length)))
    }

    /// The made-up library with the longest sheet among the first few.
    fn rich(&self) -> Input {
        let sheet_length =
            |bytes: &Vec<u8>| crate::sheet::sheet(bytes, 4_000).map_or(0, |s| s.len());
        let bytes = (0..200)
            .map(|number| made::library(&mut self.random(number)))
            .filter(|bytes| bytes.len() < 6_000)
            .max_by_key(sheet_length)
            .expect("some made-up library is small");
        Input::new("a made-up library".into(), bytes)
    }

    /// The input with this number.
    pub fn input(&self, number: u64) -> Input {
        let mut random = self.random(number);
        match random.below(100) {
            0..50 => Input::new("made up".into(), made::library(&mut random)),
            50..58 => {
                let mut bytes = made::library(&mut random);
                for _ in 0..=random.below(3) {
                    damage::change(&mut random, &mut bytes);
                }
                Input::new("made up, then damaged".into(), bytes)
            }
            58..62 => {
                let victim = self.victim(&mut random);
                let length = random.below(victim.bytes.len());
                let name = format!("{length} bytes of {}", victim.name);
                Input::new(name, victim.bytes[..length].to_vec())
            }
            62..66 => misplaced::any(&mut random),
            66..74 => {
                let victim = self.victim(&mut random);
                let name = format!("{}, other references", victim.name);
                Input::new(name, victim.with_other_references(&mut random))
            }
            _ => {
                let victim = self.victim(&mut random);
                let name = format!("{}, damaged", victim.name);
                Input::new(name, victim.damaged(&mut random))
            }
        }
    }

    /// Each number has a generator of its own, so that any input can be made again alone.
    pub fn random(&self, number: u64) -> Random {
        let mut start = Random::new(self.seed);
        Random::new(start.number() ^ number.wrapping_mul(0xD6E8_FEB8_6659_FD93))
    }

    fn victim(&self, random: &mut Random) -> &Victim {
        loop {
            let victim = &self.corpus[random.below(self.corpus.len())];
            if victim.bytes.len() <= OFTEN_DAMAGED || random.percent(5) {
                return victim;
            }
        }
    }
}

fn corpus_paths(folder: &Path) -> Vec<PathBuf> {
    let listed = fs::read_dir(folder).unwrap_or_else(|error| {
        panic!(
            "{}: {error}; set {CORPUS_VARIABLE} to the folder of libraries",
            folder.display()
        )
    });
    let mut paths: Vec<PathBuf> = listed
        .map(|file| file.expect("the folder can be listed").path())
        .filter(|path| path.extension().is_some_and(|extension| extension == "tlb"))
        .collect();
    paths.sort();
    assert!(!paths.is_empty(), "{}: no library", folder.display());
    paths
}
