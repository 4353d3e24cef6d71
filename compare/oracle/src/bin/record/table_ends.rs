//! Records that end with their table, with the file, or past either. What document 02 says of each stands in
//! `inputs/table_ends.rs`, and the reference kept to its tables must say the same.

use bounded::inputs::table_ends::{self, Ended, Outcome};

use crate::libraries::Library;

pub fn all() -> Vec<Library> {
    table_ends::all().map(library).collect()
}

fn library(ended: Ended) -> Library {
    let Ended { input, outcome, .. } = ended;
    let library = Library::asked(input.bytes, ended.questions);
    let (_, readings) = &library.asked.answered[0];
    let told = match readings[ended.answer].answer[0] {
        0 => Outcome::Read,
        number => Outcome::Refused(number),
    };
    assert_eq!(told, outcome, "document 02's outcome of {}", input.name);
    library
}
