//! The libraries that are asked about, and the reference's answers.

use std::collections::HashSet;

use bounded::library::{Ask, Question};

use crate::file::Item;
use crate::judged::{Asked, judged};
use crate::{changed, edges, made_libraries, questions, table_ends};

pub struct Library {
    pub bytes: Vec<u8>,
    pub asked: Asked,
}

impl Library {
    /// The usual questions about a library, and some more.
    pub fn new(bytes: Vec<u8>, more: Vec<Question>) -> Self {
        let mut asked = questions::of(&bytes);
        asked.extend(more);
        Library::asked(bytes, asked)
    }

    /// The questions about the typeinfos of a library alone, and some more.
    pub fn of_members(bytes: Vec<u8>, more: Vec<Question>) -> Self {
        let mut asked = questions::of_members(&bytes);
        asked.extend(more);
        Library::asked(bytes, asked)
    }

    /// Only those questions, each once, and the sheet, which every library is asked for.
    pub fn asked(bytes: Vec<u8>, mut asked: Vec<Question>) -> Self {
        asked.extend(questions::of_sheet(&bytes));
        let mut seen = HashSet::new();
        asked.retain(|question| seen.insert(*question));
        let asked = judged(&bytes, &bytes, &asked);
        Library { bytes, asked }
    }

    /// The same questions, and those of its cursors from counts too.
    pub fn from_counts(self) -> Self {
        let asked = self.asked.answered.iter().map(|(question, _)| *question);
        let mut asked: Vec<Question> = asked.collect();
        let cursors = asked.clone().into_iter();
        let cursors = cursors.filter(|one| Ask::Typeinfos < one.ask && one.ask < Ask::Walk);
        asked.extend(cursors.flat_map(questions::from_counts));
        Library::asked(self.bytes, asked)
    }
}

/// Our own libraries from real IDL, document 01's edges, made-up libraries, our own with words changed, and
/// records that end with their table or past it.
pub fn all(own: &[Vec<u8>]) -> Vec<Library> {
    let mut libraries = Vec::new();
    libraries.extend(
        own.iter()
            .map(|bytes| Library::new(bytes.clone(), questions::of_no_record(bytes))),
    );
    libraries.extend(edges::libraries());
    libraries.extend(made_libraries::all());
    libraries.extend(changed::all(own));
    libraries.extend(table_ends::all());
    libraries
}

/// Each library is lent once, before its questions. `first` is the number of the first reading.
pub fn items(libraries: &[Library], first: u8) -> Vec<Item<'_>> {
    let mut items = Vec::new();
    for library in libraries {
        items.push(library.asked.lent(&library.bytes));
        items.extend(library.asked.items(first));
    }
    items
}
