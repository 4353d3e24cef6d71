//! The numbers that a library itself names.

use std::collections::HashMap;

use crate::enumerate;
use crate::exports::cursors::param_numbers;
use crate::exports::numbers::{Asks, Cursor, Numbers, Words};
use crate::library::{REFERENCE_SEGMENT, STRING_SEGMENT, TYPE_DESCRIPTOR_SEGMENT};
use crate::readings::{Kind, place_in};
use crate::{FuncRecord, GuidEntry, ImpInfo, TypeInfoEntry, TypeLib, VarRecord};

/// The type indexes that are taken as real, and the records of a chain, which may have no end.
pub const MOST_TYPES: usize = 3_000;
pub const MOST_LINKS: usize = 40;

/// The segments of a directory.
pub const SEGMENTS: usize = 15;

/// Size of one entry of the type-descriptor table.
const DESCRIPTOR_SIZE: usize = 8;

/// The bytes of a string's length, which stands before it.
const STRING_LENGTH: usize = 2;

/// The numbers found, by what they mean, and the segments; a missing one is of no bytes at 0.
#[derive(Default)]
pub struct Found {
    pub segments: [(usize, usize); SEGMENTS],
    pub real: HashMap<Asks, Vec<Numbers>>,
}

impl Found {
    pub fn new(lib: &TypeLib) -> Self {
        let mut found = Found::default();
        for (number, segment) in found.segments.iter_mut().enumerate() {
            *segment = lib.segment(number).unwrap_or((0, 0));
        }
        found.records(lib);
        found.indexes(lib);
        found.tables(lib);
        found.members(lib);
        found
    }

    fn add(&mut self, asks: Asks, numbers: Numbers) {
        self.real.entry(asks).or_default().push(numbers);
    }

    fn add_word(&mut self, words: Words, word: i32) {
        self.add(Asks::Word(words), [word as u32 as usize, 0, 0, 0]);
    }

    fn records(&mut self, lib: &TypeLib) {
        for placed in enumerate::records(lib) {
            self.add(Asks::Record(placed.kind), [placed.at, placed.len, 0, 0]);
        }
        for entry in lib.names() {
            let text = entry.name().as_bytes();
            let numbers = [place_in(lib.data(), text), text.len(), 0, 0];
            self.add(Asks::Record(Kind::Name), numbers);
            self.add(Asks::Record(Kind::TextCheck), numbers);
        }
        self.texts(lib);
    }

    /// Texts that need not be UTF-8: the library's own name, the names of import files, and the first string.
    fn texts(&mut self, lib: &TypeLib) {
        let files = lib.imp_files().map(|file| file.filename_bytes());
        let texts = files.chain([lib.name_bytes(lib.name_offset())]);
        for text in texts.flatten() {
            let numbers = [place_in(lib.data(), text), text.len(), 0, 0];
            self.add(Asks::Record(Kind::TextCheck), numbers);
        }
        let (at, len) = self.segments[STRING_SEGMENT];
        if let Some(strings) = len.checked_sub(STRING_LENGTH) {
            let numbers = [at.wrapping_add(STRING_LENGTH), strings, 0, 0];
            self.add(Asks::Record(Kind::TextCheck), numbers);
        }
    }

    fn indexes(&mut self, lib: &TypeLib) {
        for index in 0..SEGMENTS + 2 {
            self.add(Asks::Segment, [index, 0, 0, 0]);
        }
        for index in 0..lib.typeinfo_count().min(MOST_TYPES) + 2 {
            self.add(Asks::Type, [index, 0, 0, 0]);
        }
        // Each search goes through the whole table of names, so few types are asked for many.
        for index in 0..lib.typeinfo_count().min(8) + 1 {
            for k in 0..4 {
                self.add(Asks::Member, [index, k, 0, 0]);
            }
        }
    }

    /// The words that name entries of tables, and the cursors over these.
    fn tables(&mut self, lib: &TypeLib) {
        self.add_word(Words::Name, lib.name_offset());
        self.add_word(Words::Guid, lib.lib_guid_offset());
        self.add_word(Words::Text, lib.helpstring_offset());
        self.add_word(Words::Text, lib.helpfile_offset());
        self.guids(lib);
        self.imports(lib);
        self.import_files(lib);
        self.names(lib);
        self.descriptors(lib);
    }

    fn guids(&mut self, lib: &TypeLib) {
        let mut guids = lib.guids();
        for index in 0.. {
            let [pos, end] = guids.numbers();
            self.add(Asks::Cursor(Cursor::Guids), [pos, end, index, 0]);
            if guids.next().is_none() {
                return;
            }
            self.add_word(Words::Guid, (index * GuidEntry::SIZE) as i32);
        }
    }

    fn imports(&mut self, lib: &TypeLib) {
        let mut imports = lib.imports();
        for index in 0.. {
            let [pos, end] = imports.numbers();
            self.add(Asks::Cursor(Cursor::Imports), [pos, end, index, 0]);
            let Some(import) = imports.next() else {
                return;
            };
            self.add_word(Words::ImportFile, import.imp_file_offset());
            self.add_word(Words::Reference, (index * ImpInfo::SIZE + 1) as i32);
        }
    }

    fn import_files(&mut self, lib: &TypeLib) {
        let mut files = lib.imp_files();
        for index in 0.. {
            let [pos, end] = files.numbers();
            self.add(Asks::Cursor(Cursor::ImportFiles), [pos, end, index, 0]);
            if files.next().is_none() {
                return;
            }
        }
    }

    fn names(&mut self, lib: &TypeLib) {
        let mut names = lib.names();
        for index in 0.. {
            let [pos, end, start] = names.numbers();
            self.add(Asks::Cursor(Cursor::Names), [pos, end, start, index]);
            let Some(entry) = names.next() else {
                return;
            };
            self.add_word(Words::Name, entry.offset() as i32);
        }
    }

    /// Type descriptors, and the arrays and references that they name.
    fn descriptors(&mut self, lib: &TypeLib) {
        let (_, length) = self.segments[TYPE_DESCRIPTOR_SEGMENT];
        for offset in (0..length.min(lib.data().len()) as i32).step_by(DESCRIPTOR_SIZE) {
            let Some((first, second)) = lib.type_desc(offset) else {
                return;
            };
            self.add_word(Words::Descriptor, offset);
            match first & 0xFFF {
                28 => self.add_word(Words::Array, second & 0xFFFF),
                29 => self.add_word(Words::Reference, second),
                _ => self.add_word(Words::Descriptor, second),
            }
        }
    }

    /// The words in typeinfos and in the records of their members, and the cursors over these.
    fn members(&mut self, lib: &TypeLib) {
        for index in 0..lib.typeinfo_count().min(MOST_TYPES) {
            let Ok(typeinfo) = lib.typeinfo(index) else {
                continue;
            };
            self.add_word(Words::Name, typeinfo.name_offset());
            self.add_word(Words::Guid, typeinfo.guid_offset());
            self.add_word(Words::Text, typeinfo.docstring_offset());
            self.add_word(Words::Descriptor, typeinfo.datatype1());
            self.add_word(Words::Reference, typeinfo.datatype1());
            self.chain(lib, &typeinfo);
            self.funcs(lib, &typeinfo);
            self.vars(lib, &typeinfo);
        }
    }

    fn chain(&mut self, lib: &TypeLib, typeinfo: &TypeInfoEntry) {
        let (_, len) = self.segments[REFERENCE_SEGMENT];
        let mut chain = lib.impl_types(typeinfo);
        for index in 0..MOST_LINKS {
            let (at, next) = chain.numbers();
            let numbers = [at, len, next as u32 as usize, index];
            self.add(Asks::Cursor(Cursor::Chain), numbers);
            let Some(reference) = chain.next() else {
                return;
            };
            self.add_word(Words::Reference, reference.reftype());
        }
    }

    fn funcs(&mut self, lib: &TypeLib, typeinfo: &TypeInfoEntry) {
        let mut funcs = lib.funcs(typeinfo);
        for index in 0.. {
            let [pos, end, left] = funcs.numbers();
            self.add(Asks::Cursor(Cursor::Funcs), [pos, end, left, index]);
            let Some(func) = funcs.next() else {
                return;
            };
            self.add_word(Words::Descriptor, func.datatype());
            self.add_word(Words::Text, func.help_string_offset().unwrap_or(-1));
            self.params(lib, &func);
        }
    }

    fn params<'a>(&mut self, lib: &TypeLib<'a>, func: &FuncRecord<'a>) {
        let mut params = lib.params(func);
        for index in 0.. {
            let [pos, end, left] = param_numbers(lib, &params).unwrap_or_default();
            self.add(Asks::Cursor(Cursor::Params), [pos, end, left, index]);
            let Some(param) = params.next() else {
                return;
            };
            self.add_word(Words::Descriptor, param.datatype());
            self.add_word(Words::Name, param.name_offset());
            if let Some(word) = func.default_value_offset(index) {
                self.add_word(Words::Constant, word);
            }
        }
    }

    fn vars(&mut self, lib: &TypeLib, typeinfo: &TypeInfoEntry) {
        let mut vars = lib.vars(typeinfo);
        for index in 0.. {
            let [pos, end, left] = vars.numbers();
            self.add(Asks::Cursor(Cursor::Vars), [pos, end, left, index]);
            let Some(var) = vars.next() else {
                return;
            };
            self.var_words(&var);
        }
    }

    fn var_words(&mut self, var: &VarRecord) {
        self.add_word(Words::Descriptor, var.datatype());
        self.add_word(Words::Constant, var.offs_value());
        self.add_word(Words::Text, var.help_string_offset().unwrap_or(-1));
    }
}
