//! The changes of the copy of the reference that is kept to its tables: what it reads of a table goes
//! through `src/bounds.rs`. Each must be found as often as is said here, or nothing is built.

/// A text that becomes another in a part of a file, so many times.
struct Change {
    file: &'static str,
    /// Where the part begins. It is found once in the file.
    from: String,
    /// What is found first behind the part.
    until: &'static str,
    old: String,
    new: String,
    times: usize,
}

const TYPELIB: &str = "typelib";
const ITERATORS: &str = "iterators";

/// The end of a method.
const METHOD_END: &str = "\n    }\n";

/// The methods that look into a table and not at its length: the table's number, and how often the method
/// then names the file's bytes.
const METHODS: [(&str, usize); 8] = [
    ("SEG_NAMETAB", 2),
    ("SEG_GUIDTAB", 1),
    ("SEG_STRINGTAB", 2),
    ("SEG_TYPEINFO", 2),
    ("SEG_CUSTDATA", 23),
    ("SEG_TYPDESC", 2),
    ("SEG_ARRAYDESC", 3),
    ("SEG_REFTAB", 1),
];

/// The method that looks at its table's length for a fixed part alone.
const IMPORT_FILE: &str = "let (seg_offset, seg_len) = self.segment(SEG_IMPFILES)?;";

fn changes() -> Vec<Change> {
    let mut changes = of_cursors();
    // Numbers are read through ours, from the file's bytes as before or from a table's.
    changes.push(in_part(
        TYPELIB,
        "    util::{\n",
        "};",
        "util::{",
        "bounds::{",
        1,
    ));
    changes.push(in_method(IMPORT_FILE, "self.data", "data", 2));
    let kept = format!("{IMPORT_FILE} let (_, data) = crate::bounds::table(self, SEG_IMPFILES)?;");
    changes.push(in_method(IMPORT_FILE, IMPORT_FILE, &kept, 1));
    // Without a table there is one of no bytes.
    let references = segment("SEG_REFTAB");
    let none = "crate::bounds::no_table(self)";
    changes.push(in_method(&references, "(0, 0)", none, 1));
    for (table, times) in METHODS {
        let from = segment(table);
        let kept = format!("let (seg_offset, data) = crate::bounds::table(self, {table})");
        changes.push(in_method(&from, "self.data", "data", times));
        changes.push(in_method(&from, &from, &kept, 1));
    }
    changes
}

/// A chain holds its table. The cursor over names keeps an entry's fixed part to its end, and now the text
/// behind it.
fn of_cursors() -> Vec<Change> {
    vec![
        in_part(
            ITERATORS,
            "pub struct ImplTypeIter<'a> {",
            "impl<'a> Iterator for",
            "data: &'a [u8]",
            "data: crate::bounds::Table<'a>",
            2,
        ),
        in_part(
            ITERATORS,
            "impl<'a> Iterator for NameIter<'a> {",
            METHOD_END,
            "self.data.get(name_start..name_end)",
            "crate::bounds::entry(self.data, self.end).get(name_start..name_end)",
            1,
        ),
    ]
}

/// How a method asks for where a table begins.
fn segment(table: &str) -> String {
    format!("let (seg_offset, _) = self.segment({table})")
}

/// A change in a method of `typelib.rs`, from this text to the method's end.
fn in_method(from: &str, old: &str, new: &str, times: usize) -> Change {
    in_part(TYPELIB, from, METHOD_END, old, new, times)
}

fn in_part(
    file: &'static str,
    from: &str,
    until: &'static str,
    old: &str,
    new: &str,
    times: usize,
) -> Change {
    Change {
        file,
        from: from.into(),
        until,
        old: old.into(),
        new: new.into(),
        times,
    }
}

/// The text of a file with its changes.
pub fn changed(file: &str, text: String) -> String {
    let of_file = changes().into_iter().filter(|change| change.file == file);
    of_file.fold(text, |text, change| change.make(&text))
}

impl Change {
    fn make(&self, text: &str) -> String {
        let Change {
            file,
            from,
            until,
            old,
            new,
            times,
        } = self;
        let [before, behind] = text.split(from.as_str()).collect::<Vec<_>>()[..] else {
            panic!("{file}.rs: {from:?} is not there once");
        };
        let length = behind.find(until);
        let length = length.unwrap_or_else(|| panic!("{file}.rs: no {until:?} behind {from:?}"));
        let part = format!("{from}{}", &behind[..length]);
        let found = part.matches(old.as_str()).count();
        assert_eq!(found, *times, "{file}.rs: {old:?} behind {from:?}");
        [before, &part.replace(old.as_str(), new), &behind[length..]].concat()
    }
}
