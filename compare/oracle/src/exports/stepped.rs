//! Cursors that are stepped by calls from their start to their end, each step with the cursor that the last one wrote.
//! What they yield is what the reference's iterators do, and its number is that of `enumerate`.

use super::answer::Row;
use super::cursors::{behind, name_row};
use super::numbers::Numbers;
pub use super::pool::found::MOST_LINKS;
use super::pool::found::MOST_TYPES;
use crate::library::typeinfo_refusal;
use crate::readings::{NOTHING, place_in};
use crate::{FuncRecord, GuidEntry, TypeInfoEntry, TypeLib};

/// Longer than what a step writes.
const ROOM: usize = 128;

/// A kind of cursor: the exports that make and step it, and the widths of its numbers. The last number is its count;
/// typeinfos have their index alone.
#[derive(Debug, PartialEq, Eq)]
pub struct Kind {
    start: &'static str,
    pub step: &'static str,
    widths: &'static [usize],
}

const fn kind(start: &'static str, step: &'static str, widths: &'static [usize]) -> Kind {
    Kind {
        start,
        step,
        widths,
    }
}

const TYPEINFOS: Kind = kind("msft_typeinfos", "msft_typeinfo_step", &[8]);
const GUIDS: Kind = kind("msft_guids", "msft_guid_step", &[8; 3]);
const IMPORTS: Kind = kind("msft_imports", "msft_import_step", &[8; 3]);
const IMP_FILES: Kind = kind("msft_imp_files", "msft_imp_file_step", &[8; 3]);
const NAMES: Kind = kind("msft_names", "msft_name_step", &[8; 4]);
const FUNCS: Kind = kind("msft_funcs", "msft_func_step", &[8; 4]);
const VARS: Kind = kind("msft_vars", "msft_var_step", &[8; 4]);
const PARAMS: Kind = kind("msft_params", "msft_param_step", &[8; 4]);
const CHAIN: Kind = kind("msft_impl_types", "msft_impl_type_step", &[8, 8, 4, 8]);

pub const KINDS: [Kind; 9] = [
    TYPEINFOS, GUIDS, IMPORTS, IMP_FILES, NAMES, FUNCS, VARS, PARAMS, CHAIN,
];

/// A cursor from its start.
#[derive(Debug, PartialEq, Eq)]
pub struct Stepped {
    pub kind: Kind,
    /// The numbers that it is made with.
    pub numbers: Numbers,
    /// The record that each step writes, or a typeinfo's refusal, with its number.
    pub yielded: Vec<(usize, Result<Vec<u8>, u8>)>,
    /// Whether it then ends: a chain that comes round does not.
    pub ends: bool,
}

/// The cursors of a library; at most so many records of a chain.
pub fn all(lib: &TypeLib, most_links: usize) -> Vec<Stepped> {
    let place = |bytes: &[u8]| Row::new().place(lib.data(), bytes);
    let guids = lib.guids().map(|entry| {
        let at = place_in(lib.data(), entry.guid().as_bytes());
        Row::new().sizes([at, GuidEntry::SIZE])
    });
    let imports = lib.imports().map(|import| place(import.held()));
    let files = lib.imp_files().map(|file| place(file.held()));
    let names = lib.names().map(|entry| name_row(lib, &entry));
    let typeinfos = lib.typeinfos().map(|typeinfo| {
        let found = typeinfo.map(|typeinfo| place(typeinfo.as_bytes()));
        found.map_err(typeinfo_refusal)
    });
    let mut all = vec![
        stepped(TYPEINFOS, [0; 4], typeinfos),
        stepped(GUIDS, [0; 4], guids.map(Ok)),
        stepped(IMPORTS, [0; 4], imports.map(Ok)),
        stepped(IMP_FILES, [0; 4], files.map(Ok)),
        stepped(NAMES, [0; 4], names.map(Ok)),
    ];
    for typeinfo in lib.typeinfos().take(MOST_TYPES).flatten() {
        all.extend(of_typeinfo(lib, &typeinfo, most_links));
    }
    all
}

fn of_typeinfo(lib: &TypeLib, typeinfo: &TypeInfoEntry, most_links: usize) -> Vec<Stepped> {
    let place = |bytes: &[u8]| Ok(Row::new().place(lib.data(), bytes));
    let at = |bytes: &[u8]| [place_in(lib.data(), bytes), bytes.len(), 0, 0];
    let numbers = at(typeinfo.as_bytes());
    let funcs = lib.funcs(typeinfo).map(|func| place(func.as_bytes()));
    let vars = lib.vars(typeinfo).map(|var| place(var.as_bytes()));
    let mut chain = lib.impl_types(typeinfo);
    let links = chain.by_ref().take(most_links);
    let links = stepped(CHAIN, numbers, links.map(|link| place(link.held())));
    let mut all = vec![
        stepped(FUNCS, numbers, funcs),
        stepped(VARS, numbers, vars),
        Stepped {
            ends: chain.next().is_none(),
            ..links
        },
    ];
    let of_func = |func: FuncRecord| {
        let params = lib.params(&func).map(|param| place(param.held()));
        stepped(PARAMS, at(func.as_bytes()), params)
    };
    all.extend(lib.funcs(typeinfo).map(of_func));
    all
}

/// A cursor of these records that ends. `enumerate` numbers them, and counts refused ones.
fn stepped(
    kind: Kind,
    numbers: Numbers,
    records: impl Iterator<Item = Result<Row, u8>>,
) -> Stepped {
    let records = records.map(|record| record.map(Row::bytes));
    Stepped {
        kind,
        numbers,
        yielded: records.enumerate().collect(),
        ends: true,
    }
}

impl Stepped {
    /// Whether it has a count, and not an index.
    pub fn has_count(&self) -> bool {
        self.kind != TYPEINFOS
    }

    /// What is wrong with what calls write, from a cursor whose count was set to this one before its first step.
    /// From 0 the numbers are those of `enumerate`; from another they go on from it, and the largest stays, as
    /// document 02 says.
    pub fn difference(
        &self,
        count: usize,
        call: impl Fn(&str, Numbers, &mut [u8]) -> i64,
    ) -> Option<String> {
        self.run(count, call).err()
    }

    fn run(
        &self,
        count: usize,
        call: impl Fn(&str, Numbers, &mut [u8]) -> i64,
    ) -> Result<(), String> {
        let Kind { start, step, .. } = self.kind;
        let mut out = [0; ROOM];
        let length = call(start, self.numbers, &mut out);
        let mut cursor = self.cursor(written(&out, length)?)?;
        if count != 0 {
            cursor[self.last()] = count;
        }
        for (number, right) in &self.yielded {
            let number = count.saturating_add(*number);
            let reply = call(step, cursor, &mut out);
            match right {
                Ok(record) => cursor = self.behind(written(&out, reply)?, record, number)?,
                Err(refusal) => {
                    same("reply", reply, -i64::from(*refusal))?;
                    cursor[self.last()] = behind(number);
                }
            }
        }
        match self.ends {
            true => same("end", call(step, cursor, &mut out), -i64::from(NOTHING)),
            false => Ok(()),
        }
    }

    /// The cursor that a step wrote behind this record and its number.
    fn behind(&self, row: &[u8], record: &[u8], number: usize) -> Result<Numbers, String> {
        let (told, rest) = row.split_at(record.len().min(row.len()));
        same("record", told, record)?;
        let (told, rest) = rest.split_at(size_of::<usize>().min(rest.len()));
        same("number", told, &number.to_le_bytes())?;
        let cursor = self.cursor(rest)?;
        same("count", cursor[self.last()], behind(number))?;
        Ok(cursor)
    }

    /// The numbers of the cursor in these bytes.
    fn cursor(&self, row: &[u8]) -> Result<Numbers, String> {
        same("cursor's bytes", row.len(), self.kind.widths.iter().sum())?;
        let mut numbers = Numbers::default();
        let mut rest = row;
        for (number, width) in numbers.iter_mut().zip(self.kind.widths) {
            let (bytes, behind) = rest.split_at(*width);
            let mut wide = [0; size_of::<usize>()];
            wide[..*width].copy_from_slice(bytes);
            *number = usize::from_le_bytes(wide);
            rest = behind;
        }
        Ok(numbers)
    }

    /// Which of the cursor's numbers is its count.
    fn last(&self) -> usize {
        self.kind.widths.len() - 1
    }
}

/// The bytes that a call wrote by its reply.
fn written(out: &[u8], reply: i64) -> Result<&[u8], String> {
    let length = usize::try_from(reply).ok();
    let written = length.and_then(|length| out.get(..length));
    written.ok_or(format!("reply {reply}, and the Rust has a value"))
}

fn same<T: PartialEq + std::fmt::Debug>(what: &str, told: T, right: T) -> Result<(), String> {
    match told == right {
        true => Ok(()),
        false => Err(format!("{what} {told:x?}, the Rust's {right:x?}")),
    }
}

#[cfg(test)]
mod tests {
    use super::{CHAIN, Stepped, all};
    use crate::TypeLib;
    use crate::exports::answer::Answer;
    use crate::exports::numbers::Numbers;
    use crate::exports::{self, Parsed};
    use crate::inputs::large;

    const LARGEST: usize = usize::MAX;

    /// How many records of the chain are stepped.
    const LINKS: usize = 12;

    /// A chain that comes round.
    fn circle() -> Vec<u8> {
        large::coclasses(1, 5, 0)
    }

    /// What is said of a product that answers as the reference, but for what is changed of its rows by `wrong`.
    fn said(count: usize, wrong: fn(&mut [u8])) -> Option<String> {
        let bytes = circle();
        let input = Parsed::new(&bytes);
        let exports = exports::all();
        let call = |name: &str, numbers: Numbers, out: &mut [u8]| {
            let mut exports = exports.iter();
            let export = exports.find(|export| export.name == name);
            match export.expect("it is driven").expected(&input, numbers) {
                Answer::Row(mut row) => {
                    wrong(&mut row);
                    out[..row.len()].copy_from_slice(&row);
                    row.len() as i64
                }
                Answer::Refused(number) => -i64::from(number),
                _ => panic!("a cursor is a row"),
            }
        };
        let lib = TypeLib::parse(&bytes).expect("it is a library");
        let chain = all(&lib, LINKS).into_iter();
        let mut chain = chain.filter(|stepped: &Stepped| stepped.kind == CHAIN);
        chain
            .next()
            .expect("it has a chain")
            .difference(count, call)
    }

    /// The row of a step along a chain: its record's number, and its cursor's count.
    const STEP: usize = 52;
    const NUMBER: usize = 16;
    const COUNT: usize = 44;

    fn change(row: &mut [u8], at: usize, change: fn(u64) -> u64) {
        if row.len() == STEP {
            let bytes = &mut row[at..at + 8];
            let number = u64::from_le_bytes((&*bytes).try_into().expect("eight bytes"));
            bytes.copy_from_slice(&change(number).to_le_bytes());
        }
    }

    #[test]
    fn the_references_own_numbers_are_right_from_any_count() {
        for count in [0, 1, LARGEST - 3, LARGEST - 2, LARGEST - 1, LARGEST] {
            assert_eq!(said(count, |_| {}), None);
        }
    }

    #[test]
    fn a_wrong_record_number_or_count_is_reported() {
        for count in [0, LARGEST - 2] {
            assert!(said(count, |row| change(row, 0, |at| at + 1)).is_some());
            assert!(said(count, |row| change(row, NUMBER, |number| number ^ 1)).is_some());
            assert!(said(count, |row| change(row, COUNT, |count| count ^ 1)).is_some());
        }
    }

    #[test]
    fn a_count_that_wraps_is_reported_where_it_should_stay() {
        let wraps: fn(&mut [u8]) = |row| {
            change(row, COUNT, |count| match count {
                u64::MAX => 0,
                _ => count,
            });
        };
        assert_eq!(said(0, wraps), None);
        assert!(said(LARGEST - 2, wraps).is_some());
        assert!(said(LARGEST, wraps).is_some());
    }
}
