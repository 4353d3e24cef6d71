//! The cursors. The reference's iterators are made from the numbers that are handed in, damaged ones
//! too; what a step writes are the numbers of the iterator behind its `next`. Its count the reference's iterators do
//! not have: document 02 says what comes of the one that is handed in.

use std::collections::HashSet;

use super::answer::{Answer, Row, Tell};
use super::numbers::{Asks, Cursor, Numbers};
use super::views::record;
use super::{Export, Rust, export, linked};
use crate::library::REFERENCE_SEGMENT;
use crate::readings::{Kind, NOTHING, place_in};
use crate::sheet::refusal;
use crate::{
    FuncIter, FuncRecord, GuidEntryIter, ImpFileIter, ImpInfoIter, ImplTypeIter, NameEntry,
    NameIter, ParamIter, TypeInfoEntry, TypeLib, VarIter,
};

pub(super) fn exports() -> Vec<Export> {
    let mut exports = of_library();
    exports.extend(of_records());
    exports.extend(block_steps());
    exports.extend(table_steps());
    exports.extend(other_steps());
    exports
}

fn of_library() -> Vec<Export> {
    vec![
        export!(LibOut msft_guids, Asks::Nothing, Library, |lib, _| {
            fresh(lib.guids().numbers()).answer()
        }),
        export!(LibOut msft_imports, Asks::Nothing, Library, |lib, _| {
            fresh(lib.imports().numbers()).answer()
        }),
        export!(LibOut msft_imp_files, Asks::Nothing, Library, |lib, _| {
            fresh(lib.imp_files().numbers()).answer()
        }),
        export!(LibOut msft_names, Asks::Nothing, Library, |lib, _| {
            fresh(lib.names().numbers()).answer()
        }),
        export!(LibOut msft_typeinfos, Asks::Nothing, Library, |lib, _| {
            Row::new().sizes([lib.typeinfos().number()]).answer()
        }),
    ]
}

fn of_records() -> Vec<Export> {
    vec![
        export!(TwoOut msft_funcs, Asks::Record(Kind::TypeInfo), Lent, |lib, numbers| {
            let typeinfo = record(lib, Kind::TypeInfo, numbers).map(TypeInfoEntry::new);
            let funcs = typeinfo.map(|typeinfo| lib.funcs(&typeinfo).numbers());
            funcs.map(fresh).tell(lib.data())
        }),
        export!(TwoOut msft_vars, Asks::Record(Kind::TypeInfo), Lent, |lib, numbers| {
            let typeinfo = record(lib, Kind::TypeInfo, numbers).map(TypeInfoEntry::new);
            let vars = typeinfo.map(|typeinfo| lib.vars(&typeinfo).numbers());
            vars.map(fresh).tell(lib.data())
        }),
        export!(TwoOut msft_params, Asks::Record(Kind::Func), Lent, |lib, numbers| {
            let func = record(lib, Kind::Func, numbers).map(FuncRecord::new);
            func.map_or(Answer::Refused(NOTHING), |func| params(lib, &lib.params(&func)))
        }),
        export!(TwoOut msft_impl_types, Asks::Record(Kind::TypeInfo), Library, |lib, numbers| {
            let typeinfo = record(lib, Kind::TypeInfo, numbers).map(TypeInfoEntry::new);
            // The reference keeps the table's beginning; the cursor has its length beside it.
            let (_, len) = lib.segment(REFERENCE_SEGMENT).unwrap_or((0, 0));
            let chain = typeinfo.map(|typeinfo| lib.impl_types(&typeinfo));
            chain.map(|chain| chain_row(Row::new(), &chain, len, 0)).tell(lib.data())
        }),
    ]
}

/// A cursor that has yielded nothing yet: its numbers, and its count.
fn fresh<const N: usize>(numbers: [usize; N]) -> Row {
    Row::new().sizes(numbers).sizes([0])
}

/// A cursor over parameters. Where there are none the reference reads an empty slice that is no part
/// of the lent bytes and has no place in them: only that nothing is left, and nothing yielded, can be compared.
fn params(lib: &TypeLib, params: &ParamIter) -> Answer {
    match param_numbers(lib, params) {
        Some(numbers) => fresh(numbers).answer(),
        None => Answer::Ended(fresh([0; 3]).bytes()),
    }
}

/// The numbers of a cursor over parameters: the reference's place and end in the function's record,
/// counted in the lent bytes; nothing where it reads no record.
pub(super) fn param_numbers(lib: &TypeLib, params: &ParamIter) -> Option<[usize; 3]> {
    let (record, pos, remaining) = params.held();
    let at = (!record.is_empty()).then(|| place_in(lib.data(), record))?;
    Some([at + pos, at + record.len(), remaining])
}

/// A chain's cursor: the table, the next offset in four bytes, and the count.
fn chain_row(row: Row, chain: &ImplTypeIter, len: usize, count: usize) -> Row {
    let (at, next) = chain.numbers();
    row.sizes([at, len]).le(next.to_le_bytes()).sizes([count])
}

/// The count of a cursor behind the record that has this number: one more, and the largest stays.
pub(super) fn behind(number: usize) -> usize {
    number.saturating_add(1)
}

/// What a step writes: the record's place, its number, which is the count that was handed in, and the cursor
/// behind it.
fn step<const N: usize>(
    lib: &TypeLib,
    record: Option<&[u8]>,
    numbers: [usize; N],
    count: usize,
) -> Answer {
    let row = record.map(|bytes| Row::new().place(lib.data(), bytes).sizes([count]));
    let row = row.map(|row| row.sizes(numbers).sizes([behind(count)]));
    row.tell(lib.data())
}

fn block_steps() -> Vec<Export> {
    vec![
        export!(BlockOut msft_func_step, Asks::Cursor(Cursor::Funcs), Lent, |lib, [pos, end, left, count]| {
            let mut funcs = FuncIter::new(lib.data(), pos, end, left);
            let func = funcs.next().map(|func| func.as_bytes());
            step(lib, func, funcs.numbers(), count)
        }),
        export!(BlockOut msft_var_step, Asks::Cursor(Cursor::Vars), Lent, |lib, [pos, end, left, count]| {
            let mut vars = VarIter::new(lib.data(), pos, end, left);
            let var = vars.next().map(|var| var.as_bytes());
            step(lib, var, vars.numbers(), count)
        }),
        // The reference's iterator holds the record, which here ends at `end`. An end past the lent
        // bytes, which it cannot hold, is cut to theirs: no call looks outside them.
        export!(BlockOut msft_param_step, Asks::Cursor(Cursor::Params), Lent, |lib, [pos, end, left, count]| {
            let lent = &lib.data()[..end.min(lib.data().len())];
            let mut params = ParamIter::new(lent, pos, left);
            let param = params.next().map(|param| param.held());
            let (_, pos, left) = params.held();
            step(lib, param, [pos, end, left], count)
        }),
    ]
}

fn table_steps() -> Vec<Export> {
    vec![
        export!(TableOut msft_guid_step, Asks::Cursor(Cursor::Guids), Lent, |lib, [pos, end, count, _]| {
            let mut guids = GuidEntryIter::new(lib.data(), pos, end);
            // The entry begins with its GUID, and the cursor then stands at the entry's end.
            let at = guids.next().map(|entry| place_in(lib.data(), entry.guid().as_bytes()));
            let entry = at.map(|at| &lib.data()[at..guids.numbers()[0]]);
            step(lib, entry, guids.numbers(), count)
        }),
        export!(TableOut msft_import_step, Asks::Cursor(Cursor::Imports), Lent, |lib, [pos, end, count, _]| {
            let mut imports = ImpInfoIter::new(lib.data(), pos, end);
            let import = imports.next().map(|import| import.held());
            step(lib, import, imports.numbers(), count)
        }),
        export!(TableOut msft_imp_file_step, Asks::Cursor(Cursor::ImportFiles), Lent, |lib, [pos, end, count, _]| {
            let mut files = ImpFileIter::new(lib.data(), pos, end);
            let file = files.next().map(|file| file.held());
            step(lib, file, files.numbers(), count)
        }),
    ]
}

fn other_steps() -> Vec<Export> {
    vec![
        export!(BlockOut msft_name_step, Asks::Cursor(Cursor::Names), Lent, |lib, [pos, end, start, count]| {
            let mut names = NameIter::new(lib.data(), pos, end, start);
            let entry = names.next().map(|entry| name_row(lib, &entry).sizes([count]));
            let row = entry.map(|row| row.sizes(names.numbers()).sizes([behind(count)]));
            row.tell(lib.data())
        }),
        export!(OneOut msft_typeinfo_step, Asks::Type, Library, typeinfo_step),
        export!(OneOut msft_typeinfo_size_hint, Asks::Type, Library, |lib, [index, ..]| {
            let mut typeinfos = lib.typeinfos();
            typeinfos.by_ref().take(index).for_each(drop);
            typeinfos.size_hint().0.tell(lib.data())
        }),
        export!(ChainOut msft_impl_type_step, Asks::Cursor(Cursor::Chain), Lent, |lib, numbers| {
            let mut chain = chain(lib, numbers);
            let reference = chain.next().map(|reference| reference.held());
            let [_, len, _, count] = numbers;
            let row = reference.map(|bytes| Row::new().place(lib.data(), bytes).sizes([count]));
            row.map(|row| chain_row(row, &chain, len, behind(count))).tell(lib.data())
        }),
        export!(ChainOut msft_walk, Asks::Cursor(Cursor::Chain), Lent, walk),
    ]
}

/// A name's entry: its offset, the place of its text, and its numbers.
pub(super) fn name_row(lib: &TypeLib, entry: &NameEntry) -> Row {
    Row::new()
        .sizes([entry.offset()])
        .place(lib.data(), entry.name().as_bytes())
        .le(entry.hreftype().to_le_bytes())
        .le(entry.next_hash().to_le_bytes())
        .le([entry.name_flags()])
        .le(entry.hashcode().to_le_bytes())
}

/// The typeinfo at the cursor. The reference's iterator begins at the first, so it is led there, and `enumerate`
/// counts those before it, refused ones too.
fn typeinfo_step(lib: &TypeLib, [index, ..]: Numbers) -> Answer {
    let mut typeinfos = lib.typeinfos();
    match typeinfos.by_ref().enumerate().nth(index) {
        None => Answer::Refused(NOTHING),
        Some((_, Err(error))) => Err::<TypeInfoEntry, _>(error).tell(lib.data()),
        Some((number, Ok(typeinfo))) => {
            let row = Row::new().place(lib.data(), typeinfo.as_bytes());
            row.sizes([number, typeinfos.number()]).answer()
        }
    }
}

/// The chain of a cursor: its table's place and length, and the next offset; its count is not looked at. The
/// reference itself does not know where the table ends.
#[cfg(not(bounded))]
fn chain<'a>(lib: &TypeLib<'a>, [at, _, next, _]: Numbers) -> ImplTypeIter<'a> {
    ImplTypeIter::new(lib.data(), at, next as i32)
}

#[cfg(bounded)]
fn chain<'a>(lib: &TypeLib<'a>, [at, len, next, _]: Numbers) -> ImplTypeIter<'a> {
    use crate::bounds::{Read, Table};
    let table = Table::new(lib.data(), at.saturating_add(len), Read::Reference);
    ImplTypeIter::new(table, at, next as i32)
}

/// How many records the chain has, or 10 where it returns to an offset already passed: document 01's
/// definition, for the reference has no such reading.
fn walk(lib: &TypeLib, numbers: Numbers) -> Answer {
    let mut chain = chain(lib, numbers);
    let mut passed = HashSet::new();
    loop {
        let (_, offset) = chain.numbers();
        if chain.next().is_none() {
            return passed.len().tell(lib.data());
        }
        if !passed.insert(offset) {
            return Answer::Refused(refusal::CIRCLE);
        }
    }
}
