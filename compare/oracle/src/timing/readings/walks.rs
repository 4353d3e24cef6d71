//! Readings that go along something: chains, names, functions.

use std::hint::black_box;

use crate::TypeLib;
use crate::inputs::large;
use crate::product::{self, Out};
use crate::timing::Case;

pub fn print() {
    let chain = large::longest_chain(-1);
    print_case("walk, 16 MB, one chain", &chain, Some(3), rust_walk, walk);
    let chain = large::scattered_chain();
    print_case(
        "walk, 16 MB, one scattered chain",
        &chain,
        Some(3),
        rust_walk,
        walk,
    );
    let names = large::many_names();
    print_case(
        "members' names, a table of 16 MB",
        &names,
        Some(1),
        rust_members,
        members,
    );
    print_case("names stepped, 16 MB", &names, None, rust_names, step_names);
    let functions = large::many_functions(0);
    print_case(
        "functions of one type stepped",
        &functions,
        None,
        rust_funcs,
        step_funcs,
    );
    let largest = super::calls::largest();
    print_case(
        "functions of the largest real stepped",
        &largest,
        None,
        rust_funcs,
        step_funcs,
    );
}

fn print_case(
    name: &'static str,
    library: &[u8],
    calls: Option<usize>,
    rust: fn(&[u8]) -> u64,
    work: fn(&[u8]) -> u64,
) {
    let case = Case {
        name,
        bytes: library.len(),
        calls,
        rust: Box::new(move || rust(black_box(library))),
        product: Some(Box::new(move || work(black_box(library)))),
    };
    case.print();
}

fn parsed(library: &[u8]) -> TypeLib<'_> {
    TypeLib::parse(library).expect("it is a library")
}

fn rust_walk(library: &[u8]) -> u64 {
    let lib = parsed(library);
    let typeinfo = lib.typeinfo(0).expect("it has a type");
    lib.impl_types(&typeinfo).map(black_box).count() as u64
}

fn walk(library: &[u8]) -> u64 {
    let mut out = Out::default();
    let (at, len) = product::typeinfo(library, 0, &mut out).expect("it has a type");
    let cursor = product::impl_types(library, at, len, &mut out).expect("it is whole");
    product::walk(library, cursor, &mut out).expect("it ends") as u64
}

fn rust_members(library: &[u8]) -> u64 {
    parsed(library).member_names(0).len() as u64
}

/// No type has a name there, so the search goes through the whole table.
fn members(library: &[u8]) -> u64 {
    let mut out = Out::default();
    u64::from(product::member_name(library, 0, 0, &mut out).is_some())
}

fn rust_names(library: &[u8]) -> u64 {
    parsed(library).names().map(black_box).count() as u64
}

fn step_names(library: &[u8]) -> u64 {
    let mut out = Out::default();
    let mut cursor = product::names(library, &mut out);
    let mut count = 0;
    while let Some(next) = product::name_step(library, cursor, &mut out) {
        cursor = next;
        count += 1;
    }
    count
}

/// The functions of all types.
fn rust_funcs(library: &[u8]) -> u64 {
    let lib = parsed(library);
    let typeinfos = (0..lib.typeinfo_count()).filter_map(|index| lib.typeinfo(index).ok());
    let counts = typeinfos.map(|typeinfo| lib.funcs(&typeinfo).map(black_box).count());
    counts.sum::<usize>() as u64
}

fn step_funcs(library: &[u8]) -> u64 {
    let mut out = Out::default();
    let mut count = 0;
    for index in 0..product::typeinfo_count(library) {
        let Some((at, len)) = product::typeinfo(library, index, &mut out) else {
            continue;
        };
        let mut cursor = product::funcs(library, at, len, &mut out).expect("it is whole");
        while let Some(next) = product::func_step(library, cursor, &mut out) {
            cursor = next;
            count += 1;
        }
    }
    count
}
