//! The sheet call beside the sheet made from the reference, for the same promise: a call that refuses
//! has written nothing. So the reference lays a sheet into a vector of its own, which is kept from call to
//! call, and copies it into the output when it is whole. For the real libraries it is also timed without
//! that copy, with the sheet left in the vector.

use std::hint::black_box;

use super::Case;
use crate::inputs::{Input, Inputs, large};
use crate::sheet::{MOST_BYTES, sheet_into};

/// Where the reference leaves a sheet.
#[derive(Clone, Copy)]
enum Left {
    InOutput,
    InVector,
}

/// Prints a line for each case. `is_long` adds a library that takes the reference some ten seconds.
pub fn print(is_long: bool) {
    let corpus: Vec<Input> = Inputs::new(0).corpus().collect();
    let largest = corpus.iter().max_by_key(|input| input.bytes.len());
    let largest = largest.expect("there are libraries").bytes.clone();
    let corpus: Vec<Vec<u8>> = corpus.into_iter().map(|input| input.bytes).collect();
    let without_copy = "the same, the Rust without the copy";
    print_case("sheets of all real libraries", &corpus, Left::InOutput);
    print_case(without_copy, &corpus, Left::InVector);
    let largest = [largest];
    print_case(
        "sheet of the largest real library",
        &largest,
        Left::InOutput,
    );
    print_case(without_copy, &largest, Left::InVector);
    for (name, library) in [
        (
            "sheet, 64 KB, 700 million descriptions",
            large::many_descriptions(8_100, 32),
        ),
        (
            "sheet, 64 KB, 100 million descriptions",
            large::many_descriptions(600, 32),
        ),
        ("sheet, 16 MB, one chain", large::longest_chain(-1)),
        (
            "sheet, 16 MB, one scattered chain",
            large::scattered_chain(),
        ),
        ("sheet, 65,535 functions", large::many_functions(8)),
        ("sheet, 65,535 types", large::many_types(65_535)),
        (
            "sheet, 1,000 coclasses with one chain",
            large::coclasses(1_000, 100_000, -1),
        ),
    ] {
        print_case(name, &[library], Left::InOutput);
    }
    if is_long {
        let library = large::overlapping(16_000, 32);
        let name = "sheet, 64 KB, 2,700 million descriptions";
        print_case(name, &[library], Left::InOutput);
    }
}

/// All of the libraries make one round.
fn print_case(name: &'static str, libraries: &[Vec<u8>], left: Left) {
    // Written to once, so that no round pays for memory that is used for the first time.
    let (mut sheet, mut out) = (vec![1; MOST_BYTES], vec![1; MOST_BYTES]);
    let case = Case {
        name,
        bytes: libraries.iter().map(Vec::len).sum(),
        calls: Some(libraries.len()),
        rust: Box::new(move || {
            let lay = |library: &Vec<u8>| rust_sheet(library, &mut sheet, &mut out, left);
            libraries.iter().map(lay).sum()
        }),
        product: product(libraries),
    };
    case.print();
}

/// The length of the sheet, or the number of the refusal.
fn rust_sheet(library: &[u8], sheet: &mut Vec<u8>, out: &mut [u8], left: Left) -> u64 {
    match sheet_into(black_box(library), out.len(), sheet) {
        Ok(()) => {
            match left {
                Left::InOutput => black_box(&mut *out)[..sheet.len()].copy_from_slice(sheet),
                Left::InVector => {
                    black_box(&mut *sheet);
                }
            }
            sheet.len() as u64
        }
        Err(number) => u64::from(number),
    }
}

#[cfg(product)]
fn product(libraries: &[Vec<u8>]) -> Option<super::Work<'_>> {
    let (mut right, mut out) = (vec![1; MOST_BYTES], vec![1; MOST_BYTES]);
    // Times of different sheets would say nothing.
    for library in libraries {
        let reply = crate::product::sheet(library, &mut out);
        if sheet_into(library, MOST_BYTES, &mut right).is_ok() {
            let written = &out[..usize::try_from(reply).expect("a sheet was written")];
            assert!(written == right, "the product's sheet is the Rust's");
        }
    }
    Some(Box::new(move || {
        let lay = |library: &Vec<u8>| {
            let reply = crate::product::sheet(black_box(library), &mut out);
            reply.unsigned_abs()
        };
        libraries.iter().map(lay).sum()
    }))
}

#[cfg(not(product))]
fn product(_: &[Vec<u8>]) -> Option<super::Work<'_>> {
    None
}
