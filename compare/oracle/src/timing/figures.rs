//! The call for a sheet's figures, beside the figures counted from the reference; and beside the product's own sheets, as
//! document 02's §5 has a harness ask for the one before the other.

use std::hint::black_box;

use super::{Case, Work};
use crate::figures::{Figures, figures};
use crate::inputs::{Input, Inputs, large};

/// Libraries that are timed together.
struct Timed {
    name: &'static str,
    libraries: Vec<Vec<u8>>,
}

/// The real libraries, the largest of them, and hostile ones; `is_long` adds one that takes the reference some ten
/// seconds.
fn timed(is_long: bool) -> Vec<Timed> {
    let corpus: Vec<Input> = Inputs::new(0).corpus().collect();
    let corpus: Vec<Vec<u8>> = corpus.into_iter().map(|input| input.bytes).collect();
    let largest = corpus.iter().max_by_key(|bytes| bytes.len());
    let largest = largest.expect("there are libraries").clone();
    let mut timed = vec![
        ("figures of all real libraries", corpus),
        ("figures of the largest real library", vec![largest]),
        (
            "figures, 64 KB, 700 million descriptions",
            vec![large::many_descriptions(8_100, 32)],
        ),
        ("figures, 16 MB, one chain", vec![large::longest_chain(-1)]),
        ("figures, 65,535 functions", vec![large::many_functions(8)]),
    ];
    if is_long {
        let library = large::overlapping(16_000, 32);
        timed.push(("figures, 64 KB, 2,700 million descriptions", vec![library]));
    }
    let timed = timed.into_iter();
    timed
        .map(|(name, libraries)| Timed { name, libraries })
        .collect()
}

/// Prints a line for each case: the reference's figures, and the product's.
pub fn print(is_long: bool) {
    for Timed { name, libraries } in &timed(is_long) {
        let case = Case {
            name,
            bytes: libraries.iter().map(Vec::len).sum(),
            calls: Some(libraries.len()),
            rust: Box::new(move || libraries.iter().map(|library| rust_sum(library)).sum()),
            product: product(libraries),
        };
        case.print();
    }
}

/// The sum of the figures, or the number of the refusal.
pub(super) fn rust_sum(library: &[u8]) -> u64 {
    match figures(black_box(library)).map(Figures::given) {
        Ok(given) => given.into_iter().map(u64::from).sum(),
        Err(number) => u64::from(number),
    }
}

/// The same of the product, if one is linked.
#[cfg(product)]
pub(super) fn product_sum(library: &[u8]) -> Option<u64> {
    Some(calls::sum(library))
}

#[cfg(not(product))]
pub(super) fn product_sum(_: &[u8]) -> Option<u64> {
    None
}

#[cfg(product)]
fn product(libraries: &[Vec<u8>]) -> Option<Work<'_>> {
    Some(Box::new(move || {
        libraries.iter().map(|library| calls::sum(library)).sum()
    }))
}

#[cfg(not(product))]
fn product(_: &[Vec<u8>]) -> Option<Work<'_>> {
    None
}

/// Prints a table of its own: the product's sheets, and its figures. There is none without a product.
pub fn print_beside_sheets(is_long: bool) {
    #[cfg(product)]
    calls::print_beside_sheets(&timed(is_long));
    #[cfg(not(product))]
    let _ = is_long;
}

/// The product's calls.
#[cfg(product)]
mod calls {
    use std::hint::black_box;

    use super::Timed;
    use crate::figures::{ABOVE, BYTES};
    use crate::product;
    use crate::sheet::{MOST_BYTES, refusal};
    use crate::timing::{Case, print_columns};

    pub fn print_beside_sheets(timed: &[Timed]) {
        println!("the product alone");
        print_columns("sheets", "figures");
        for Timed { name, libraries } in timed {
            // Written to once, so that no round pays for memory that is used for the first time.
            let mut out = vec![1; MOST_BYTES];
            let case = Case {
                name,
                bytes: libraries.iter().map(Vec::len).sum(),
                calls: Some(libraries.len()),
                rust: Box::new(move || {
                    let lay = |library: &Vec<u8>| sheet_length(library, &mut out);
                    libraries.iter().map(lay).sum()
                }),
                product: Some(Box::new(move || {
                    libraries.iter().map(|library| length(library)).sum()
                })),
            };
            case.print();
        }
    }

    /// The sum of the figures, or the number of the refusal.
    pub fn sum(library: &[u8]) -> u64 {
        match given(library) {
            Ok(given) => given.into_iter().sum(),
            Err(number) => number,
        }
    }

    /// The length that the figures promise, or the number of the refusal.
    fn length(library: &[u8]) -> u64 {
        given(library).map_or_else(|number| number, |given| given[0])
    }

    fn given(library: &[u8]) -> Result<[u64; BYTES / 4], u64> {
        let mut out = [0; BYTES];
        let reply = product::figures(black_box(library), &mut out);
        if reply < 0 {
            return Err(reply.unsigned_abs());
        }
        let mut given = [0; BYTES / 4];
        for (figure, bytes) in given.iter_mut().zip(out.chunks_exact(4)) {
            *figure = u64::from(u32::from_le_bytes(bytes.try_into().expect("four bytes")));
        }
        Ok(given)
    }

    /// The length of the sheet, or the number of the refusal; the figure for a sheet that no output can hold.
    fn sheet_length(library: &[u8], out: &mut [u8]) -> u64 {
        const NO_SPACE: i64 = -(refusal::NO_SPACE as i64);
        match product::sheet(black_box(library), out) {
            NO_SPACE => u64::from(ABOVE),
            reply => reply.unsigned_abs(),
        }
    }
}
