//! Times the product's sheet call beside the sheet made from the reference, the figures of both, and the product's
//! figures beside its own sheets.
//!
//! `bench_sheets` prints a table; `bench_sheets --long` adds a library that takes the reference some
//! ten seconds, and a table of the hostile libraries of 64 KB, once each; `bench_sheets --hostile` prints that table
//! alone. If no static library was named at build time, it times the reference alone.

use std::env;

use msft_typelib::timing;

fn main() {
    let has = |wanted: &str| env::args().skip(1).any(|argument| argument == wanted);
    let (is_long, is_hostile) = (has("--long"), has("--hostile"));
    if !is_hostile {
        timing::print_titles();
        timing::sheets::print(is_long);
        timing::figures::print(is_long);
        timing::figures::print_beside_sheets(is_long);
    }
    if is_long || is_hostile {
        timing::hostile::print();
    }
}
