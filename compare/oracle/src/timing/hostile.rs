//! The call for figures on the hostile libraries of 64 KB, once each, and whether it kept its bound: under five seconds
//! for any library of that length.

use std::time::Instant;

use super::figures::{product_sum, rust_sum};
use super::milliseconds;
use crate::inputs::hostile;

/// The bound, in milliseconds.
const MOST: f64 = 5_000.0;

/// Prints a table of its own. The reference counts first; the product must come to the same.
pub fn print() {
    println!("figures of hostile libraries, once each, in milliseconds");
    let title = "under 5,000";
    println!(
        "{:44} {:>9} {:>10} {:>10} {title:>11}",
        "", "bytes", "Rust", "product"
    );
    let (mut longest, mut above) = (0.0, 0);
    for input in hostile::whole() {
        let (right, rust) = timed(|| rust_sum(&input.bytes));
        let (found, product) = timed(|| product_sum(&input.bytes));
        let (product, is_under) = match found {
            None => ("-".into(), "-"),
            Some(found) => {
                assert_eq!(
                    found, right,
                    "{}: the product's work is the Rust's",
                    input.name
                );
                longest = product.max(longest);
                above += u32::from(product >= MOST);
                (
                    format!("{product:.1}"),
                    if product < MOST { "yes" } else { "NO" },
                )
            }
        };
        println!(
            "{:44} {:>9} {rust:>10.1} {product:>10} {is_under:>11}",
            input.name,
            input.bytes.len()
        );
    }
    println!("longest of the product: {longest:.1}; not under 5,000: {above}");
}

/// What the work gives, and how long it took.
fn timed<T>(work: impl FnOnce() -> T) -> (T, f64) {
    let started = Instant::now();
    let given = work();
    (given, milliseconds(started.elapsed()))
}
