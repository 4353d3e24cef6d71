//! The product's readings beside the reference's: the full walk, the search for members' names,
//! cursors that are stepped by calls, names, constants, texts, and what a call itself costs.
//!
//! A call of the product that needs the library parses it first. Where nothing else is said the
//! reference parses once, as a program in Rust would.

#[cfg(product)]
mod calls;
#[cfg(product)]
mod walks;

/// Prints a line for each case; there are none without a product.
pub fn print() {
    #[cfg(product)]
    {
        walks::print();
        calls::print();
    }
}
