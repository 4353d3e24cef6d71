//! What a comparison of the product's calls needs: memory that ends at a guard page, the check of a
//! reply and of every byte of its output, smaller inputs, and words for a run that is stopped.

pub mod guarded;
pub mod kinds;
pub mod lent;
pub mod report;
pub mod shrink;
pub mod stopped;
