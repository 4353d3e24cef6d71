//! References that hit no typeinfo, by document 02's §4. The Rust has no such reading: it divides by 100, and so
//! calls 4 type 0.

use crate::TypeLib;

/// Compilers place typeinfos every so many bytes.
const BYTES_APART: u32 = 100;

/// The number of a reference that hits no typeinfo, without its bit 0x01000000: the reference is not negative, its low
/// two bits are clear, and the number is no multiple of 100. Nothing for every other reference.
#[inline(always)]
pub fn misplaced_offset(reference: i32) -> Option<u32> {
    let number = reference as u32 & !TypeLib::DISPATCH_HREF_OFFSET;
    let is_here = reference >= 0 && reference & 3 == 0;
    (is_here && !number.is_multiple_of(BYTES_APART)).then_some(number)
}

#[cfg(test)]
mod tests {
    use super::misplaced_offset;

    /// The request's words, one row for each thing that they tell apart.
    #[test]
    fn a_reference_is_misplaced_as_document_02_says() {
        for (reference, number) in [
            // Compilers place typeinfos every 100 bytes, and a reference of 4 is a damaged file.
            (0, None),
            (4, Some(4)),
            (96, Some(96)),
            (100, None),
            (104, Some(104)),
            (200, None),
            // The bit is cleared first: 0x0100_0054 is 16,777,300.
            (0x0100_0000, None),
            (0x0100_0004, Some(4)),
            (0x0100_0054, Some(84)),
            (0x0100_0064, None),
            // Other high bits stay in the number.
            (0x0200_0000, Some(0x0200_0000)),
            (0x0200_0044, None),
            (0x0300_0000, Some(0x0200_0000)),
            (0x7FFF_FFFC, Some(0x7EFF_FFFC)),
            (0x7FFF_FFF8, Some(0x7EFF_FFF8)),
            // Not with low bits set, and not negative.
            (1, None),
            (5, None),
            (6, None),
            (7, None),
            (0x0100_0005, None),
            (i32::MAX, None),
            (-4, None),
            (-1, None),
            (i32::MIN, None),
            (i32::MIN + 4, None),
        ] {
            assert_eq!(misplaced_offset(reference), number, "{reference:#x}");
        }
    }
}
