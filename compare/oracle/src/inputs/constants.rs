//! Libraries that hold one stored constant, at the very end of the file: whole, and with fewer and
//! fewer of its bytes.

use super::Input;
use super::layout::{self, Layout};

/// Codes above those with a stored form of their own that are tried too.
const OTHER_CODES: [u16; 6] = [31, 63, 64, 65, 0x0FFF, 0xFFFF];

/// What stands behind the code: numbers, lengths of texts, and floats that are no number.
const VALUES: [&[u8; 16]; 8] = [
    &[0; 16],
    &[0xFF; 16],
    b"\x01\x80\x03\x04\x05\x06\x07\x08\x09\x0A\x0B\x0C\x0D\x0E\x0F\x10",
    // Texts of 1, 10 and 11 bytes, and of a length below -1.
    b"\x01\0\0\0text text te",
    b"\x0A\0\0\0text text te",
    b"\x0B\0\0\0text text te",
    b"\xFE\xFF\xFF\xFFtext text te",
    // A quiet and a signalling NaN by the first four bytes, and by the first eight.
    b"\x01\0\xA0\x7F\0\0\xF4\x7F\0\0\0\0\0\0\0\0",
];

/// The libraries, each with its constant at offset 0 of the table.
pub fn libraries() -> impl Iterator<Item = Input> {
    let codes = (0..=30).chain(OTHER_CODES);
    codes.flat_map(|code| {
        VALUES.iter().flat_map(move |value| {
            (0..=2 + value.len()).map(move |length| {
                let constant = [&code.to_le_bytes(), value.as_slice()].concat();
                let mut layout = Layout::new(Vec::new());
                layout.table(layout::CONSTANTS, constant[..length].to_vec());
                // A table of no bytes would be a missing one.
                layout.length(layout::CONSTANTS, length.max(1) as i32);
                Input::new(
                    format!("{length} bytes of a constant of code {code}"),
                    layout.bytes(),
                )
            })
        })
    })
}
