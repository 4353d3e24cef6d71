//! The memory that is lent to the product, and the check of what it did with it.

use super::guarded::{Guarded, Side};
use crate::sheet::{MOST_BYTES, refusal};

/// The longest input that is tried, and the longest output that is lent.
const MOST_LENT: usize = MOST_BYTES + 4096;

/// How many bytes around the output are watched.
const AROUND: usize = 64;

/// How much longer than what is written an output is lent.
const LONGER: usize = 40;

/// What a call should write: these bytes, of which the first `free` may be any.
#[derive(Clone, Copy)]
pub struct Written<'a> {
    pub bytes: &'a [u8],
    pub free: usize,
}

impl<'a> From<&'a [u8]> for Written<'a> {
    fn from(bytes: &'a [u8]) -> Self {
        Written { bytes, free: 0 }
    }
}

/// What a call should come to: what it writes, or the number of its refusal.
pub type Expected<'a> = Result<Written<'a>, u8>;

/// A library that can only be read, and an output; both touch a guard page.
pub struct Lent {
    lib: Guarded,
    out: Guarded,
}

impl Default for Lent {
    fn default() -> Self {
        Lent {
            lib: Guarded::new(MOST_LENT),
            out: Guarded::new(MOST_LENT + AROUND),
        }
    }
}

impl Lent {
    /// Lends this library from now on.
    pub fn hold(&mut self, library: &[u8], side: Side) {
        self.lib.hold(library, side);
    }

    /// The reply of a call that has no output.
    pub fn reply(&self, call: impl FnOnce(&[u8]) -> i64) -> i64 {
        call(self.lib.held())
    }

    /// What is wrong with a call's replies at outputs that are as long as what it should write, one
    /// byte shorter, longer, and empty. Where it should refuse, `room` is the longest output but one.
    pub fn difference(
        &mut self,
        expected: Expected,
        room: usize,
        call: impl Fn(&[u8], &mut [u8]) -> i64,
    ) -> Option<String> {
        let room = expected.map_or(room, |written| written.bytes.len());
        [
            (room, Side::End),
            (room.saturating_sub(1), Side::End),
            (room + LONGER, Side::Start),
            (0, Side::End),
        ]
        .into_iter()
        .find_map(|(room, side)| self.difference_at(expected, room, side, &call))
    }

    /// What is wrong with the call's reply at this length of output.
    pub fn difference_at(
        &mut self,
        expected: Expected,
        room: usize,
        side: Side,
        call: &impl Fn(&[u8], &mut [u8]) -> i64,
    ) -> Option<String> {
        let expected = match expected {
            Ok(written) if written.bytes.len() > room => Err(refusal::NO_SPACE),
            other => other,
        };
        let area = self.out.bytes(AROUND + room, side);
        fill(area);
        let out_at = match side {
            Side::Start => 0,
            Side::End => AROUND,
        };
        let reply = call(self.lib.held(), &mut area[out_at..out_at + room]);
        wrong_reply(reply, expected)
            .or_else(|| wrong_bytes(area, out_at, expected.unwrap_or([].as_slice().into())))
            .map(|wrong| format!("{wrong} (output of {room} bytes)"))
    }
}

fn wrong_reply(reply: i64, expected: Expected) -> Option<String> {
    let right = match expected {
        Ok(written) => written.bytes.len() as i64,
        Err(number) => -i64::from(number),
    };
    (reply != right).then(|| format!("reply {reply}, the Rust's {right}"))
}

/// What is wrong with the bytes around and in the output, of which what is written are the first.
fn wrong_bytes(area: &[u8], out_at: usize, right: Written) -> Option<String> {
    let (before, out) = area.split_at(out_at);
    let (written, behind) = out.split_at(right.bytes.len());
    let differs = |at: &usize| written[*at] != right.bytes[*at];
    if let Some(at) = (right.free..written.len()).find(differs) {
        return Some(format!(
            "byte {at} is {:02x}, the Rust's {:02x}",
            written[at], right.bytes[at]
        ));
    }
    let behind_at = out_at + written.len();
    if !is_filled(before, 0) || !is_filled(behind, behind_at) {
        return Some("bytes are changed that should not be".into());
    }
    None
}

/// Fills the bytes with what a product would hardly write.
fn fill(area: &mut [u8]) {
    for (at, byte) in area.iter_mut().enumerate() {
        *byte = filler(at);
    }
}

/// Whether bytes that lie at this place of the area are as [`fill`] left them.
fn is_filled(bytes: &[u8], at: usize) -> bool {
    bytes
        .iter()
        .enumerate()
        .all(|(index, byte)| *byte == filler(at + index))
}

/// A byte that depends on its place in a manner that no field does.
fn filler(at: usize) -> u8 {
    ((at as u32).wrapping_mul(0x9E37_79B1) >> 24) as u8 | 0x80
}

#[cfg(test)]
mod tests {
    use super::{Lent, Side, Written};

    /// What is said of a call that writes these bytes to the places and replies so.
    fn said(expected: Result<&[u8], u8>, reply: i64, writes: &[(usize, u8)]) -> Option<String> {
        said_of(expected.map(Written::from), reply, writes)
    }

    fn said_of(
        expected: Result<Written, u8>,
        reply: i64,
        writes: &[(usize, u8)],
    ) -> Option<String> {
        let mut lent = Lent::default();
        lent.hold(b"lent", Side::End);
        lent.difference_at(expected, 8, Side::Start, &|_: &[u8], out: &mut [u8]| {
            for (at, byte) in writes {
                out[*at] = *byte;
            }
            reply
        })
    }

    #[test]
    fn what_is_right_is_not_reported() {
        assert_eq!(said(Ok(&[1, 2]), 2, &[(0, 1), (1, 2)]), None);
        assert_eq!(said(Err(9), -9, &[]), None);
    }

    #[test]
    fn every_wrong_part_is_reported() {
        assert!(said(Ok(&[1, 2]), 3, &[(0, 1), (1, 2)]).is_some());
        assert!(said(Ok(&[1, 2]), 2, &[(0, 1), (1, 3)]).is_some());
        assert!(said(Ok(&[1, 2]), 2, &[(0, 1), (1, 2), (2, 3)]).is_some());
        assert!(said(Ok(&[1, 2]), 2, &[(0, 1)]).is_some());
        assert!(said(Err(9), -12, &[]).is_some());
        assert!(said(Err(9), -9, &[(7, 0)]).is_some());
    }

    #[test]
    fn free_bytes_may_be_any_and_no_others() {
        let written = Written {
            bytes: &[0, 0, 5],
            free: 2,
        };
        assert_eq!(said_of(Ok(written), 3, &[(0, 7), (2, 5)]), None);
        assert!(said_of(Ok(written), 3, &[(0, 7), (2, 6)]).is_some());
        assert!(said_of(Ok(written), 3, &[(2, 5), (3, 7)]).is_some());
    }

    #[test]
    fn an_output_that_is_too_short_is_12() {
        assert_eq!(said(Ok(&[0; 9]), -12, &[]), None);
        assert!(said(Ok(&[0; 9]), -9, &[]).is_some());
    }
}
