//! Compares the product's call for a sheet with the reference's sheet, that for the figures with the reference's
//! figures, and the product's two calls with each other.

use std::cell::Cell;

use bounded::comparing::guarded::Side;
use bounded::comparing::lent::{Expected, Lent, Written};
use bounded::figures::{BYTES, Figures};
use bounded::product;
use bounded::sheet::{MOST_BYTES, refusal};

/// How long an output is lent where the reply is a refusal at any length.
const ROOM_FOR_REFUSED: usize = 4096;

/// The outputs that are lent for figures: just long enough, a byte short, a byte longer, and none.
const ROOMS: [(usize, Side); 4] = [
    (BYTES, Side::End),
    (BYTES - 1, Side::End),
    (BYTES + 1, Side::Start),
    (0, Side::End),
];

/// What is wrong with the product's replies to this input, with the library at either guard page. Without a sheet, the
/// figures alone are asked for.
pub fn difference(
    lent: &mut Lent,
    input: &[u8],
    sheet: Option<&Result<Vec<u8>, u8>>,
    figures: Result<Figures, u8>,
) -> Option<String> {
    lent.hold(input, side(input));
    let (wrote, promised) = (Cell::new(None), Cell::new(None));
    sheet
        .and_then(|sheet| sheet_difference(lent, sheet, &wrote))
        .or_else(|| figures_difference(lent, figures, &promised))
        .or_else(|| broken_promise(wrote.get()?, promised.get()))
}

/// What is wrong with the product's sheet. The length of one that it writes is kept.
fn sheet_difference(
    lent: &mut Lent,
    expected: &Result<Vec<u8>, u8>,
    wrote: &Cell<Option<i64>>,
) -> Option<String> {
    let room = match expected {
        Err(refusal::NO_SPACE) => MOST_BYTES,
        _ => ROOM_FOR_REFUSED,
    };
    let expected = expected.as_deref().map(Written::from);
    let expected = expected.map_err(|number| *number);
    lent.difference(expected, room, |lib, out| {
        let reply = product::sheet(lib, out);
        if reply >= 0 {
            wrote.set(Some(reply));
        }
        reply
    })
}

/// What is wrong with the product's figures. The length that they give is kept.
fn figures_difference(
    lent: &mut Lent,
    figures: Result<Figures, u8>,
    promised: &Cell<Option<i64>>,
) -> Option<String> {
    let bytes = figures.map(Figures::bytes);
    let expected: Expected = match &bytes {
        Ok(bytes) => Ok(bytes.as_slice().into()),
        Err(number) => Err(*number),
    };
    let last = Cell::new(None);
    let call = |lib: &[u8], out: &mut [u8]| {
        let reply = product::figures(lib, out);
        if reply == BYTES as i64 && out.len() >= BYTES {
            let given = given(out);
            promised.set(Some(i64::from(given[0])));
            last.set(Some(given));
        }
        reply
    };
    let mut rooms = ROOMS.into_iter();
    let wrong = rooms.find_map(|(room, side)| lent.difference_at(expected, room, side, &call));
    wrong.map(|wrong| {
        let (given, right) = (last.get(), figures.map(Figures::given));
        format!("figures: {wrong}; the last given {given:?}, the Rust's {right:?}")
    })
}

/// The figures that an output begins with.
fn given(out: &[u8]) -> [u32; BYTES / 4] {
    let mut given = [0; BYTES / 4];
    for (figure, bytes) in given.iter_mut().zip(out.chunks_exact(4)) {
        *figure = u32::from_le_bytes(bytes.try_into().expect("four bytes"));
    }
    given
}

/// What the product says of a sheet that it wrote itself.
fn broken_promise(wrote: i64, promised: Option<i64>) -> Option<String> {
    let is_kept = promised == Some(wrote);
    (!is_kept).then(|| format!("a sheet of {wrote} bytes was written, promised {promised:?}"))
}

/// Most inputs touch the guard page behind them, some the one before.
fn side(input: &[u8]) -> Side {
    match input.len() % 4 {
        3 => Side::Start,
        _ => Side::End,
    }
}
