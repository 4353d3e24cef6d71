//! The product's calls that are timed, and those of its sheet and the sheet's figures. They are linked only if the build names
//! its static library.

use std::array;

/// An output for any reading but the sheet, and the numbers in it.
pub struct Out([u8; 80]);

impl Default for Out {
    fn default() -> Self {
        Out([0; 80])
    }
}

impl Out {
    /// The numbers of eight bytes from this byte on.
    fn numbers<const N: usize>(&self, at: usize) -> [usize; N] {
        array::from_fn(|index| {
            let bytes = self.0[at + 8 * index..][..8].try_into();
            u64::from_le_bytes(bytes.expect("eight bytes")) as usize
        })
    }
}

/// Declares calls by the numbers that they take beside the library, and gives each a safe form. The
/// calls read the library's bytes and write the output's alone; that they do no more is what the
/// comparison places them before a guard page for.
macro_rules! calls {
    ($($name:ident $linked:ident($($number:ident: $ty:ty),*)),* $(,)?) => {
        unsafe extern "C" {
            $(fn $linked(lib: *const u8, n: usize, $($number: $ty,)* out: *mut u8, room: usize) -> i64;)*
        }
        mod raw {
            $(pub fn $name(lib: &[u8], $($number: $ty,)* out: &mut [u8]) -> i64 {
                let (to, room) = (out.as_mut_ptr(), out.len());
                unsafe { super::$linked(lib.as_ptr(), lib.len(), $($number,)* to, room) }
            })*
        }
    };
}

calls! {
    sheet msft_sheet(),
    figures msft_sheet_figures(),
    typeinfo msft_typeinfo(index: usize),
    impl_types msft_impl_types(at: usize, len: usize),
    walk msft_walk(at: usize, len: usize, next: u32, yielded: u64),
    member_name msft_member_name(index: usize, k: usize),
    funcs msft_funcs(at: usize, len: usize),
    func_step msft_func_step(pos: usize, end: usize, remaining: usize, yielded: u64),
    names msft_names(),
    name_step msft_name_step(pos: usize, end: usize, start: usize, yielded: u64),
    name msft_name(offset: i32),
    name_bytes msft_name_bytes(offset: i32),
    string msft_string(offset: i32),
    const_value msft_const_value(word: i32),
    text_check msft_text_check(at: usize, len: usize),
}

unsafe extern "C" {
    fn msft_parse(lib: *const u8, n: usize) -> i64;
    fn msft_version(lib: *const u8, n: usize) -> i64;
    fn msft_typeinfo_flags(lib: *const u8, n: usize, at: usize, len: usize) -> i64;
    fn msft_typeinfo_count(lib: *const u8, n: usize) -> i64;
}

/// The product's reply to a sheet call on these bytes.
pub fn sheet(lib: &[u8], out: &mut [u8]) -> i64 {
    raw::sheet(lib, out)
}

/// The product's reply to a call for the figures of these bytes' sheet.
pub fn figures(lib: &[u8], out: &mut [u8]) -> i64 {
    raw::figures(lib, out)
}

pub fn parse(lib: &[u8]) -> i64 {
    unsafe { msft_parse(lib.as_ptr(), lib.len()) }
}

pub fn version(lib: &[u8]) -> i64 {
    unsafe { msft_version(lib.as_ptr(), lib.len()) }
}

pub fn typeinfo_flags(lib: &[u8], at: usize, len: usize) -> i64 {
    unsafe { msft_typeinfo_flags(lib.as_ptr(), lib.len(), at, len) }
}

pub fn typeinfo_count(lib: &[u8]) -> usize {
    let count = unsafe { msft_typeinfo_count(lib.as_ptr(), lib.len()) };
    usize::try_from(count).unwrap_or(0)
}

/// A typeinfo's place and length.
pub fn typeinfo(lib: &[u8], index: usize, out: &mut Out) -> Option<(usize, usize)> {
    let reply = raw::typeinfo(lib, index, &mut out.0);
    let [at, len] = out.numbers(0);
    (reply > 0).then_some((at, len))
}

/// The cursor at the first type that a typeinfo implements; its next offset has four bytes.
pub fn impl_types(lib: &[u8], at: usize, len: usize, out: &mut Out) -> Option<[usize; 4]> {
    let reply = raw::impl_types(lib, at, len, &mut out.0);
    let [at, len, next] = out.numbers(0);
    let [yielded] = out.numbers(20);
    (reply > 0).then_some([at, len, next as u32 as usize, yielded])
}

pub fn walk(lib: &[u8], [at, len, next, yielded]: [usize; 4], out: &mut Out) -> Option<usize> {
    let reply = raw::walk(lib, at, len, next as u32, yielded as u64, &mut out.0);
    let [count] = out.numbers(0);
    (reply > 0).then_some(count)
}

/// The length of a member's name.
pub fn member_name(lib: &[u8], index: usize, k: usize, out: &mut Out) -> Option<usize> {
    let reply = raw::member_name(lib, index, k, &mut out.0);
    let [_, len] = out.numbers(0);
    (reply > 0).then_some(len)
}

/// The cursor at a typeinfo's first function.
pub fn funcs(lib: &[u8], at: usize, len: usize, out: &mut Out) -> Option<[usize; 4]> {
    let reply = raw::funcs(lib, at, len, &mut out.0);
    (reply > 0).then(|| out.numbers(0))
}

/// The cursor behind the function at this one.
pub fn func_step(
    lib: &[u8],
    [pos, end, left, yielded]: [usize; 4],
    out: &mut Out,
) -> Option<[usize; 4]> {
    let reply = raw::func_step(lib, pos, end, left, yielded as u64, &mut out.0);
    (reply > 0).then(|| out.numbers(24))
}

/// The cursor at the first name.
pub fn names(lib: &[u8], out: &mut Out) -> [usize; 4] {
    raw::names(lib, &mut out.0);
    out.numbers(0)
}

/// The cursor behind the name at this one.
pub fn name_step(
    lib: &[u8],
    [pos, end, start, yielded]: [usize; 4],
    out: &mut Out,
) -> Option<[usize; 4]> {
    let reply = raw::name_step(lib, pos, end, start, yielded as u64, &mut out.0);
    (reply > 0).then(|| out.numbers(43))
}

/// The length of the name at an offset; 0 where there is none.
pub fn name(lib: &[u8], offset: i32, out: &mut Out) -> u64 {
    let reply = raw::name(lib, offset, &mut out.0);
    length(reply, out)
}

pub fn name_bytes(lib: &[u8], offset: i32, out: &mut Out) -> u64 {
    let reply = raw::name_bytes(lib, offset, &mut out.0);
    length(reply, out)
}

/// The length of the string at an offset; 0 where there is none.
pub fn string(lib: &[u8], offset: i32, out: &mut Out) -> u64 {
    let reply = raw::string(lib, offset, &mut out.0);
    length(reply, out)
}

/// The code of a constant's type; 0 where there is none.
pub fn constant(lib: &[u8], word: i32, out: &mut Out) -> u64 {
    match raw::const_value(lib, word, &mut out.0) {
        1.. => u64::from(u16::from_le_bytes([out.0[0], out.0[1]])),
        _ => 0,
    }
}

/// How many bytes of the text at a place are looked at, if it is valid; else 0.
pub fn text_check(lib: &[u8], at: usize, len: usize, out: &mut Out) -> u64 {
    let reply = raw::text_check(lib, at, len, &mut out.0);
    let [looked] = out.numbers(1);
    match (reply, out.0[0]) {
        (1.., 1) => looked as u64,
        _ => 0,
    }
}

/// The length of the place that was written.
fn length(reply: i64, out: &Out) -> u64 {
    let [_, len] = out.numbers(0);
    match reply {
        1.. => len as u64,
        _ => 0,
    }
}
