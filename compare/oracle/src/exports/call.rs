//! The forms that the exports have, and a call of each.

use super::numbers::Numbers;

/// An export by the numbers that it takes beside the library, and whether it has an output. One that takes a
/// cursor over a table, over a block of records or along a chain has its count last.
#[derive(Clone, Copy)]
pub enum Call {
    Lib(unsafe extern "C" fn(*const u8, usize) -> i64),
    LibOut(unsafe extern "C" fn(*const u8, usize, *mut u8, usize) -> i64),
    One(unsafe extern "C" fn(*const u8, usize, usize) -> i64),
    OneOut(unsafe extern "C" fn(*const u8, usize, usize, *mut u8, usize) -> i64),
    WordOut(unsafe extern "C" fn(*const u8, usize, i32, *mut u8, usize) -> i64),
    Two(unsafe extern "C" fn(*const u8, usize, usize, usize) -> i64),
    TwoOut(unsafe extern "C" fn(*const u8, usize, usize, usize, *mut u8, usize) -> i64),
    Three(unsafe extern "C" fn(*const u8, usize, usize, usize, usize) -> i64),
    ThreeOut(unsafe extern "C" fn(*const u8, usize, usize, usize, usize, *mut u8, usize) -> i64),
    TableOut(unsafe extern "C" fn(*const u8, usize, usize, usize, u64, *mut u8, usize) -> i64),
    BlockOut(
        unsafe extern "C" fn(*const u8, usize, usize, usize, usize, u64, *mut u8, usize) -> i64,
    ),
    ChainOut(unsafe extern "C" fn(*const u8, usize, usize, usize, u32, u64, *mut u8, usize) -> i64),
    Kind(unsafe extern "C" fn(u8) -> i64),
    KindOut(unsafe extern "C" fn(u8, *mut u8, usize) -> i64),
    CodeOut(unsafe extern "C" fn(u16, *mut u8, usize) -> i64),
    Hreftype(unsafe extern "C" fn(i32) -> i64),
}

/// Declares the export with the types of its form and gives the call.
macro_rules! linked {
    (Lib $name:ident) => { linked!(@ Lib $name; *const u8, usize) };
    (LibOut $name:ident) => { linked!(@ LibOut $name; *const u8, usize, *mut u8, usize) };
    (One $name:ident) => { linked!(@ One $name; *const u8, usize, usize) };
    (OneOut $name:ident) => { linked!(@ OneOut $name; *const u8, usize, usize, *mut u8, usize) };
    (WordOut $name:ident) => { linked!(@ WordOut $name; *const u8, usize, i32, *mut u8, usize) };
    (Two $name:ident) => { linked!(@ Two $name; *const u8, usize, usize, usize) };
    (TwoOut $name:ident) => {
        linked!(@ TwoOut $name; *const u8, usize, usize, usize, *mut u8, usize)
    };
    (Three $name:ident) => { linked!(@ Three $name; *const u8, usize, usize, usize, usize) };
    (ThreeOut $name:ident) => {
        linked!(@ ThreeOut $name; *const u8, usize, usize, usize, usize, *mut u8, usize)
    };
    (TableOut $name:ident) => {
        linked!(@ TableOut $name; *const u8, usize, usize, usize, u64, *mut u8, usize)
    };
    (BlockOut $name:ident) => {
        linked!(@ BlockOut $name; *const u8, usize, usize, usize, usize, u64, *mut u8, usize)
    };
    (ChainOut $name:ident) => {
        linked!(@ ChainOut $name; *const u8, usize, usize, usize, u32, u64, *mut u8, usize)
    };
    (Kind $name:ident) => { linked!(@ Kind $name; u8) };
    (KindOut $name:ident) => { linked!(@ KindOut $name; u8, *mut u8, usize) };
    (CodeOut $name:ident) => { linked!(@ CodeOut $name; u16, *mut u8, usize) };
    (Hreftype $name:ident) => { linked!(@ Hreftype $name; i32) };
    (@ $form:ident $name:ident; $($parameter:ty),*) => {{
        unsafe extern "C" {
            fn $name($(_: $parameter),*) -> i64;
        }
        $crate::exports::call::Call::$form($name)
    }};
}

pub(super) use linked;

impl Call {
    /// The types of the parameters as the header has them.
    pub fn c_types(&self) -> &'static [&'static str] {
        const LIB: &str = "const uint8_t *";
        const OUT: &str = "uint8_t *";
        const SIZE: &str = "size_t";
        const COUNT: &str = "uint64_t";
        match self {
            Call::Lib(_) => &[LIB, SIZE],
            Call::LibOut(_) => &[LIB, SIZE, OUT, SIZE],
            Call::One(_) => &[LIB, SIZE, SIZE],
            Call::OneOut(_) => &[LIB, SIZE, SIZE, OUT, SIZE],
            Call::WordOut(_) => &[LIB, SIZE, "int32_t", OUT, SIZE],
            Call::Two(_) => &[LIB, SIZE, SIZE, SIZE],
            Call::TwoOut(_) => &[LIB, SIZE, SIZE, SIZE, OUT, SIZE],
            Call::Three(_) => &[LIB, SIZE, SIZE, SIZE, SIZE],
            Call::ThreeOut(_) => &[LIB, SIZE, SIZE, SIZE, SIZE, OUT, SIZE],
            Call::TableOut(_) => &[LIB, SIZE, SIZE, SIZE, COUNT, OUT, SIZE],
            Call::BlockOut(_) => &[LIB, SIZE, SIZE, SIZE, SIZE, COUNT, OUT, SIZE],
            Call::ChainOut(_) => &[LIB, SIZE, SIZE, SIZE, "uint32_t", COUNT, OUT, SIZE],
            Call::Kind(_) => &["uint8_t"],
            Call::KindOut(_) => &["uint8_t", OUT, SIZE],
            Call::CodeOut(_) => &["uint16_t", OUT, SIZE],
            Call::Hreftype(_) => &["int32_t"],
        }
    }

    pub fn takes_library(&self) -> bool {
        !matches!(
            self,
            Call::Kind(_) | Call::KindOut(_) | Call::CodeOut(_) | Call::Hreftype(_)
        )
    }

    /// Whether values are written, and not replied.
    pub fn has_output(&self) -> bool {
        !matches!(
            self,
            Call::Lib(_)
                | Call::One(_)
                | Call::Two(_)
                | Call::Three(_)
                | Call::Kind(_)
                | Call::Hreftype(_)
        )
    }

    /// The product's reply. Numbers that the form does not take are left out, and those of a
    /// narrower type are given by their low bits.
    pub fn reply(&self, lib: &[u8], [a, b, c, d]: Numbers, out: &mut [u8]) -> i64 {
        let (at, n) = (lib.as_ptr(), lib.len());
        let (to, room) = (out.as_mut_ptr(), out.len());
        // The calls read the library's bytes and write the output's alone; that they do no more is
        // what the comparison places them before a guard page for.
        unsafe {
            match *self {
                Call::Lib(call) => call(at, n),
                Call::LibOut(call) => call(at, n, to, room),
                Call::One(call) => call(at, n, a),
                Call::OneOut(call) => call(at, n, a, to, room),
                Call::WordOut(call) => call(at, n, a as i32, to, room),
                Call::Two(call) => call(at, n, a, b),
                Call::TwoOut(call) => call(at, n, a, b, to, room),
                Call::Three(call) => call(at, n, a, b, c),
                Call::ThreeOut(call) => call(at, n, a, b, c, to, room),
                Call::TableOut(call) => call(at, n, a, b, c as u64, to, room),
                Call::BlockOut(call) => call(at, n, a, b, c, d as u64, to, room),
                Call::ChainOut(call) => call(at, n, a, b, c as u32, d as u64, to, room),
                Call::Kind(call) => call(a as u8),
                Call::KindOut(call) => call(a as u8, to, room),
                Call::CodeOut(call) => call(a as u16, to, room),
                Call::Hreftype(call) => call(a as i32),
            }
        }
    }
}
