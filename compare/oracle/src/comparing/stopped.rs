//! Says which input was being tried when the program is stopped by a signal: a product that
//! touches a guard page, overflows its stack or does not end takes the comparison with it.

use std::ffi::c_void;
use std::sync::atomic::{AtomicU8, Ordering};
use std::{iter, ptr};

/// How long one input may take, in seconds.
const MOST_SECONDS: u32 = 600;

/// Signals that stop a program: illegal instruction, abort, bus error, arithmetic, bad address,
/// and the alarm.
const SIGNALS: [i32; 6] = [4, 6, 7, 8, 11, 14];

/// Use the stack set aside for signals, as the usual one may be used up (SA_ONSTACK).
const ON_OTHER_STACK: i32 = 0x0800_0000;

const STANDARD_ERROR: i32 = 2;

/// The most bytes of what is said.
const MOST_WORDS: usize = 300;

/// What is being tried, where the handler can read it.
static WORDS: [AtomicU8; MOST_WORDS] = [const { AtomicU8::new(b' ') }; MOST_WORDS];

/// `struct sigaction` of glibc on x86-64.
#[repr(C)]
struct Action {
    handler: extern "C" fn(i32),
    mask: [u64; 16],
    flags: i32,
    restorer: usize,
}

unsafe extern "C" {
    fn sigaction(signal: i32, action: *const Action, old: *mut Action) -> i32;
    fn alarm(seconds: u32) -> u32;
    fn write(file: i32, bytes: *const c_void, count: usize) -> isize;
    fn _exit(status: i32) -> !;
}

/// Sets the handlers.
pub fn watch_for_signals() {
    let action = Action {
        handler: say_what_was_tried,
        mask: [0; 16],
        flags: ON_OTHER_STACK,
        restorer: 0,
    };
    for signal in SIGNALS {
        // The handler makes only calls that a handler may make.
        let set = unsafe { sigaction(signal, &action, ptr::null_mut()) };
        assert_eq!(set, 0, "the signal can be handled");
    }
}

/// Remembers what is tried from now on, and starts its time anew.
pub fn trying(what: &str) {
    let words = format!("stopped by a signal at {what}");
    let padded = words.bytes().chain(iter::repeat(b' '));
    for (place, byte) in WORDS.iter().zip(padded) {
        place.store(byte, Ordering::Relaxed);
    }
    // Only sets a timer.
    unsafe { alarm(MOST_SECONDS) };
}

/// Nothing is tried any more.
pub fn done() {
    unsafe { alarm(0) };
}

extern "C" fn say_what_was_tried(_signal: i32) {
    let mut words = [b' '; MOST_WORDS + 1];
    let mut length = 0;
    for (at, place) in WORDS.iter().enumerate() {
        words[at] = place.load(Ordering::Relaxed);
        if words[at] != b' ' {
            length = at + 1;
        }
    }
    words[length] = b'\n';
    // Both calls may be made from a handler.
    unsafe {
        write(STANDARD_ERROR, words.as_ptr().cast(), length + 1);
        _exit(1);
    }
}
