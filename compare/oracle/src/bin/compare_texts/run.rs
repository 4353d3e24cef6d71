//! One run of comparisons: what was tried, how the texts end, and what differed.

use std::mem;
use std::process::ExitCode;
use std::time::{Duration, Instant};

use msft_typelib::comparing::guarded::Side;
use msft_typelib::comparing::lent::Lent;
use msft_typelib::comparing::shrink::shrink;
use msft_typelib::comparing::{report, stopped};
use msft_typelib::exports;
use msft_typelib::exports::call::Call;
use msft_typelib::inputs::text_bytes::strings;
use msft_typelib::text_check::{TextCheck, text_check};

use crate::ends::Ends;

/// The export that checks a text.
const CHECK: &str = "msft_text_check";

/// How many short texts are lent at once.
const AT_ONCE: usize = 1 << 20;

/// The longest of the outputs that are all tried.
const LONGEST_OUTPUT: usize = 10;

/// What an output holds before a short text is checked.
const BEFORE: u8 = 0xAA;

/// How many differences are shown, and how many bytes of a text that differs.
const MOST_SHOWN: usize = 5;
const SHOWN_BYTES: usize = 16;

/// How long a smaller text is sought for one that differs.
const SHRINKING: Duration = Duration::from_secs(5);

pub struct Run {
    call: Call,
    lent: Lent,
    /// The ends in the part of the run that is on.
    ends: Ends,
    /// The parts in which some end did not come up.
    lacking: Vec<&'static str>,
    texts: u64,
    differences: usize,
    started: Instant,
}

impl Run {
    pub fn new() -> Self {
        let export = exports::all().into_iter().find(|one| one.name == CHECK);
        Run {
            call: export.expect("the check is driven").call,
            lent: Lent::default(),
            ends: Ends::default(),
            lacking: Vec::new(),
            texts: 0,
            differences: 0,
            started: Instant::now(),
        }
    }

    /// All texts of so many of the given bytes. Many are lent at once, one behind another: a check that goes on behind its
    /// text finds the next one.
    pub fn all_of(&mut self, bytes: &[u8], length: u32) {
        stopped::trying(&format!("texts of {length} bytes"));
        let mut texts = strings(bytes, length).peekable();
        while texts.peek().is_some() {
            let block: Vec<Vec<u8>> = texts.by_ref().take(AT_ONCE).collect();
            self.lent.hold(&block.concat(), Side::End);
            for (number, text) in block.iter().enumerate() {
                self.lent_text(text, number * text.len());
            }
        }
    }

    /// The text that lies at this place of what is lent.
    fn lent_text(&mut self, text: &[u8], at: usize) {
        self.ends.add(text);
        let numbers = [at, text.len(), 0, 0];
        let mut out = [BEFORE; TextCheck::BYTES];
        let call = &self.call;
        let reply = self.lent.reply(|lib| call.reply(lib, numbers, &mut out));
        let right = text_check(text).bytes();
        if reply != TextCheck::BYTES as i64 || out != right {
            let wrong = format!("reply {reply} and {out:x?}, the Rust's {right:x?}");
            self.show(text, &wrong);
        }
    }

    /// The text alone, with an output of every length around what is written.
    pub fn outputs(&mut self, text: &[u8]) {
        self.ends.add(text);
        self.lent.hold(text, Side::Start);
        let right = text_check(text).bytes();
        let expected = Ok(right.as_slice().into());
        let numbers = [0, text.len(), 0, 0];
        let call = |lib: &[u8], out: &mut [u8]| self.call.reply(lib, numbers, out);
        let wrong = (0..=LONGEST_OUTPUT)
            .find_map(|room| self.lent.difference_at(expected, room, Side::End, &call));
        if let Some(wrong) = wrong {
            self.show(text, &wrong);
        }
    }

    /// The text that lies at a place of the bytes, which may be many.
    pub fn part(&mut self, bytes: &[u8], at: usize, len: usize) {
        stopped::trying(&format!("{len} bytes at {at} of {}", bytes.len()));
        let text = &bytes[at..at + len];
        self.ends.add(text);
        if let Some(wrong) = self.difference(bytes, at, len) {
            self.show(text, &wrong);
            self.show_smaller(text);
        }
    }

    /// What is wrong with the check of the text at a place of the bytes.
    fn difference(&mut self, bytes: &[u8], at: usize, len: usize) -> Option<String> {
        self.lent.hold(bytes, Side::End);
        let right = text_check(&bytes[at..at + len]).bytes();
        let expected = Ok(right.as_slice().into());
        let call = |lib: &[u8], out: &mut [u8]| self.call.reply(lib, [at, len, 0, 0], out);
        self.lent.difference(expected, right.len(), call)
    }

    fn show(&mut self, text: &[u8], wrong: &str) {
        self.differences += 1;
        if self.differences <= MOST_SHOWN {
            let beginning = &text[..text.len().min(SHOWN_BYTES)];
            println!(
                "DIFFERENCE at {} bytes, {beginning:02x?}: {wrong}",
                text.len()
            );
        }
    }

    /// Seeks a smaller text that differs alone, and shows it.
    fn show_smaller(&mut self, text: &[u8]) {
        if self.differences <= MOST_SHOWN {
            let differs = |text: &[u8]| self.difference(text, 0, text.len()).is_some();
            let small = shrink(text, SHRINKING, differs);
            report::keep(&small, self.differences);
        }
    }

    /// Prints what a part of the run tried, and begins the next.
    pub fn end_part(&mut self, name: &'static str) {
        let ends = mem::take(&mut self.ends);
        println!("{name}: {ends}");
        self.texts += ends.count();
        if !ends.has_all() {
            self.lacking.push(name);
        }
    }

    /// Prints the counts.
    pub fn end(self) -> ExitCode {
        stopped::done();
        let seconds = self.started.elapsed().as_secs_f64();
        println!("{} texts in {seconds:.1} s", self.texts);
        for part in &self.lacking {
            println!("an end did not come up: {part}");
        }
        println!("texts that differ: {}", self.differences);
        match self.differences == 0 && self.lacking.is_empty() {
            true => ExitCode::SUCCESS,
            false => ExitCode::FAILURE,
        }
    }
}
