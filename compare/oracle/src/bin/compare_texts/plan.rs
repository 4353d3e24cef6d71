//! The texts of a run, in their order.

use std::process::ExitCode;

use msft_typelib::inputs::records;
use msft_typelib::inputs::text_bytes::{EDGE_BYTES, drawn};
use msft_typelib::random::Random;
use msft_typelib::readings::Kind;

use crate::options::Options;
use crate::run::Run;

/// The longest drawn text.
const LONGEST: usize = 1 << 16;

/// Tries everything, and prints what was found.
pub fn compare(options: &Options) -> ExitCode {
    let mut run = Run::new();
    let mut random = Random::new(options.seed);
    let any: Vec<u8> = (0..=u8::MAX).collect();
    for length in 0..=3 {
        run.all_of(&any, length);
    }
    run.end_part("all of up to 3 bytes");
    run.all_of(&EDGE_BYTES, 4);
    run.end_part("all of 4 bytes at the edges");
    for text in records::records(Kind::TextCheck, &mut random) {
        run.outputs(&text.bytes);
    }
    run.end_part("with each output");
    for _ in 0..options.count {
        drawn_text(&mut run, &mut random);
    }
    run.end_part("drawn, and parts of them");
    run.end()
}

/// A drawn text, and a part of it that may begin and end in a character.
fn drawn_text(run: &mut Run, random: &mut Random) {
    let text = drawn(LONGEST, random);
    let at = random.below(text.len() + 1);
    let len = random.below(text.len() - at + 1);
    run.part(&text, 0, text.len());
    run.part(&text, at, len);
}
