//! The inputs of a run, in their order, and the numbers that each is asked with.

use std::process::ExitCode;

use bounded::exports::numbers::{Asks, Numbers, Words};
use bounded::exports::pool::Pool;
use bounded::exports::stepped::MOST_LINKS;
use bounded::inputs::layout::{self, Layout};
use bounded::inputs::{
    Input, Inputs, constants, edges, large, misplaced, records, table_ends, text_bytes, texts,
};
use bounded::random::Random;
use bounded::readings::Kind;
use bounded::sheet::{MOST_BYTES, MOST_TYPES};

use crate::options::Options;
use crate::run::Run;

/// How many sets of numbers each export is asked with: about a real library, beside every set that
/// the library itself names; about an edge or a numbered input; and about any other.
const ABOUT_REAL: usize = 100;
const ABOUT_NUMBERED: usize = 4;
const ABOUT_OTHER: usize = 1;

/// How often a chain that comes round is stepped.
const STEPS_ROUND: usize = 100_000;

/// How many places around a made-up record or a drawn text are asked for.
const AROUND_RECORD: usize = 3;

/// How many texts are drawn, and the most bytes of one.
const DRAWN_TEXTS: usize = 3_000;
const LONGEST_TEXT: usize = 5_000;

/// The lengths of inputs that are noise.
const NOISE: usize = 400;

/// Numbers for the generators of inputs that have none of their own; numbered inputs count from 0.
const FOR_RECORDS: u64 = u64::MAX;
const FOR_TEXTS: u64 = u64::MAX - 1;
const FOR_NOISE: u64 = u64::MAX - 2;
const FOR_DRAWN_TEXTS: u64 = u64::MAX - 3;
const FOR_HREFTYPES: u64 = u64::MAX - 4;

/// Around these hreftypes all others are asked for that are at most so far away; and so many are drawn.
const HREFTYPES: [i32; 5] = [0, misplaced::MARK, 2 * misplaced::MARK, i32::MAX, i32::MIN];
const FAR: i32 = 1 << 16;
const DRAWN_HREFTYPES: usize = 300_000;

/// Tries everything, and prints what was found.
pub fn compare(options: &Options) -> ExitCode {
    let inputs = match &options.corpus {
        None => Inputs::new(options.seed),
        Some(folder) => Inputs::of_folder(options.seed, folder),
    };
    let mut run = Run::new(options.seed);
    if !run.drives_what_is_declared() {
        return ExitCode::FAILURE;
    }
    without_library(&mut run);
    hreftypes(&mut run, &mut inputs.random(FOR_HREFTYPES));
    for input in inputs.corpus() {
        every(&mut run, &input, ABOUT_REAL);
    }
    for input in edges::quick().into_iter().chain(table_ends::libraries()) {
        every(&mut run, &input, ABOUT_NUMBERED);
    }
    references(&mut run);
    for input in texts::libraries(&mut inputs.random(FOR_TEXTS)) {
        every(&mut run, &input, ABOUT_OTHER);
    }
    made_records(&mut run, &mut inputs.random(FOR_RECORDS));
    drawn_texts(&mut run, &mut inputs.random(FOR_DRAWN_TEXTS));
    stored_constants(&mut run);
    without_magic(&mut run, &inputs);
    beginnings(&mut run, &inputs);
    for whole in small() {
        for input in whole.bit_changes() {
            drawn(&mut run, &input, ABOUT_OTHER);
        }
    }
    for input in noise(inputs.random(FOR_NOISE)).chain(long()) {
        drawn(&mut run, &input, ABOUT_NUMBERED);
    }
    circles(&mut run);
    numbered(&mut run, &inputs, options.cases);
    run.end()
}

/// Asks the exports of a kind or a type code with every number that they can take.
fn without_library(run: &mut Run) {
    run.ask(&Input::new("no library".into(), Vec::new()), |asks, _| {
        let count = match asks {
            Asks::RawKind => 1 << u8::BITS,
            Asks::Code => 1 << u16::BITS,
            _ => 0,
        };
        (0..count).map(|number| [number, 0, 0, 0]).collect()
    });
}

/// Asks what takes an hreftype alone with all that are near the edges of its bits, and with drawn ones.
fn hreftypes(run: &mut Run, random: &mut Random) {
    let near = |middle: i32| (-FAR..=FAR).map(move |far| middle.wrapping_add(far));
    let mut all: Vec<i32> = HREFTYPES.into_iter().flat_map(near).collect();
    all.extend((0..DRAWN_HREFTYPES).map(|_| random.number() as i32));
    for count in misplaced::COUNTS {
        all.extend(misplaced::edges(count));
    }
    let numbers = by_bits(all);
    run.ask(
        &Input::new("no library".into(), Vec::new()),
        |asks, _| match asks {
            Asks::Hreftype => numbers.clone(),
            _ => Vec::new(),
        },
    );
}

/// References that hit no typeinfo, in each place of a description, and the resolvers with these and their
/// neighbours: they say what they said.
fn references(run: &mut Run) {
    for input in misplaced::places() {
        every(run, &input, ABOUT_OTHER);
    }
    for count in misplaced::COUNTS {
        let numbers = by_bits(misplaced::edges(count));
        let input = Input::new(format!("{count} types"), large::many_types(count));
        run.ask(&input, |asks, _| match asks {
            Asks::Word(Words::Reference) => numbers.clone(),
            _ => Vec::new(),
        });
    }
}

/// Hreftypes as the numbers of calls.
fn by_bits(hreftypes: Vec<i32>) -> Vec<Numbers> {
    let hreftypes = hreftypes.into_iter();
    hreftypes
        .map(|hreftype| [hreftype as u32 as usize, 0, 0, 0])
        .collect()
}

/// Asks with every set of numbers that the input names itself, and with so many drawn ones.
fn every(run: &mut Run, input: &Input, count: usize) {
    let pool = Pool::new(&input.bytes);
    run.ask(input, |asks, random| {
        let mut all = pool.every(asks, random);
        all.extend(pool.drawn(count, asks, random));
        all
    });
    run.step(input, 0, MOST_LINKS);
}

/// Asks with so many drawn sets of numbers.
fn drawn(run: &mut Run, input: &Input, count: usize) {
    let pool = Pool::new(&input.bytes);
    run.ask(input, |asks, random| pool.drawn(count, asks, random));
    run.step(input, 0, MOST_LINKS);
}

/// Chains that come round to their first record and to their last, stepped so often from a fresh cursor, and from
/// counts around the largest, where the number stays.
fn circles(run: &mut Run) {
    for (word, end) in [("comes round", 0), ("ends in a circle of one", 64)] {
        let name = format!("a chain of five that {word}");
        let input = Input::new(name, large::coclasses(1, 5, end));
        drawn(run, &input, ABOUT_OTHER);
        for count in [0, usize::MAX - 2, usize::MAX - 1, usize::MAX] {
            run.step(&input, count, STEPS_ROUND);
        }
    }
}

/// Made-up records, each at the very end of a library without tables and each alone, asked for what its
/// kind has: whole, and at places around it.
fn made_records(run: &mut Run, random: &mut Random) {
    let head = Layout::new(Vec::new()).bytes();
    for kind in Kind::ALL.into_iter().filter(|kind| kind.is_record()) {
        for record in records::records(kind, random) {
            made_record(run, kind, &head, &record);
            made_record(run, kind, &[], &record);
        }
    }
}

fn made_record(run: &mut Run, kind: Kind, head: &[u8], record: &records::Record) {
    let whole = [head.len(), record.bytes.len(), record.arg as usize, 0];
    let bytes = [head, &record.bytes].concat();
    let pool = Pool::new(&bytes);
    let input = Input::new(format!("a made-up {}", kind.name()), bytes);
    run.ask(&input, |asks, random| {
        if asks != Asks::Record(kind) {
            return Vec::new();
        }
        let mut all = pool.drawn(AROUND_RECORD, asks, random);
        all.push(whole);
        all
    });
}

/// Drawn texts, valid and damaged, asked for as a text and as a name: whole, a part, and at places around them.
fn drawn_texts(run: &mut Run, random: &mut Random) {
    for _ in 0..DRAWN_TEXTS {
        let bytes = text_bytes::drawn(LONGEST_TEXT, random);
        let length = bytes.len();
        let pool = Pool::new(&bytes);
        run.ask(&Input::new("a drawn text".into(), bytes), |asks, random| {
            let (Asks::Record(Kind::TextCheck) | Asks::Record(Kind::Name)) = asks else {
                return Vec::new();
            };
            let at = random.below(length + 1);
            let part = random.below(length - at + 1);
            let mut all = pool.drawn(AROUND_RECORD, asks, random);
            all.extend([[0, length, 0, 0], [at, part, 0, 0]]);
            all
        });
    }
}

/// A few libraries without their magic, which are none, asked with every set of numbers that the whole
/// one names: their records and cursors can still be read.
fn without_magic(run: &mut Run, inputs: &Inputs) {
    for whole in inputs.cut_everywhere() {
        let pool = Pool::new(&whole.bytes);
        let mut bytes = whole.bytes;
        bytes[0] = 0;
        let input = Input::new(format!("{} without its magic", whole.name), bytes);
        run.ask(&input, |asks, random| pool.every(asks, random));
    }
}

/// Stored constants of every code, whole and cut.
fn stored_constants(run: &mut Run) {
    for input in constants::libraries() {
        run.ask(&input, |asks, _| match asks {
            Asks::Word(Words::Constant) => vec![[0; 4]],
            _ => Vec::new(),
        });
    }
}

/// Every beginning of a few libraries, asked with numbers that it names itself and with numbers that
/// the whole library names.
fn beginnings(run: &mut Run, inputs: &Inputs) {
    for whole in inputs.cut_everywhere() {
        let of_whole = Pool::new(&whole.bytes);
        for length in 0..whole.bytes.len() {
            let input = whole.beginning(length);
            let pool = Pool::new(&input.bytes);
            run.ask(&input, |asks, random| {
                let mut all = pool.drawn(ABOUT_OTHER, asks, random);
                all.extend(of_whole.drawn(ABOUT_OTHER, asks, random));
                all
            });
        }
    }
}

/// Libraries of which every bit is changed: without tables, so that a bit of the header decides whether
/// they are long enough, and with members, names, texts and an import.
fn small() -> impl Iterator<Item = Input> {
    let no_types = Layout::new(Vec::new());
    let mut with_help = Layout::new(Vec::new());
    with_help.header_word(layout::VARFLAGS, layout::HELP_DLL);
    let one_type = Layout::new(vec![0]);
    [
        ("no types", no_types.bytes()),
        ("no types, a help DLL", with_help.bytes()),
        ("one type, no tables", one_type.bytes()),
        ("one text", texts::library(b"text", 0)),
    ]
    .into_iter()
    .map(|(word, bytes)| Input::new(word.into(), bytes))
}

/// Bytes that are no library, behind the magic or not.
fn noise(mut random: Random) -> impl Iterator<Item = Input> {
    (0..NOISE).flat_map(move |length| {
        let noise = random.bytes(length);
        let mut after_magic = noise.clone();
        let magic = length.min(4);
        after_magic[..magic].copy_from_slice(&b"MSFT"[..magic]);
        [noise, after_magic].map(|bytes| Input::new("noise".into(), bytes))
    })
}

/// Inputs as long as they may be, longer, with too many types, and with long chains and tables. The
/// longer one could be read; it is document 01 that has every export refuse it.
fn long() -> impl Iterator<Item = Input> {
    let padded = [MOST_BYTES, MOST_BYTES + 1]
        .map(|length| Input::new(format!("{length} bytes"), edges::padded(length)));
    let tables = [
        ("too many types", large::many_types(MOST_TYPES + 1)),
        ("many functions", large::many_functions(2)),
        ("many names", large::many_names()),
    ]
    .map(|(word, bytes)| Input::new(word.into(), bytes));
    padded.into_iter().chain(edges::chains()).chain(tables)
}

/// Damaged and made-up libraries, until these make so many cases.
fn numbered(run: &mut Run, inputs: &Inputs, cases: u64) {
    let before = run.cases();
    let mut number = 0;
    while run.cases() - before < cases && !run.is_hopeless() {
        let input = inputs.input(number);
        let name = format!("input {number} ({})", input.name);
        drawn(run, &Input::new(name, input.bytes), ABOUT_NUMBERED);
        number += 1;
    }
}
