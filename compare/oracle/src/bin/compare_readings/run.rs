//! One run of comparisons: what was tried, what came up, and what differed.

use std::collections::{BTreeMap, BTreeSet};
use std::process::ExitCode;
use std::time::{Duration, Instant};

use bounded::bounds::{Notes, Read, noting};
use bounded::c_header::{self, Declared};
use bounded::comparing::guarded::Side;
use bounded::comparing::kinds::Kinds;
use bounded::comparing::lent::{Lent, Written};
use bounded::comparing::shrink::shrink;
use bounded::comparing::{report, stopped};
use bounded::exports::answer::Answer;
use bounded::exports::numbers::{Asks, Numbers};
use bounded::exports::{self, Export, Parsed, stepped};
use bounded::inputs::Input;
use bounded::random::Random;
use bounded::sheet::{MOST_BYTES, refusal};

use msft_typelib::exports as own;

use crate::tally::{self, Tally};

/// How many exports may differ before a run is given up.
const MOST_DIFFERENCES: usize = 12;

/// How long a smaller input is sought for one that differs.
const SHRINKING: Duration = Duration::from_secs(5);

/// How long an output is lent where the reply is a refusal at any length.
const ROOM_FOR_REFUSED: usize = 64;

/// The bytes of a cursor's last two numbers.
const LAST_NUMBERS: usize = 16;

/// An export, the same over the reference as it is, and what was counted of it.
struct Driven {
    export: Export,
    own: own::Export,
    tally: Tally,
    differs: bool,
}

/// An input as the reference reads it, kept to its tables and as it is.
struct Both<'a> {
    kept: Parsed<'a>,
    own: own::Parsed<'a>,
}

impl<'a> Both<'a> {
    fn new(bytes: &'a [u8]) -> Self {
        Both {
            kept: Parsed::new(bytes),
            own: own::Parsed::new(bytes),
        }
    }
}

pub struct Run {
    driven: Vec<Driven>,
    declared: Vec<Declared>,
    kinds: Kinds,
    /// The cases in which something was cut, and what.
    cut_cases: u64,
    cut: Notes,
    /// How often cursors were stepped from their start, by the export that steps.
    stepped: BTreeMap<&'static str, usize>,
    inputs: u64,
    random: Random,
    lent: Lent,
    started: Instant,
}

impl Run {
    pub fn new(seed: u64) -> Self {
        let declared = c_header::declared();
        let driven = |(export, own)| Driven {
            tally: Tally::new(&export, &declared),
            export,
            own,
            differs: false,
        };
        let both = exports::all().into_iter().zip(own::all());
        Run {
            driven: both.map(driven).collect(),
            declared,
            kinds: Kinds::default(),
            cut_cases: 0,
            cut: Notes::default(),
            stepped: BTreeMap::new(),
            inputs: 0,
            random: Random::new(seed),
            lent: Lent::default(),
            started: Instant::now(),
        }
    }

    pub fn cases(&self) -> u64 {
        self.driven.iter().map(|driven| driven.tally.cases()).sum()
    }

    fn differing(&self) -> usize {
        self.driven.iter().filter(|driven| driven.differs).count()
    }

    /// Whether so much differs that more would say nothing new.
    pub fn is_hopeless(&self) -> bool {
        self.differing() >= MOST_DIFFERENCES
    }

    /// Whether the exports that are driven are just those that the header declares, with the
    /// parameters that it gives them; says which are not.
    pub fn drives_what_is_declared(&self) -> bool {
        let form = |name: &str, types: String| format!("{name}({types})");
        let exports = self.driven.iter().map(|driven| &driven.export);
        let driven: BTreeSet<String> = exports
            .map(|export| form(export.name, export.call.c_types().join(", ")))
            .collect();
        let declared = self.declared.iter();
        let declared: BTreeSet<String> = declared
            .map(|export| form(&export.name, export.types.join(", ")))
            .collect();
        for form in declared.difference(&driven) {
            println!("declared but not driven: {form}");
        }
        for form in driven.difference(&declared) {
            println!("driven but not declared: {form}");
        }
        driven == declared && driven.len() == self.driven.len()
    }

    /// Lends the input to the product, and asks each export about it with the numbers that are given
    /// for what its own mean. Most inputs touch the guard page behind them, some the one before.
    pub fn ask(&mut self, input: &Input, numbers: impl Fn(Asks, &mut Random) -> Vec<Numbers>) {
        self.inputs += 1;
        let side = match self.inputs % 4 {
            0 => Side::Start,
            _ => Side::End,
        };
        self.lent.hold(&input.bytes, side);
        let both = Both::new(&input.bytes);
        let cut_before = self.cut_cases;
        self.ask_all(&both, &input.name, numbers);
        self.kinds.add(self.cut_cases > cut_before);
    }

    fn ask_all(
        &mut self,
        input: &Both,
        name: &str,
        numbers: impl Fn(Asks, &mut Random) -> Vec<Numbers>,
    ) {
        for at in 0..self.driven.len() {
            if self.is_hopeless() {
                return;
            }
            let export = &self.driven[at].export;
            let asked = numbers(export.asks, &mut self.random);
            stopped::trying(&format!("{}, {name}", export.name));
            for numbers in asked {
                self.case(at, input, numbers, name);
            }
        }
    }

    /// What the export with this number should answer: what the reference does kept to its tables, and also as
    /// it is where nothing was cut.
    fn expected(&mut self, at: usize, input: &Both, numbers: Numbers) -> Answer {
        let Driven { export, own, .. } = &self.driven[at];
        let (expected, notes) = noting(|| export.expected(&input.kept, numbers));
        if notes.is_empty() {
            let right = own.expected(&input.own, numbers);
            let name = export.name;
            assert!(
                are_same(&expected, &right),
                "{name} {numbers:x?}: nothing was cut"
            );
        } else {
            self.cut_cases += 1;
            self.cut.add(notes);
        }
        expected
    }

    /// Compares one answer of the export with this number. An export that differs is shown once.
    fn case(&mut self, at: usize, input: &Both, numbers: Numbers, name: &str) {
        if self.driven[at].differs {
            return;
        }
        let expected = self.expected(at, input, numbers);
        let Driven {
            export,
            tally,
            differs,
            ..
        } = &mut self.driven[at];
        let input = &input.kept;
        tally.add(input.lib.is_ok(), numbers, &expected);
        if let Some(wrong) = difference(&mut self.lent, export, numbers, &expected) {
            *differs = true;
            println!(
                "DIFFERENCE: {} {numbers:x?} at {name}: {wrong}",
                export.name
            );
            let count = self.differing();
            let export = &self.driven[at].export;
            show_smaller(&mut self.lent, export, numbers, input.bytes, count);
            self.lent.hold(input.bytes, Side::End);
        }
    }

    /// Steps every cursor of the library from its start, with this count set before, and holds its records and their
    /// numbers to the reference's iterators with `enumerate`. Of a chain there are at most so many records.
    pub fn step(&mut self, input: &Input, count: usize, most_links: usize) {
        let both = Both::new(&input.bytes);
        let (Ok(kept), Ok(right)) = (&both.kept.lib, &both.own.lib) else {
            return;
        };
        self.lent.hold(&input.bytes, Side::End);
        let (all, notes) = noting(|| stepped::all(kept, most_links));
        if notes.is_empty() {
            let right = own::stepped::all(right, most_links);
            let mut both = all.iter().zip(&right);
            let are_same = both.all(|(one, two)| one.yielded == two.yielded);
            assert!(all.len() == right.len() && are_same, "nothing was cut");
        }
        for cursor in all.iter().filter(|cursor| count == 0 || cursor.has_count()) {
            self.step_one(cursor, count, input);
        }
    }

    fn step_one(&mut self, cursor: &stepped::Stepped, count: usize, input: &Input) {
        let step = cursor.kind.step;
        let at = self.number_of(step);
        if self.driven[at].differs {
            return;
        }
        stopped::trying(&format!("{step} from its start, {}", input.name));
        *self.stepped.entry(step).or_default() += cursor.yielded.len();
        let wrong = cursor.difference(count, |name, numbers, out| {
            let export = &self.driven[self.number_of(name)].export;
            self.lent.reply(|lib| export.call.reply(lib, numbers, out))
        });
        if let Some(wrong) = wrong {
            self.driven[at].differs = true;
            let numbers = cursor.numbers;
            println!(
                "DIFFERENCE: {step} stepped from {numbers:x?} and count {count:x} at {}: {wrong}",
                input.name
            );
            report::keep(&input.bytes, self.differing());
        }
    }

    /// The number of the export that has this name.
    fn number_of(&self, name: &str) -> usize {
        let mut exports = self.driven.iter().map(|driven| &driven.export);
        let number = exports.position(|export| export.name == name);
        number.expect("a cursor's exports are driven")
    }

    /// Prints the counts.
    pub fn end(self) -> ExitCode {
        stopped::done();
        println!("{}", tally::titles());
        for driven in &self.driven {
            println!("{}", driven.tally);
        }
        let seconds = self.started.elapsed().as_secs_f64();
        let calls: u64 = self.driven.iter().map(|driven| driven.tally.calls()).sum();
        println!(
            "{} exports, {} inputs, {} cases, {calls} calls in {seconds:.1} s",
            self.driven.len(),
            self.inputs,
            self.cases()
        );
        let alone = self.driven.iter().map(|driven| driven.tally.alone());
        let (values, nothing) = alone.fold((0, 0), |all, one| (all.0 + one.0, all.1 + one.1));
        println!(
            "about bytes that are no library: {values} values and {nothing} refusals 9 of calls that do not parse"
        );
        let as_it_is = self.cases() - self.cut_cases;
        println!("{}", self.kinds);
        println!(
            "{as_it_is} cases as the Rust answers them, {} in which it is kept to its tables",
            self.cut_cases
        );
        println!("reads that were cut: {}", self.cut);
        println!("steps of cursors from their start: {:?}", self.stepped);
        let tallies = self.driven.iter().map(|driven| &driven.tally);
        let mut faults: Vec<String> = tallies.flat_map(Tally::faults).collect();
        faults.extend(self.cut.missing(&Read::ALL));
        let steps = stepped::KINDS.map(|kind| kind.step).into_iter();
        let unstepped = steps.filter(|step| self.stepped.get(step).is_none_or(|count| *count == 0));
        faults.extend(unstepped.map(|step| format!("{step}: not stepped")));
        for fault in &faults {
            println!("not covered as it should be: {fault}");
        }
        println!("exports that differ: {}", self.differing());
        match self.differing() == 0 && faults.is_empty() {
            true => ExitCode::SUCCESS,
            false => ExitCode::FAILURE,
        }
    }
}

/// Whether the reference answers the same, kept to its tables and as it is.
fn are_same(kept: &Answer, own: &own::answer::Answer) -> bool {
    use own::answer::Answer as Own;
    match (kept, own) {
        (Answer::Number(one), Own::Number(two)) => one == two,
        (Answer::Row(one), Own::Row(two)) => one == two,
        (Answer::Ended(one), Own::Ended(two)) => one == two,
        (Answer::Refused(one), Own::Refused(two)) => one == two,
        _ => false,
    }
}

/// What is wrong with the export's reply and output about the lent library.
fn difference(
    lent: &mut Lent,
    export: &Export,
    numbers: Numbers,
    expected: &Answer,
) -> Option<String> {
    let written = match (expected, export.call.has_output()) {
        (Answer::Row(row), true) => Ok(row.as_slice().into()),
        (Answer::Ended(row), true) => Ok(Written {
            bytes: row,
            free: row.len() - LAST_NUMBERS,
        }),
        (Answer::Refused(number), true) => Err(*number),
        (Answer::Number(number), false) => {
            return wrong_number(lent, export, numbers, i64::from(*number));
        }
        (Answer::Refused(number), false) => {
            return wrong_number(lent, export, numbers, -i64::from(*number));
        }
        _ => return Some("the export's form is not that of the answer".into()),
    };
    // A sheet that is refused so is longer than any output may be.
    let room = match written {
        Err(refusal::NO_SPACE) => MOST_BYTES,
        _ => ROOM_FOR_REFUSED,
    };
    lent.difference(written, room, |lib, out| {
        export.call.reply(lib, numbers, out)
    })
}

fn wrong_number(lent: &Lent, export: &Export, numbers: Numbers, right: i64) -> Option<String> {
    let reply = lent.reply(|lib| export.call.reply(lib, numbers, &mut []));
    (reply != right).then(|| format!("reply {reply}, the Rust's {right}"))
}

/// Seeks smaller numbers and a smaller input for which the export still differs, and shows them.
fn show_smaller(lent: &mut Lent, export: &Export, numbers: Numbers, input: &[u8], count: usize) {
    let mut wrong_at = |bytes: &[u8], numbers: Numbers| {
        lent.hold(bytes, Side::End);
        let expected = export.expected(&Parsed::new(bytes), numbers);
        difference(lent, export, numbers, &expected)
    };
    let plain = plainer(numbers, |plain| wrong_at(input, plain).is_some());
    let small = shrink(input, SHRINKING, |bytes| wrong_at(bytes, plain).is_some());
    let plain = plainer(plain, |plain| wrong_at(&small, plain).is_some());
    let wrong = wrong_at(&small, plain).unwrap_or_default();
    println!("  numbers {plain:x?}: {wrong}");
    report::keep(&small, count);
}

/// The numbers with as many of them zero as still differ.
fn plainer(mut numbers: Numbers, mut differs: impl FnMut(Numbers) -> bool) -> Numbers {
    for which in 0..numbers.len() {
        let mut plain = numbers;
        plain[which] = 0;
        if differs(plain) {
            numbers = plain;
        }
    }
    numbers
}
