//! One run of comparisons: what was tried, what it covered, and what differed.

use std::path::Path;
use std::process::ExitCode;
use std::time::{Duration, Instant};

use bounded::bounds::{Notes, Read, noting};
use bounded::comparing::kinds::Kinds;
#[cfg(product)]
use bounded::comparing::lent::Lent;
use bounded::comparing::shrink::shrink;
use bounded::comparing::{report, stopped};
use bounded::coverage::Coverage;
use bounded::coverage::figures::FiguresCoverage;
use bounded::figures::{Figures, MOST_TOLD};
use bounded::inputs::Input;
use bounded::sheet::{MOST_BYTES, PROGRAM_BYTES, refusal};

#[cfg(product)]
use crate::call;
use crate::program;

/// How many differences are shown before a run is given up.
const MOST_DIFFERENCES: usize = 5;

/// How long a smaller input is sought for one that differs.
const SHRINKING: Duration = Duration::from_secs(20);

pub struct Run {
    coverage: Coverage,
    figures: FiguresCoverage,
    kinds: Kinds,
    /// What was cut for sheets, and for figures.
    cut: Notes,
    cut_for_figures: Notes,
    tried: u64,
    differences: usize,
    started: Instant,
    #[cfg(product)]
    lent: Lent,
}

impl Run {
    pub fn new() -> Self {
        Run {
            coverage: Coverage::default(),
            figures: FiguresCoverage::default(),
            kinds: Kinds::default(),
            cut: Notes::default(),
            cut_for_figures: Notes::default(),
            tried: 0,
            differences: 0,
            started: Instant::now(),
            #[cfg(product)]
            lent: Lent::default(),
        }
    }

    /// Whether so much differs that more would say nothing new.
    pub fn is_hopeless(&self) -> bool {
        self.differences >= MOST_DIFFERENCES
    }

    /// Compares the product's calls for the sheet and for its figures; without a product, only counts what the input
    /// covers.
    pub fn call(&mut self, input: &Input) {
        stopped::trying(&input.name);
        self.tried += 1;
        let sheet = self.expected(&input.bytes, MOST_BYTES);
        let (figures, _) = self.expected_figures(&input.bytes);
        self.figures.beside(&sheet);
        assert!(
            are_promised(figures, &sheet),
            "{}: the Rust's figures are those of its sheet",
            input.name
        );
        self.compare(input, Some(&sheet), figures);
    }

    /// Compares the figures alone, of a library whose sheet would take long to be refused.
    pub fn figures(&mut self, input: &Input) {
        stopped::trying(&input.name);
        self.tried += 1;
        let (figures, is_kept) = self.expected_figures(&input.bytes);
        self.kinds.add(is_kept);
        self.compare(input, None, figures);
    }

    #[cfg(product)]
    fn compare(
        &mut self,
        input: &Input,
        sheet: Option<&Result<Vec<u8>, u8>>,
        figures: Result<Figures, u8>,
    ) {
        if let Some(difference) = call::difference(&mut self.lent, &input.bytes, sheet, figures) {
            let with_sheet = sheet.is_some();
            let differs = |bytes: &[u8]| self.call_differs(bytes, with_sheet);
            let small = shrink(&input.bytes, SHRINKING, differs);
            self.show(input, &difference, &small);
        }
    }

    #[cfg(not(product))]
    fn compare(&mut self, _: &Input, _: Option<&Result<Vec<u8>, u8>>, _: Result<Figures, u8>) {}

    /// The sheet of the reference kept to its tables. Where nothing was cut, it is the reference's own.
    fn expected(&mut self, input: &[u8], room: usize) -> Result<Vec<u8>, u8> {
        let (sheet, notes) = noting(|| self.coverage.sheet(input, room));
        self.kinds.add(!notes.is_empty());
        self.cut.add(notes);
        if notes.is_empty() {
            let own = msft_typelib::sheet::sheet(input, room);
            assert!(sheet == own, "nothing was cut, and the Rust's own differs");
        }
        sheet
    }

    /// The figures of the reference kept to its tables, and whether something was cut. Where nothing was, they are the
    /// reference's own.
    fn expected_figures(&mut self, input: &[u8]) -> (Result<Figures, u8>, bool) {
        let (figures, notes) = noting(|| self.figures.figures(input));
        self.cut_for_figures.add(notes);
        if notes.is_empty() {
            let own = msft_typelib::figures::figures(input);
            let own = own.map(msft_typelib::figures::Figures::all);
            let is_own = figures.map(Figures::all) == own;
            assert!(is_own, "nothing was cut, and the Rust's own figures differ");
        }
        (figures, !notes.is_empty())
    }

    #[cfg(product)]
    fn call_differs(&mut self, bytes: &[u8], with_sheet: bool) -> bool {
        let sheet = with_sheet.then(|| bounded::sheet::sheet(bytes, MOST_BYTES));
        let figures = bounded::figures::figures(bytes);
        call::difference(&mut self.lent, bytes, sheet.as_ref(), figures).is_some()
    }

    /// Compares what the program prints.
    pub fn program(&mut self, path: &Path, input: &Input) {
        stopped::trying(&input.name);
        self.tried += 1;
        if input.bytes.len() <= PROGRAM_BYTES {
            let _ = self.expected(&input.bytes, PROGRAM_BYTES);
        }
        if let Some(difference) = program::difference(path, &input.bytes) {
            let differs = |bytes: &[u8]| program::difference(path, bytes).is_some();
            let small = shrink(&input.bytes, SHRINKING, differs);
            self.show(input, &difference, &small);
        }
    }

    /// Prints a difference, and keeps the smaller input that shows one.
    fn show(&mut self, input: &Input, difference: &str, small: &[u8]) {
        self.differences += 1;
        println!("DIFFERENCE at {}: {difference}", input.name);
        report::keep(small, self.differences);
    }

    /// Prints the counts. A whole run fails if something did not come up, too.
    pub fn end(self, whole: bool) -> ExitCode {
        stopped::done();
        println!("{}", self.coverage);
        println!("{}", self.figures);
        let seconds = self.started.elapsed().as_secs_f64();
        println!("{} inputs in {seconds:.1} s", self.tried);
        println!("{}", self.kinds);
        println!("reads that were cut: {}", self.cut);
        println!("for figures: {}", self.cut_for_figures);
        let mut missing = Vec::new();
        if whole {
            missing.extend(self.coverage.missing());
            missing.extend(self.figures.missing());
            missing.extend(self.cut.missing(&Read::IN_SHEET));
            let for_figures = self.cut_for_figures.missing(&Read::IN_SHEET);
            missing.extend(for_figures.iter().map(|cut| format!("{cut} for figures")));
        }
        if !missing.is_empty() {
            println!("did not come up: {}", missing.join(", "));
        }
        println!("differences: {}", self.differences);
        if self.differences == 0 && missing.is_empty() {
            ExitCode::SUCCESS
        } else {
            ExitCode::FAILURE
        }
    }
}

/// Whether the figures are those of the sheet: its length where it is made, and else its refusal, but for 12.
fn are_promised(figures: Result<Figures, u8>, sheet: &Result<Vec<u8>, u8>) -> bool {
    match (figures, sheet) {
        (Ok(figures), Ok(sheet)) => figures.length == sheet.len() as u64,
        (Ok(figures), Err(refusal::NO_SPACE)) => figures.length > MOST_TOLD,
        (Err(one), Err(two)) => one == *two,
        _ => false,
    }
}
