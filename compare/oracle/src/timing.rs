//! Times the product beside the reference: same inputs, one run, turn by turn. One table has the product's figures beside
//! its own sheets, and one the time of hostile libraries beside their bound.

pub mod figures;
pub mod hostile;
pub mod readings;
pub mod sheets;

use std::hint::black_box;
use std::time::{Duration, Instant};

/// How many rounds a case is mostly timed, and how long its rounds of the reference together should take.
const FEWEST_ROUNDS: usize = 3;
const MOST_ROUNDS: usize = 101;
const ALL_ROUNDS: Duration = Duration::from_millis(1500);

/// A round of work; its number must be the same from the product as from the reference.
pub type Work<'a> = Box<dyn FnMut() -> u64 + 'a>;

/// What is timed. In the table of the product's own calls its sheets stand in the reference's place.
pub struct Case<'a> {
    pub name: &'static str,
    /// The bytes of its libraries.
    pub bytes: usize,
    /// The product's calls in a round; where none is said, it is about the number that is counted.
    pub calls: Option<usize>,
    pub rust: Work<'a>,
    /// The product's work, if one is linked.
    pub product: Option<Work<'a>>,
}

/// The times of one case's rounds.
#[derive(Default)]
struct Times(Vec<Duration>);

impl Times {
    fn least(&self) -> f64 {
        milliseconds(self.0.iter().min().copied().unwrap_or_default())
    }

    fn median(&self) -> f64 {
        let mut sorted = self.0.clone();
        sorted.sort();
        milliseconds(sorted.get(sorted.len() / 2).copied().unwrap_or_default())
    }

    /// The least and the median time.
    fn shown(&self) -> String {
        match self.0.is_empty() {
            true => "-".into(),
            false => format!("{:.3} {:.3}", self.least(), self.median()),
        }
    }
}

/// Prints the titles of the columns.
pub fn print_titles() {
    println!("times in milliseconds, least and median of the rounds");
    print_columns("Rust", "product");
}

/// The titles, with those of the two that are timed; the ratio is that of the second to the first.
fn print_columns(first: &str, second: &str) {
    println!(
        "{:44} {:>9} {:>8} {:>6} {first:>21} {second:>21} {:>6}",
        "", "bytes", "calls", "rounds", "ratio"
    );
}

impl Case<'_> {
    /// Times the case and prints its line.
    pub fn print(self) {
        self.print_rounds(MOST_ROUNDS);
    }

    /// Times the case in at most so many rounds and prints its line. The ratio is that of the least times.
    pub fn print_rounds(mut self, most_rounds: usize) {
        let (counted, rust, product) = self.time(most_rounds);
        let calls = self.calls.unwrap_or(counted as usize);
        let ratio = match product.0.is_empty() {
            true => "-".into(),
            false => format!("{:.2}", product.least() / rust.least()),
        };
        println!(
            "{:44} {:>9} {calls:>8} {:>6} {:>21} {:>21} {ratio:>6}",
            self.name,
            self.bytes,
            rust.0.len(),
            rust.shown(),
            product.shown()
        );
    }

    /// What is counted, and the times. A first round warms up, tells how many follow, and compares
    /// what is counted: times of different work would say nothing.
    fn time(&mut self, most_rounds: usize) -> (u64, Times, Times) {
        let started = Instant::now();
        let right = (self.rust)();
        let once = started.elapsed().as_secs_f64();
        if let Some(product) = &mut self.product {
            assert_eq!(
                product(),
                right,
                "{}: the product's work is the Rust's",
                self.name
            );
        }
        let (mut rust, mut product) = (Times::default(), Times::default());
        let rounds = (ALL_ROUNDS.as_secs_f64() / once) as usize;
        for _ in 0..rounds.clamp(FEWEST_ROUNDS, most_rounds) {
            rust.0.push(timed(&mut self.rust));
            product.0.extend(self.product.as_mut().map(timed));
        }
        (right, rust, product)
    }
}

fn timed(work: &mut Work) -> Duration {
    let started = Instant::now();
    black_box(work());
    started.elapsed()
}

fn milliseconds(time: Duration) -> f64 {
    time.as_secs_f64() * 1000.0
}
