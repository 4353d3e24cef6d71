//! What a run's figures covered: each refusal, and each figure at its limit, one more, and above.

use std::fmt::{self, Display};

use super::{Counts, add_one, listed, not_in};
use crate::figures::{self, COUNT, Figures, MOST_TOLD, NAMES};
use crate::sheet::refusal;

/// Where a figure stands by the highest that is told.
#[derive(Clone, Copy, Debug, PartialEq, Eq, PartialOrd, Ord)]
enum Height {
    Below,
    Highest,
    OneMore,
    Above,
}

impl Height {
    /// Those that do not come up by themselves.
    const WANTED: [Height; 3] = [Height::Highest, Height::OneMore, Height::Above];

    fn of(figure: u64) -> Self {
        const ONE_MORE: u64 = MOST_TOLD + 1;
        match figure {
            0..MOST_TOLD => Height::Below,
            MOST_TOLD => Height::Highest,
            ONE_MORE => Height::OneMore,
            _ => Height::Above,
        }
    }

    fn words(self) -> &'static str {
        match self {
            Height::Below => "below",
            Height::Highest => "16,777,216",
            Height::OneMore => "16,777,217",
            Height::Above => "above",
        }
    }
}

/// The replies of a run, and how high its figures were.
#[derive(Default)]
pub struct FiguresCoverage {
    given: u64,
    refusals: Counts<u8>,
    heights: [Counts<Height>; COUNT],
    /// The sheets that were written, and those that no output could hold, beside which figures were given.
    written: u64,
    too_long: u64,
}

impl FiguresCoverage {
    /// The reference's figures of the input, counted.
    pub fn figures(&mut self, input: &[u8]) -> Result<Figures, u8> {
        let reply = figures::figures(input);
        self.add(reply);
        reply
    }

    fn add(&mut self, reply: Result<Figures, u8>) {
        match reply {
            Ok(figures) => {
                self.given += 1;
                for (counts, figure) in self.heights.iter_mut().zip(figures.all()) {
                    add_one(counts, Height::of(figure));
                }
            }
            Err(number) => add_one(&mut self.refusals, number),
        }
    }

    /// Counts a sheet that the figures stand beside, by whether it was written. A refusal has none.
    pub fn beside(&mut self, sheet: &Result<Vec<u8>, u8>) {
        match sheet {
            Ok(_) => self.written += 1,
            Err(refusal::NO_SPACE) => self.too_long += 1,
            Err(_) => {}
        }
    }

    /// What document 02 names and the run did not reach.
    pub fn missing(&self) -> Vec<String> {
        let refusals = refusal::ALL.into_iter();
        let refusals = refusals.filter(|number| *number != refusal::NO_SPACE);
        let mut missing = not_in("refusal of figures", refusals, &self.refusals);
        for (name, counts) in NAMES.iter().zip(&self.heights) {
            let wanted = Height::WANTED.into_iter();
            let wanted = wanted.filter(|height| !counts.contains_key(height));
            missing.extend(wanted.map(|height| format!("figure of {name} {}", height.words())));
        }
        for (word, count) in [("written", self.written), ("too long", self.too_long)] {
            if count == 0 {
                missing.push(format!("figures of a sheet that is {word}"));
            }
        }
        missing
    }
}

impl Display for FiguresCoverage {
    fn fmt(&self, f: &mut fmt::Formatter) -> fmt::Result {
        writeln!(
            f,
            "figures: {}, beside {} sheets that were written and {} too long for any output",
            self.given, self.written, self.too_long
        )?;
        write!(f, "refusals of figures: {}", listed(&self.refusals))?;
        for (name, counts) in NAMES.iter().zip(&self.heights) {
            let counts = counts.iter();
            let counts = counts.map(|(height, times)| (height.words(), *times));
            write!(f, "\nfigures of {name}: {}", listed(&counts.collect()))?;
        }
        Ok(())
    }
}

#[cfg(test)]
mod tests {
    use super::FiguresCoverage;
    use crate::figures::{NAMES, figures};
    use crate::inputs::figures::limits;

    /// Without the libraries that are made for one figure, that figure's heights are what is missing; the longest
    /// sheets come up by the others.
    #[test]
    fn a_figure_that_was_not_reached_is_missing() {
        let mut coverages = NAMES.map(|_| FiguresCoverage::default());
        for made in limits() {
            let reply = figures(&made.input.bytes);
            for (which, coverage) in coverages.iter_mut().enumerate() {
                if which != made.which {
                    coverage.add(reply);
                }
            }
        }
        let missing = coverages.map(|coverage| {
            let missing = coverage.missing().into_iter();
            missing
                .filter(|what| what.starts_with("figure of "))
                .collect::<Vec<_>>()
        });
        let at = |name: &str, words: &[&str]| -> Vec<String> {
            let words = words.iter();
            words
                .map(|word| format!("figure of {name} {word}"))
                .collect()
        };
        let every = ["16,777,216", "16,777,217", "above"];
        let right = [
            at("length", &every[..2]),
            at("functions", &every),
            // Those that are references count too.
            at("parameters", &[]),
            at("variables", &every),
            at("references", &every),
        ];
        assert_eq!(missing, right);
    }
}
