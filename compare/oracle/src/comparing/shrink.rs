//! Makes an input that shows a difference smaller and plainer, as long as it still shows one.

use std::time::{Duration, Instant};

/// A smaller input for which `differs` still holds, sought for at most so long. It is cut at the
/// end, pieces of it are taken out, and pieces are set to zero; pieces get smaller each round.
pub fn shrink(input: &[u8], most: Duration, mut differs: impl FnMut(&[u8]) -> bool) -> Vec<u8> {
    let started = Instant::now();
    let is_over = || started.elapsed() > most;
    let mut best = input.to_vec();
    let mut try_it = |candidate: Vec<u8>, best: &mut Vec<u8>| {
        let is_smaller = candidate != *best && differs(&candidate);
        if is_smaller {
            *best = candidate;
        }
        is_smaller
    };
    let mut piece = input.len().next_power_of_two() / 2;
    while piece > 0 && !is_over() {
        while best.len() >= piece && try_it(best[..best.len() - piece].to_vec(), &mut best) {}
        let mut at = 0;
        while at < best.len() && !is_over() {
            if !try_it(without(&best, at, piece), &mut best) {
                try_it(with_zeros(&best, at, piece), &mut best);
                at += piece;
            }
        }
        piece /= 2;
    }
    best
}

fn without(bytes: &[u8], at: usize, count: usize) -> Vec<u8> {
    let end = (at + count).min(bytes.len());
    [&bytes[..at], &bytes[end..]].concat()
}

fn with_zeros(bytes: &[u8], at: usize, count: usize) -> Vec<u8> {
    let end = (at + count).min(bytes.len());
    let mut changed = bytes.to_vec();
    changed[at..end].fill(0);
    changed
}

#[cfg(test)]
mod tests {
    use std::time::Duration;

    use super::shrink;

    const ENOUGH: Duration = Duration::from_secs(60);

    #[test]
    fn only_what_makes_the_difference_is_left() {
        let mut input = vec![7; 1_000];
        input[500] = 9;
        let small = shrink(&input, ENOUGH, |bytes| bytes.contains(&9));
        assert_eq!(small, [9]);
    }

    #[test]
    fn what_cannot_go_becomes_zero() {
        let differs = |bytes: &[u8]| bytes.len() == 100 && bytes[50] == 7;
        let small = shrink(&[7; 100], ENOUGH, differs);
        assert_eq!(small.iter().filter(|byte| **byte != 0).count(), 1);
    }
}
