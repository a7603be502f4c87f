//! Interleaved rounds, and ratios of their times.

use std::fmt;
use std::hint::black_box;
use std::time::{Duration, Instant};

/// One round of a contender: it times itself, so that what it prepares does not count.
pub type Round<'a> = &'a mut dyn FnMut() -> Duration;

pub fn timed<A>(run: impl FnOnce() -> A) -> (Duration, A) {
    let start = Instant::now();
    let answer = run();
    (start.elapsed(), answer)
}

/// The time of so many readings.
fn readings<A>(count: usize, mut read: impl FnMut() -> A) -> Duration {
    let read_all = || {
        for _ in 0..count {
            black_box(read());
        }
    };
    timed(read_all).0
}

/// Short rounds, and many of them: another process then disturbs few.
pub const SHORT_ROUNDS: usize = 999;
/// About how many bytes of header values a short round reads.
const SHORT_ROUND_BYTES: usize = 1 << 17;

/// How many readings of so many bytes a short round has.
pub fn count_for(bytes: usize) -> usize {
    SHORT_ROUND_BYTES.div_ceil(bytes)
}

/// How many times as long as the other's our readings take, in short rounds of so many.
pub fn against<A, B>(count: usize, mut ours: impl FnMut() -> A, mut other: impl FnMut() -> B) -> Ratio {
    let mut our_round = || readings(count, &mut ours);
    let mut other_round = || readings(count, &mut other);
    times_as_long(SHORT_ROUNDS, &mut [&mut our_round, &mut other_round])[0]
}

/// The digits of a number in groups of three.
pub fn thousands(number: usize) -> String {
    let digits = number.to_string();
    let groups: Vec<_> = digits.as_bytes().rchunks(3).rev().map(String::from_utf8_lossy).collect();
    groups.join(",")
}

/// The median of one ratio to a round, and the quartiles, which show how far the rounds differ.
#[derive(Clone, Copy, Debug, PartialEq)]
pub struct Ratio {
    pub low: f64,
    pub median: f64,
    pub high: f64,
}

impl Ratio {
    /// Of as many ratios as there were rounds, at least one.
    pub fn of(mut ratios: Vec<f64>) -> Ratio {
        ratios.sort_by(f64::total_cmp);
        let at = |quarter: usize| ratios[(ratios.len() - 1) * quarter / 4];
        Ratio { low: at(1), median: at(2), high: at(3) }
    }
}

impl fmt::Display for Ratio {
    fn fmt(&self, to: &mut fmt::Formatter) -> fmt::Result {
        write!(to, "{:.2} ({:.2} to {:.2})", self.median, self.low, self.high)
    }
}

/// How many times as long as each of the others the first contender takes. Each round lets every contender
/// run once, beginning with another one than the round before.
pub fn times_as_long(rounds: usize, contenders: &mut [Round]) -> Vec<Ratio> {
    let count = contenders.len();
    let mut ratios = vec![Vec::with_capacity(rounds); count];
    for contender in contenders.iter_mut() {
        let _first = contender(); // later rounds find the pages in place
    }
    for round in 0..rounds {
        let mut seconds = vec![0.0; count];
        for turn in 0..count {
            let which = (round + turn) % count;
            seconds[which] = contenders[which]().as_secs_f64();
        }
        for which in 0..count {
            ratios[which].push(seconds[0] / seconds[which]);
        }
    }
    ratios.into_iter().skip(1).map(Ratio::of).collect()
}

#[cfg(test)]
mod tests {
    use super::*;

    #[test]
    fn the_median_stands_in_the_middle() {
        let ratio = Ratio::of(vec![9.0, 1.0, 2.0, 4.0, 3.0]);
        assert_eq!(ratio, Ratio { low: 2.0, median: 3.0, high: 4.0 });
        assert_eq!(ratio.to_string(), "3.00 (2.00 to 4.00)");
    }

    #[test]
    fn commas_stand_before_three_digits() {
        let numbers = [0, 64, 999, 1_000, 65_536, 1_048_576];
        assert_eq!(numbers.map(thousands), ["0", "64", "999", "1,000", "65,536", "1,048,576"]);
    }

    #[test]
    fn a_ratio_above_one_is_slower_than_the_other() {
        let mut ours = || Duration::from_millis(30);
        let mut twice_as_fast = || Duration::from_millis(15);
        let mut half_as_fast = || Duration::from_millis(60);
        let medians: Vec<f64> = times_as_long(7, &mut [&mut ours, &mut twice_as_fast, &mut half_as_fast])
            .iter()
            .map(|ratio| ratio.median)
            .collect();
        assert_eq!(medians, [2.0, 0.5]);
    }
}
