//! What is told of many times of one piece of work.

use crate::clock::Time;

/// The median; of an even number the mean of the middle two.
fn median(mut times: Vec<f64>) -> f64 {
    times.sort_by(f64::total_cmp);
    let half = times.len() / 2;
    if times.len() % 2 == 1 {
        times[half]
    } else {
        (times[half - 1] + times[half]) / 2.0
    }
}

/// The names of the figures.
pub const FIGURES: [&str; 3] = ["median", "median, processor", "fastest"];

/// The three figures of a turn's times.
pub fn figures(times: &[Time]) -> [f64; 3] {
    let passed: Vec<f64> = times.iter().map(|time| time.passed).collect();
    let given: Vec<f64> = times.iter().map(|time| time.given).collect();
    let fastest = passed.iter().copied().fold(f64::INFINITY, f64::min);
    [median(passed), median(given), fastest]
}
