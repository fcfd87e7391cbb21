//! The original's time, for one search and for edges.

use std::hint::black_box;
use std::time::{Duration, Instant};

use original::{Checks, Navigator};
use scene::Scene;

/// The line of a scene: the median and the least of `runs` searches, scratch
/// reused, the scene read before.
pub fn line(name: &str, scene: &Scene, runs: u64) -> String {
    let mut navigator = Navigator::new(scene);
    let answer = navigator.answer(scene);
    let [median, least] = times(runs, || {
        black_box(navigator.run());
    });
    format!(
        "{name}: {}, {} waypoints, {} retained, {} closed; median {median} ns, least {least} ns \
         of {runs} runs\n",
        scene::name(answer.outcome),
        answer.list.len(),
        answer.nodes.len(),
        answer.closed,
    )
}

/// The line of a scene's edges: every neighbouring pair once, each from an
/// empty cache of blocks.
pub fn edges_line(name: &str, scene: &Scene, runs: u64) -> String {
    let mut checks = Checks::new(scene);
    let pairs = checks.neighbours(scene);
    let mut good = 0;
    let [median, least] = times(runs, || {
        good = 0;
        for &(from, to) in &pairs {
            checks.forget();
            good += u64::from(black_box(checks.bare_edge(from, to)).is_some());
        }
    });
    format!(
        "{name}: {} pairs, {good} edges; median {median} ns, least {least} ns of {runs} runs\n",
        pairs.len()
    )
}

/// The median and the least time of `runs` calls, in nanoseconds.
fn times(runs: u64, mut call: impl FnMut()) -> [u128; 2] {
    let mut times: Vec<Duration> = (0..runs.max(1))
        .map(|_| {
            let begin = Instant::now();
            call();
            begin.elapsed()
        })
        .collect();
    times.sort();
    [times[times.len() / 2], times[0]].map(|time| time.as_nanos())
}
