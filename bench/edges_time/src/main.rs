//! Times the proved edge check against the original's, in one run: in each of
//! 101 rounds both are asked for the same pairs, one after the other, the
//! original each time from an empty cache of blocks. The medians are printed
//! with their ratio, and the fastest rounds, which other work on the machine
//! disturbed least. bench/edges builds and runs it.

use std::hint::black_box;
use std::ops::RangeInclusive;
use std::process::ExitCode;
use std::time::Instant;

use original::Checks;
use walkprint::raw::{self, Asked};

const ROUNDS: usize = 101;
/// An edge's number is its movement's and so much.
const EDGE: u64 = 130;
/// There is no edge. The proved check says why, by its first reason; the original
/// does not, so all reasons are one here.
const NONE: RangeInclusive<u64> = 101..=109;

type Pair = ([f64; 3], [f64; 3]);

/// The number of every pair's edge, and the nanoseconds a pair.
fn timed(pairs: &[Pair], mut edge: impl FnMut(Pair) -> u64) -> (Vec<u64>, f64) {
    let begin = Instant::now();
    let answers = pairs.iter().map(|&pair| black_box(edge(pair))).collect();
    (answers, begin.elapsed().as_nanos() as f64 / pairs.len() as f64)
}

/// Whether two numbers say the same edge, or both that there is none.
fn same(proved: u64, original: u64) -> bool {
    proved == original || NONE.contains(&proved) && NONE.contains(&original)
}

/// False if an answer differs.
fn compare(name: &str) -> bool {
    let Some(scene) = scene::large(name) else {
        return false;
    };
    let mut checks = Checks::new(&scene);
    let pairs = checks.neighbours(&scene);
    let tables = scene.tables.raw();
    let asked = Asked {
        window: &tables.window.bytes(),
        tables: tables.all(),
        request: &scene.request.bytes(),
        body: &scene.body.bytes(),
    };
    let (mut ours, mut theirs) = (Vec::new(), Vec::new());
    for _ in 0..ROUNDS {
        let (proved, time) = timed(&pairs, |(from, to)| raw::edge(&asked, from, to));
        ours.push(time);
        let (original, time) = timed(&pairs, |(from, to)| {
            checks.forget();
            checks.bare_edge(from, to).map_or(*NONE.start(), |point| EDGE + point.movement)
        });
        theirs.push(time);
        if !proved.iter().zip(&original).all(|(&ours, &theirs)| same(ours, theirs)) {
            println!("{name}: the answers differ");
            return false;
        }
    }
    ours.sort_by(f64::total_cmp);
    theirs.sort_by(f64::total_cmp);
    for (round, at) in [("median", ROUNDS / 2), ("fastest", 0)] {
        println!(
            "{name}, {} pairs, {round} round: proved {:.0} ns an edge, original {:.0} ns, ratio {:.2}",
            pairs.len(),
            ours[at],
            theirs[at],
            ours[at] / theirs[at],
        );
    }
    true
}

fn main() -> ExitCode {
    let same = scene::LARGE.iter().all(|name| compare(name));
    if same { ExitCode::SUCCESS } else { ExitCode::FAILURE }
}
