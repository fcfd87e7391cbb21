//! How many slots of its index a lookup looks at (request No. 7), counted on the
//! oracle's reading of the index. bench/probes builds and runs it; docs/SPEED.md,
//! "The index's lookups", says what it prints.

mod lookups;
mod sets;
mod sums;

use std::process::ExitCode;

use lookups::{Point, look, perfect};
use reading::index::least_bytes;
use scene::{Random, Scene};
use sets::{REACHES, STEPS};
use sums::{Sum, at_half_load};

/// Budgets on the stairs, as in bench/search.
const STAIRS: [u64; 3] = [64, 512, 4096];

/// Sizes of made sets, and how many of a size for each reach and each step of
/// heights.
const MADE: [(usize, usize); 3] = [(64, 800), (512, 200), (4096, 40)];

/// The points around one: a block further in x and in z, half a block and a
/// whole one higher and lower.
fn around(feet: [f64; 3]) -> Vec<Point> {
    let mut out = Vec::new();
    for x in [-1.0, 0.0, 1.0] {
        for z in [-1.0, 0.0, 1.0] {
            for y in [-1.0, -0.5, 0.0, 0.5, 1.0] {
                out.push([feet[0] + x, feet[1] + y, feet[2] + z].map(f64::to_bits));
            }
        }
    }
    out
}

/// A world's lines: the points that the original retains, in the smallest index
/// for that many and in the one for budget 4,096. False if a lookup is wrong.
fn world(name: &str, scene: &Scene) -> bool {
    let answer = original::find_walk_path(scene);
    let feet: Vec<[f64; 3]> = answer.nodes.iter().map(|node| node.point.feet).collect();
    let points: Vec<Point> = feet.iter().map(|feet| feet.map(f64::to_bits)).collect();
    let beside: Vec<Point> = feet.iter().flat_map(|&feet| around(feet)).collect();
    let mut sizes = vec![least_bytes(points.len() as u64) / 4, least_bytes(4096) / 4];
    sizes.dedup();
    for slots in sizes {
        let Some(both) = look(&points, slots, &beside) else {
            println!("A LOOKUP IS WRONG: {name}");
            return false;
        };
        let [there, absent] = perfect(points.len(), slots);
        println!(
            "{name:<12} {:>6} {slots:>6} {:>7.3} ({there:.3}) {:>8} {:>8.3} ({absent:.3}) {:>8}",
            points.len(),
            both.there.mean(),
            both.there.longest,
            both.absent.mean(),
            both.absent.longest,
        );
    }
    true
}

fn worlds() -> bool {
    println!("The worlds of bench/search: slots that a lookup looks at (a perfect hash)");
    println!("             points  slots   there           longest   absent           longest");
    let large = |name: &str| scene::large(name).is_some_and(|scene| world(name, &scene));
    let stairs = |budget: u64| world(&format!("stairs-{budget}"), &scene::stairs(budget));
    scene::LARGE.into_iter().all(large) && STAIRS.into_iter().all(stairs)
}

fn shapes() -> bool {
    Sum::heading("Shapes at far places");
    let mut all = Sum::default();
    for (name, places) in sets::shapes() {
        let mut sum = Sum::default();
        for set in sets::far(&places) {
            let Some(both) = at_half_load(&set) else {
                return false;
            };
            sum.add(&set, both);
            all.add(&set, both);
        }
        sum.line(name);
    }
    all.line("all");
    all.names();
    true
}

/// Made boxes; a word of the call makes others.
fn made() -> bool {
    let other = std::env::args().nth(1).map_or(String::new(), |word| format!(" {word}"));
    Sum::heading("Made boxes");
    let mut all = Sum::default();
    let mut by_step = STEPS.map(|_| Sum::default());
    for (reach, across, up) in REACHES {
        let mut by_reach = Sum::default();
        for (size, times) in MADE {
            let mut by_size = Sum::default();
            for (step, by_step) in STEPS.into_iter().zip(&mut by_step) {
                let mut random = Random::new(size as u64, &format!("{reach} by {step}{other}"));
                for _ in 0..times {
                    let set = sets::made(&mut random, (across, up), size, step);
                    let Some(both) = at_half_load(&set) else {
                        return false;
                    };
                    for sum in [&mut by_size, &mut by_reach, &mut *by_step, &mut all] {
                        sum.add(&set, both);
                    }
                }
            }
            by_size.line(&format!("{reach}, {size} points"));
        }
        by_reach.names();
    }
    for (step, sum) in STEPS.into_iter().zip(&by_step) {
        sum.line(&format!("heights by {step:.4}"));
    }
    all.line("all");
    true
}

/// What it comes to if somebody chooses the points: all but the last are entered,
/// the last one is looked for as a point that is not there.
fn chosen() -> bool {
    let mut points = sets::chosen(4096);
    let last: Vec<Point> = points.pop().into_iter().collect();
    let Some(both) = look(&points, 8192, &last) else {
        println!("A LOOKUP IS WRONG: chosen points");
        return false;
    };
    println!();
    println!(
        "Points chosen to have one slot: {} in 8192, there {:.1}, longest {}, absent {}; a scan: {:.1}, {}, {}",
        points.len(),
        both.there.mean(),
        both.there.longest,
        both.absent.longest,
        (points.len() + 1) as f64 / 2.0,
        points.len(),
        points.len(),
    );
    true
}

fn main() -> ExitCode {
    if worlds() && shapes() && made() && chosen() {
        ExitCode::SUCCESS
    } else {
        ExitCode::FAILURE
    }
}
