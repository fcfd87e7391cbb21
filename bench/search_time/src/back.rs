//! The proved walk-back's time: the list that the search finds in a world, walked
//! back round after round.

use std::hint::black_box;

use crate::clock::timed;
use crate::figures::{FIGURES, figures};
use crate::proved::Proved;
use crate::worlds::{ORDINARY, each, world};

const ROUNDS: usize = 100;

/// The line of a world; a world without a list has none. False if the list is
/// answered to be no route, none if there is no such world.
fn told(name: &str) -> Option<bool> {
    let mut proved = Proved::new(&world(name)?);
    proved.run();
    if proved.points() == 0 {
        return Some(true);
    }
    let mut times = Vec::new();
    for _ in 0..ROUNDS {
        let (number, time) = timed(|| black_box(proved.walk_back()));
        if number != 0 {
            println!("{name}: ITS LIST IS NO ROUTE: {}", walkprint::word(number));
            return Some(false);
        }
        times.push(time);
    }
    let figures = FIGURES.iter().zip(figures(&times));
    let figures: Vec<String> = figures
        .map(|(what, time)| format!("{what} {time:.1} us"))
        .collect();
    println!(
        "{name}, {} points, {ROUNDS} rounds: {}",
        proved.points(),
        figures.join(", ")
    );
    Some(true)
}

/// The worlds of an ordinary run, or those that are named.
pub fn all(names: &[&str]) -> Option<bool> {
    each(names, &ORDINARY.map(|(name, _)| name), told)
}
