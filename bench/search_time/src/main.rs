//! The proved search's time beside the original's (request No. 8): in each
//! round of one run both search the same world, turn by turn. bench/search
//! builds and runs it; docs/SPEED.md, "The search's time", says what it prints.
//! And the proved search's time in slices, and the proved walk-back's: "The search
//! in slices" and "The walk-back's time" there.

mod back;
mod clock;
mod figures;
mod ground;
mod pair;
mod proved;
mod slices;
mod worlds;
mod worst;

use std::process::ExitCode;

use figures::{FIGURES, figures};
use pair::{Pair, Turn};
use worlds::world;

/// Linux's mean of running programs over the last minute.
fn load() -> String {
    let text = std::fs::read_to_string("/proc/loadavg").unwrap_or_default();
    text.split(' ').next().unwrap_or("?").to_string()
}

/// The figures of a world's four turns, in the order of the turns, and how many
/// nodes are closed; its first line is printed. None if an answer is wrong.
fn measure(name: &str, rounds: usize) -> Option<([[f64; 3]; 4], u64)> {
    let mut pair = Pair::new(world(name)?);
    let Some(times) = pair.rounds(rounds) else {
        println!("{name}: THE ANSWERS DIFFER");
        return None;
    };
    let answer = &pair.answer;
    println!(
        "{name}: {}, {} waypoints, {} retained, {} closed; {rounds} rounds, load {}",
        scene::name(answer.outcome),
        answer.list.len(),
        answer.nodes.len(),
        answer.closed,
        load(),
    );
    Some((times.map(|times| figures(&times)), answer.closed))
}

/// The lines of a world. False if an answer is wrong.
fn compare(name: &str, rounds: usize) -> bool {
    let Some(([kept, used, cleared, new], _)) = measure(name, rounds) else {
        return false;
    };
    for (k, what) in FIGURES.into_iter().enumerate() {
        println!(
            "  {what:<18} rooms kept: {:9.1} us, original {:9.1} us, ratio {:.2}   rooms cleared: {:9.1} us, original new {:9.1} us, ratio {:.2}",
            kept[k],
            used[k],
            kept[k] / used[k],
            cleared[k],
            new[k],
            cleared[k] / new[k],
        );
    }
    true
}

fn all() -> bool {
    let mut right = true;
    for (name, rounds) in worlds::ORDINARY {
        right &= compare(name, rounds);
    }
    right
}

/// The worst worlds, or those of them that are named: their medians by the
/// processor's clock, the highest ratio first. False if an answer is wrong, none
/// if a name is not one of theirs.
fn all_worst(names: &[&str]) -> Option<bool> {
    let mut worlds = worst::WORST.to_vec();
    if !names.is_empty() {
        worlds.retain(|(name, _)| names.contains(name));
        if worlds.len() < names.len() {
            return None;
        }
    }
    let mut right = true;
    let mut rows = Vec::new();
    for (name, rounds) in worlds {
        match measure(name, rounds) {
            Some(([kept, used, ..], closed)) => {
                rows.push((kept[1] / used[1], name, kept[1], used[1], closed));
            }
            None => right = false,
        }
    }
    rows.sort_by(|a, b| b.0.total_cmp(&a.0));
    println!("medians by the processor's clock, rooms kept:");
    for (ratio, name, proved, original, closed) in rows {
        println!(
            "  {name:<12} {proved:9.1} us, original {original:9.1} us, ratio {ratio:6.2}; {closed} closed",
        );
    }
    Some(right)
}

/// One side's search alone, so many times, for a profiler; none if the words
/// ask for nothing.
fn alone(side: &str, name: &str, times: &str) -> Option<bool> {
    let turn = match side {
        "proved" => Turn::Kept,
        "original" => Turn::Used,
        _ => return None,
    };
    let mut pair = Pair::new(world(name)?);
    let times: usize = times.parse().ok()?;
    Some((0..times).all(|_| pair.take(turn).is_some()))
}

fn main() -> ExitCode {
    let words: Vec<String> = std::env::args().skip(1).collect();
    let words: Vec<&str> = words.iter().map(String::as_str).collect();
    let right = match words[..] {
        [] => Some(all()),
        ["worst", ref names @ ..] => all_worst(names),
        ["back", ref names @ ..] => back::all(names),
        ["slices", ref names @ ..] => slices::all(names),
        ["only", side, name, times] => alone(side, name, times),
        _ => None,
    };
    match right {
        Some(true) => ExitCode::SUCCESS,
        Some(false) => ExitCode::FAILURE,
        None => ExitCode::from(2),
    }
}
