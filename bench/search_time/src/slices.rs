//! The proved search in slices beside the proved whole search: in each round of one
//! run both search the same world, turn by turn.

use std::hint::black_box;

use crate::clock::{Time, timed};
use crate::figures::figures;
use crate::load;
use crate::proved::{Proved, STILL_SEARCHING};
use crate::worlds::{ORDINARY, each, world};

const WORLDS: [&str; 4] = ["wide", "maze", "tower", "stairs-4096"];

/// Expansions a slice; with the last number the whole search is one slice.
const SLICES: [u64; 5] = [1, 16, 64, 256, 4096];

/// How many rounds a world has: as in an ordinary run.
fn rounds_of(name: &str) -> usize {
    let known = ORDINARY.iter().find(|(ordinary, _)| *ordinary == name);
    known.map_or(20, |&(_, rounds)| rounds)
}

/// The median by the processor's clock, in microseconds.
fn median(times: &[Time]) -> f64 {
    figures(times)[1]
}

/// The times of the whole search, and of that in slices of each size; none if one of
/// them ended in another way than the whole one. Rooms are filled with a pattern
/// before each, outside its time, so that no end can pass for another's.
fn take_turns(
    [whole, sliced]: &mut [Proved; 2],
    rounds: usize,
) -> Option<(Vec<Time>, [Vec<Time>; 5])> {
    let (mut times, mut times_in_slices) = (Vec::new(), [const { Vec::new() }; 5]);
    for _ in 0..rounds {
        whole.spoil();
        let (number, time) = timed(|| black_box(whole.run()));
        times.push(time);
        for (slice, times) in SLICES.into_iter().zip(&mut times_in_slices) {
            sliced.spoil();
            let (end, time) = timed(|| black_box(sliced.run_in_slices(slice)));
            if end != number || !whole.ended_as(sliced) {
                return None;
            }
            times.push(time);
        }
    }
    Some((times, times_in_slices))
}

/// The time of one slice, where so many nodes are closed; none if the search ends
/// with it.
fn slice_behind(sliced: &mut Proved, closed: u64, expansions: u64) -> Option<Time> {
    sliced.begin();
    if closed > 0 {
        sliced.advance(closed);
    }
    let (number, time) = timed(|| black_box(sliced.advance(expansions)));
    (number == STILL_SEARCHING).then_some(time)
}

/// What slices cost at one place of a search: one of 1 expansion, and one of 16.
struct Cost {
    one: f64,
    sixteen: f64,
}

impl Cost {
    fn expansion(&self) -> f64 {
        (self.sixteen - self.one) / 15.0
    }

    /// What a call costs before its first expansion: it judges what it is handed.
    fn judging(&self) -> f64 {
        self.one - self.expansion()
    }

    fn print(&self, place: &str) {
        println!(
            "  {place}: a slice of 1 {:6.1} us, of 16 {:6.1} us; so an expansion {:5.1} us, the rest of a call {:5.1} us",
            self.one,
            self.sixteen,
            self.expansion(),
            self.judging(),
        );
    }
}

/// The lines on single slices, behind begin and near the end; none if there are too
/// few closings.
fn single_slices(sliced: &mut Proved, rounds: usize, [retained, closed]: [u64; 2]) -> Option<()> {
    let places = [0, closed.checked_sub(17)?];
    let mut times = [const { [const { Vec::new() }; 2] }; 2];
    for _ in 0..rounds {
        for (place, times) in places.into_iter().zip(&mut times) {
            for (expansions, times) in [1, 16].into_iter().zip(times) {
                times.push(slice_behind(sliced, place, expansions)?);
            }
        }
    }
    let [first, last] = times.map(|times| {
        let [one, sixteen] = times.map(|times| median(&times));
        Cost { one, sixteen }
    });
    first.print("behind begin");
    last.print("near the end");
    let more = 1e3 * (last.judging() - first.judging()) / retained as f64;
    println!("  that rest is longer by {more:.0} ns for each retained node");
    Some(())
}

/// The lines of a world. False if an end is another than the whole search's, none if
/// there is no such world.
fn told(name: &str) -> Option<bool> {
    let scene = world(name)?;
    let mut both = [Proved::new(&scene), Proved::new(&scene)];
    let rounds = rounds_of(name);
    let Some((times, in_slices)) = take_turns(&mut both, rounds) else {
        println!("{name}: THE ENDS DIFFER");
        return Some(false);
    };
    let [whole, sliced] = &mut both;
    let [retained, closed] = whole.counts();
    println!(
        "{name}: {} waypoints, {retained} retained, {closed} closed; {rounds} rounds, load {}",
        whole.points(),
        load(),
    );
    let all = median(&times);
    println!("  whole search {all:9.1} us");
    for (slice, times) in SLICES.iter().zip(&in_slices) {
        let time = median(times);
        println!(
            "  slices of {slice:<4} {time:8.1} us, ratio {:.2}",
            time / all
        );
    }
    single_slices(sliced, rounds, [retained, closed]);
    Some(true)
}

/// The four worlds, or those that are named.
pub fn all(names: &[&str]) -> Option<bool> {
    each(names, &WORLDS, told)
}
