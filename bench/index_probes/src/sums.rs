//! The figures of many sets of points, each in an index of its own.

use crate::lookups::{Both, look};
use crate::sets::Set;

/// Enters a set into an index of twice as many slots, and looks it up. None if a
/// lookup is wrong.
pub fn at_half_load(set: &Set) -> Option<Both> {
    let points = set.points();
    let both = look(&points, 2 * points.len(), &set.beside());
    if both.is_none() {
        println!("A LOOKUP IS WRONG: {}", set.told());
    }
    both
}

/// All lookups of some sets, and, of points that are there and of points that
/// are not, the set that is the worst in the mean and the one with the longest
/// lookup.
#[derive(Default)]
pub struct Sum {
    sets: usize,
    all: Both,
    worst: [(f64, String); 2],
    longest: [(usize, String); 2],
}

impl Sum {
    pub fn add(&mut self, set: &Set, both: Both) {
        self.sets += 1;
        self.all = self.all.and(both);
        for (k, lookups) in [both.there, both.absent].into_iter().enumerate() {
            if lookups.mean() > self.worst[k].0 {
                self.worst[k] = (lookups.mean(), set.told());
            }
            if lookups.longest > self.longest[k].0 {
                self.longest[k] = (lookups.longest, set.told());
            }
        }
    }

    pub fn heading(what: &str) {
        println!();
        println!("{what}, at half load (a perfect hash: 1.5 there, 2.5 not there)");
        println!(
            "{:22}   sets    points   there  worst  longest   absent  worst  longest",
            ""
        );
    }

    pub fn line(&self, name: &str) {
        let Both { there, absent } = self.all;
        println!(
            "{name:<22} {:>6} {:>9} {:>7.3} {:>6.2} {:>8} {:>8.3} {:>6.2} {:>8}",
            self.sets,
            there.count,
            there.mean(),
            self.worst[0].0,
            self.longest[0].0,
            absent.mean(),
            self.worst[1].0,
            self.longest[1].0,
        );
    }

    /// The sets behind the worst figures.
    pub fn names(&self) {
        for (k, what) in ["there", "absent"].into_iter().enumerate() {
            println!(
                "  {what}, worst {:.2}: {}",
                self.worst[k].0, self.worst[k].1
            );
            println!(
                "  {what}, longest {}: {}",
                self.longest[k].0, self.longest[k].1
            );
        }
    }
}
