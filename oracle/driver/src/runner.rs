//! Runs a check over numbered scenes on some threads and says what was seen.

use std::sync::atomic::{AtomicBool, Ordering};

use mutants::draft::scene_of;
use mutants::recipes::{RECIPES, Recipe, recipe};
use mutants::shrink::shrink;
use scene::{KINDS, Record, Scene, to_text, write_bytes};

use crate::counts::Counts;

/// What parts, and the smallest scene found for it, in text form.
pub struct Mismatch {
    pub what: String,
    pub scene: String,
}

/// The numbers of the scenes that are checked.
pub struct Numbers {
    pub from: u64,
    pub count: u64,
    pub threads: u64,
}

/// Scene n is of kind n mod 23 and made from seed n.
pub struct Makers(Vec<(&'static str, Recipe)>);

impl Makers {
    /// How many kinds there are.
    pub const KINDS: u64 = (RECIPES.len() + KINDS.len()) as u64;

    fn new() -> Self {
        let names = RECIPES.iter().chain(&KINDS);
        Self(
            names
                .map(|&name| (name, recipe(name).expect("a recipe")))
                .collect(),
        )
    }

    pub fn records(&self, number: u64) -> Vec<Record> {
        self.maker(number).1(number)
    }

    /// The records and the scene that they make, if they make one.
    pub fn scene(&self, number: u64, counts: &mut Counts) -> Option<(Vec<Record>, Scene)> {
        let records = self.records(number);
        let scene = scene_of(&records);
        if scene.is_none() {
            counts.add("no scenes", 1);
        }
        Some((records, scene?))
    }

    fn maker(&self, number: u64) -> &(&'static str, Recipe) {
        &self.0[(number % self.0.len() as u64) as usize]
    }
}

/// A check of the scene of a number.
pub type Check = fn(&Makers, u64, &mut Counts) -> Result<(), Mismatch>;

/// Checks all the numbers. Prints one line of counts; before it the first
/// mismatch of each thread, if there is any.
pub fn run(name: &str, numbers: &Numbers, check: Check) -> bool {
    let stop = AtomicBool::new(false);
    let parts = std::thread::scope(|scope| {
        let work = |thread| {
            let stop = &stop;
            scope.spawn(move || part(numbers, thread, check, stop))
        };
        let threads: Vec<_> = (0..numbers.threads).map(work).collect();
        let join = |thread: std::thread::ScopedJoinHandle<_>| thread.join().expect("it ended");
        threads
            .into_iter()
            .map(join)
            .collect::<Vec<(Counts, u64)>>()
    });
    let mut counts = Counts::default();
    let mut mismatches = 0;
    for (seen, parted) in parts {
        counts.merge(seen);
        mismatches += parted;
    }
    println!(
        "{name}, {} to {}: {counts}, {mismatches} mismatches",
        numbers.from,
        numbers.from + numbers.count - 1
    );
    mismatches == 0
}

/// Every so manieth number, until one parts.
fn part(numbers: &Numbers, thread: u64, check: Check, stop: &AtomicBool) -> (Counts, u64) {
    let makers = Makers::new();
    let mut counts = Counts::default();
    let mut number = numbers.from + thread;
    while number < numbers.from + numbers.count && !stop.load(Ordering::Relaxed) {
        if let Err(mismatch) = check(&makers, number, &mut counts) {
            stop.store(true, Ordering::Relaxed);
            let name = makers.maker(number).0;
            println!("{number} ({name}): {}\n{}", mismatch.what, mismatch.scene);
            return (counts, 1);
        }
        number += numbers.threads;
    }
    (counts, 0)
}

/// The mismatch of a scene, with the smallest scene on which `parts` still says
/// something.
pub fn smallest(records: Vec<Record>, parts: &dyn Fn(&[Record]) -> Option<String>) -> Mismatch {
    let what = parts(&records).unwrap_or_default();
    let small = shrink(records, &|records| parts(records).is_some());
    let then = parts(&small).unwrap_or_default();
    Mismatch {
        what: format!("{what}; smallest: {then}"),
        scene: to_text(&write_bytes(&small)),
    }
}

/// What a command does with a whole scene, by the scene's number.
pub type Parts = fn(&Scene, u64, &mut Counts) -> Result<(), String>;

/// `parts` on the scene of a number, if it makes one; where it says something, the
/// smallest scene on which it still does.
pub fn parted(
    makers: &Makers,
    number: u64,
    counts: &mut Counts,
    parts: Parts,
) -> Result<(), Mismatch> {
    let Some((records, scene)) = makers.scene(number, counts) else {
        return Ok(());
    };
    counts.add("scenes", 1);
    if parts(&scene, number, counts).is_ok() {
        return Ok(());
    }
    Err(smallest(records, &|records| {
        parts(&scene_of(records)?, number, &mut Counts::default()).err()
    }))
}
