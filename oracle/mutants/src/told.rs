//! The reading against the original on reasons: on the directed questions of
//! scenes/reasons, and on the lists and edges of random scenes.

use std::collections::BTreeMap;
use std::path::Path;

use reading::Variant::ReadAsWritten;
use scene::{Asked, Question, Scene, WAYPOINT, Walked, Waypoint, YES, words};

use crate::questions::{Directed, Judge, directed, kind, numbered, questions, reads};

/// What a list can be told where the tables are good, and an edge.
const TOLD: [&[u64]; 2] = [
    &[
        0, 4, 101, 102, 103, 104, 105, 106, 107, 108, 109, 111, 112, 113, 114, 115, 116, 117, 118,
        119,
    ],
    &[
        1, 4, 101, 102, 103, 104, 105, 106, 107, 108, 109, 130, 131, 132, 133,
    ],
];

/// Whether the original and the reading give the answers that stand in the
/// folder's scenes; says where not, and which numbers come up, which must be all.
pub fn answered(folder: &Path) -> Result<bool, String> {
    let (mut good, mut seen) = (true, Tally::default());
    for Directed { name, scene, asked } in directed(folder)? {
        let mut judge = Judge::new(&scene);
        for Asked {
            line,
            question,
            answer,
        } in &asked
        {
            let (theirs, ours) = (
                judge.answers(question),
                reads(&scene, question, ReadAsWritten),
            );
            if theirs != *answer || ours != *answer {
                println!("{name}: {line}\nthe original says {theirs:?}, the reading {ours:?}");
                good = false;
            }
            seen.add(question, *answer);
        }
    }
    seen.print();
    Ok(seen.all() && good)
}

/// How often each number came up, of lists and of edges.
#[derive(Default)]
struct Tally([BTreeMap<u64, u64>; 2]);

impl Tally {
    fn add(&mut self, question: &Question, answer: Walked) {
        *self.0[kind(question)].entry(answer.number).or_default() += 1;
    }

    /// Whether every number came up; says which did not.
    fn all(&self) -> bool {
        let mut all = true;
        for (numbers, seen) in TOLD.into_iter().zip(&self.0) {
            for number in numbers.iter().filter(|number| !seen.contains_key(number)) {
                println!("{number} {} did not come up", words(*number));
                all = false;
            }
        }
        all
    }

    fn print(&self) {
        for (kind, numbers) in ["lists", "edges"].into_iter().zip(&self.0) {
            let each =
                |(number, count): (&u64, &u64)| format!("{count} {number} {}", words(*number));
            let all: Vec<String> = numbers.iter().map(each).collect();
            println!(
                "{} {kind}: {}",
                numbers.values().sum::<u64>(),
                all.join(", ")
            );
        }
    }
}

/// Whether a list is a route by 01's sentence, which knows of no reason.
fn is_route(scene: &Scene, list: &[u8]) -> bool {
    let records = list.chunks_exact(WAYPOINT);
    let points: Vec<Waypoint> = records.map(Waypoint::from_bytes).collect();
    list.len().is_multiple_of(WAYPOINT) && reading::is_route(scene, &points)
}

/// What parts the reading's answer from the original's; or, of a list that is
/// not refused by 4, from 01's route.
fn parting(scene: &Scene, question: &Question, theirs: Walked) -> Option<String> {
    let ours = reads(scene, question, ReadAsWritten);
    if ours != theirs {
        return Some(format!(
            "the original says {theirs:?}, the reading {ours:?}"
        ));
    }
    match question {
        Question::Walk(list)
            if ours.number != 4 && is_route(scene, list) != (ours.number == YES) =>
        {
            Some(format!("{ours:?}, and not as 01 has a route"))
        }
        _ => None,
    }
}

/// The reading against the original on all lists and edges of the scenes of
/// these numbers; prints how often each number came up, which each must have, or
/// the first that parts.
pub fn agree(from: u64, count: u64) -> bool {
    let mut seen = Tally::default();
    for number in from..from + count {
        let Some(scene) = numbered(number) else {
            continue;
        };
        for asked in questions(&scene, number) {
            let mut judge = Judge::new(&asked.scene);
            for question in asked.all() {
                let theirs = judge.answers(&question);
                if let Some(parting) = parting(&asked.scene, &question, theirs) {
                    println!("{number}: {question:?}: {parting}");
                    return false;
                }
                seen.add(&question, theirs);
            }
        }
    }
    seen.print();
    seen.all()
}
