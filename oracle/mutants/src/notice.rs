//! How soon the variants of reasons are noticed: by the directed questions of
//! scenes/reasons, and by the lists and edges of random scenes.

use std::ops::Range;
use std::path::Path;

use reading::{TOLD, Variant};
use scene::{Asked, Question, Scene, Walked};

use crate::questions::{Directed, EDGES, Judge, LISTS, directed, kind, numbered, questions, reads};

/// When a variant was noticed: how many lists and how many edges agreed before
/// one parted.
pub struct Noticed {
    pub variant: Variant,
    /// Of lists, of edges.
    pub after: [Option<u64>; 2],
}

impl Noticed {
    fn new(variant: Variant) -> Self {
        Self {
            variant,
            after: [None; 2],
        }
    }

    /// Whether a question of this kind may still show it: an edge tells its own
    /// reasons only.
    fn waits(&self, kind: usize) -> bool {
        let of_edges = self.variant.about()[0] == "02, No. 3, the edge";
        self.after[kind].is_none() && (kind == LISTS || of_edges)
    }

    /// How many agreed before, in words.
    pub fn line(&self) -> String {
        let told = |kind: usize, name: &str| match self.after[kind] {
            Some(count) => format!("{count} {name}"),
            None if self.waits(kind) => format!("no {name}"),
            None => String::new(),
        };
        let parts = [told(LISTS, "lists"), told(EDGES, "edges")];
        parts
            .into_iter()
            .filter(|part| !part.is_empty())
            .collect::<Vec<_>>()
            .join(", ")
    }

    /// Whether neither a list nor an edge shows it.
    pub fn survives(&self) -> bool {
        self.after == [None; 2]
    }
}

/// Asks the lists and edges of the scenes of these numbers until every variant
/// was noticed. The right answers to a scene's questions are those of `answers`.
pub fn notice(
    numbers: Range<u64>,
    answers: &mut dyn FnMut(&Scene, &[Question]) -> Vec<Walked>,
) -> Vec<Noticed> {
    let mut table: Vec<Noticed> = TOLD.iter().copied().map(Noticed::new).collect();
    let mut asked = [0, 0];
    for number in numbers {
        let made = numbered(number).map_or(Vec::new(), |scene| questions(&scene, number));
        for (scene, questions) in made.iter().map(|made| (&made.scene, made.all())) {
            for (question, right) in questions.iter().zip(answers(scene, &questions)) {
                let kind = kind(question);
                for row in table.iter_mut().filter(|row| row.waits(kind)) {
                    if reads(scene, question, row.variant) != right {
                        row.after[kind] = Some(asked[kind]);
                    }
                }
                asked[kind] += 1;
            }
        }
        if !table.iter().any(|row| row.waits(LISTS) || row.waits(EDGES)) {
            break;
        }
    }
    table
}

/// For each variant a directed question that tells it from the reading, how many
/// do, and how many random ones agree before one does. False if one survives the
/// directed questions.
pub fn table(folder: &Path, numbers: Range<u64>) -> Result<bool, String> {
    let scenes = directed(folder)?;
    let asked = || {
        scenes
            .iter()
            .flat_map(|at| at.asked.iter().map(move |asked| (at, asked)))
    };
    println!(
        "{} directed questions, {} variants of reasons",
        asked().count(),
        TOLD.len()
    );
    let mut original = |scene: &Scene, questions: &[Question]| {
        let mut judge = Judge::new(scene);
        questions
            .iter()
            .map(|question| judge.answers(question))
            .collect()
    };
    let mut survivors = 0;
    for row in notice(numbers, &mut original) {
        let tells = |(at, asked): &(&Directed, &Asked)| {
            reads(&at.scene, &asked.question, row.variant) != asked.answer
        };
        let name = row.variant.name();
        let shown = match asked().find(tells) {
            Some((at, asked)) => format!("scenes/reasons/{}.txt, {}", at.name, asked.line),
            None => "SURVIVES".to_string(),
        };
        let directed = asked().filter(tells).count();
        survivors += u64::from(directed == 0);
        println!("{name}: {shown}; {directed} directed; after {}", row.line());
    }
    println!("{survivors} survive the directed questions");
    Ok(survivors == 0)
}
