//! Reasons: the directed questions of a folder, asked of the proved calls.

use std::path::Path;

use mutants::chance::Chance;
use mutants::questions::directed;
use scene::{Asked, Question};
use walkprint::raw;

use crate::call::Call;
use crate::counts::Counts;
use crate::walkback::differ;

/// How often a list is asked about, each time with another place.
const PLACES: u64 = 32;

/// Asks the questions in the heads of the folder's scenes.
pub fn all(folder: &str) -> Result<bool, String> {
    let mut counts = Counts::default();
    let mut mismatches = 0;
    for scene in directed(Path::new(folder))? {
        let call = Call::of(&scene.scene);
        for asked in &scene.asked {
            if let Err(parts) = parts(&call, asked, &mut counts) {
                println!("{}: {}: {parts}", scene.name, asked.line);
                mismatches += 1;
            }
            counts.add("questions", 1);
        }
        counts.add("scenes", 1);
    }
    println!("reasons: {counts}, {mismatches} mismatches");
    Ok(mismatches == 0)
}

/// What is not as it must be.
fn parts(call: &Call, asked: &Asked, counts: &mut Counts) -> Result<(), String> {
    let must = asked.answer;
    match &asked.question {
        Question::Walk(list) => (0..PLACES).try_for_each(|seed| {
            let chance = &mut Chance::new(seed);
            call.ask(|asked| differ(asked, list, must, chance, counts))
        }),
        Question::Edge(from, to) => {
            let said = call.ask(|asked| raw::edge(asked, *from, *to));
            counts.told(said);
            match said == must.number {
                true => Ok(()),
                false => Err(format!("answered {said}, must be {}", must.number)),
            }
        }
    }
}
