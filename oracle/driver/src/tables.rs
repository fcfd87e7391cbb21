//! Tables that mostly no scene can hold: a made scene with one to four edits of
//! its tables, its budget and its limits.

use mutants::chance::Chance;
use mutants::draft::scene_of;
use mutants::shrink::shrink;
use scene::{Record, Scene, to_text, write_bytes};

use crate::call::Call;
use crate::counts::Counts;
use crate::differ::differ;
use crate::edits::{EDITS, Edit};
use crate::expected::judge;
use crate::runner::{Makers, Mismatch};
use crate::sizes::{longer, needed};

pub fn one_call(makers: &Makers, number: u64, counts: &mut Counts) -> Result<(), Mismatch> {
    let Some((records, scene)) = makers.scene(number, counts) else {
        return Ok(());
    };
    let edits = edits(number);
    let call = edited(&scene, &edits, number);
    let kept = call.clone();
    match parts(&call, number) {
        Ok(answer) => {
            counts.search(&answer);
            if answer.began && call.request.node_budget > 512 {
                counts.add("searches begun with a budget above 512", 1);
            }
        }
        Err(_) => return Err(smallest(records, edits, number)),
    }
    for edit in edits {
        counts.add(edit.name, 1);
    }
    if call.tables != kept.tables {
        return Err(Mismatch {
            what: "a table was written".to_string(),
            scene: to_text(&write_bytes(&records)),
        });
    }
    Ok(())
}

/// Which edits a number makes; those that damage come last, because the others
/// read whole records.
pub fn edits(number: u64) -> Vec<&'static Edit> {
    let mut chance = Chance::new(!number);
    let count = 1 + chance.below(4);
    let damaged = chance.once_in(3);
    let mut out: Vec<&Edit> = Vec::new();
    while out.len() < count {
        let edit = &EDITS[chance.below(EDITS.len())];
        if damaged || !edit.damages {
            out.push(edit);
        }
    }
    out.sort_by_key(|edit| edit.damages);
    out
}

/// The scene's call after the edits, each with its own numbers.
pub fn edited(scene: &Scene, edits: &[&Edit], number: u64) -> Call {
    let mut call = Call::of(scene);
    for edit in edits {
        let mut chance = Chance::new(number ^ edit.seed());
        (edit.make)(&mut call, &mut chance);
    }
    call
}

fn parts(call: &Call, number: u64) -> Result<crate::expected::Expected, String> {
    let needed = needed(call.request.node_budget.min(4096));
    let mut chance = Chance::new(number);
    let extra = [200, 200, 3, 200].map(|end| chance.below(end));
    differ(call, &judge(call), longer(needed, extra), number)
}

/// With as few edits and as small a scene as still part.
fn smallest(mut records: Vec<Record>, mut edits: Vec<&'static Edit>, number: u64) -> Mismatch {
    let says = |records: &[Record], edits: &[&Edit]| {
        let scene = scene_of(records)?;
        parts(&edited(&scene, edits, number), number).err()
    };
    let what = says(&records, &edits).unwrap_or_default();
    for place in (0..edits.len()).rev() {
        let mut fewer = edits.clone();
        fewer.remove(place);
        if says(&records, &fewer).is_some() {
            edits = fewer;
        }
    }
    records = shrink(records, &|records| says(records, &edits).is_some());
    let names: Vec<&str> = edits.iter().map(|edit| edit.name).collect();
    Mismatch {
        what: format!("{what}; smallest with the edits {names:?} of {number}"),
        scene: to_text(&write_bytes(&records)),
    }
}
