//! Searches divided into calls of continue (02, No. 10): each call against the
//! reading, and what the search comes to against the original's whole one.

use mutants::chance::Chance;
use mutants::draft::scene_of;
use mutants::states::{LOTS, Lots, divided, needed};
use mutants::ticked::is_whole;
use reading::{PROGRESS, Tick};
use scene::{Scene, Verdict};

use crate::call::Call;
use crate::counts::Counts;
use crate::expected::{expected, judge};
use crate::large::worlds;
use crate::runner::{Makers, Mismatch, smallest};
use crate::scenes::more;
use crate::sizes;
use crate::tick::{compared, patterned};

pub fn one_scene(makers: &Makers, number: u64, counts: &mut Counts) -> Result<(), Mismatch> {
    let Some((records, scene)) = makers.scene(number, counts) else {
        return Ok(());
    };
    if in_every_way(&scene, number, counts).is_ok() {
        return Ok(());
    }
    Err(smallest(records, &|records| {
        in_every_way(&scene_of(records)?, number, &mut Counts::default()).err()
    }))
}

/// Large worlds, with budgets above a scene's too.
pub fn large() -> bool {
    let mut counts = Counts::default();
    let mut mismatches = 0;
    for (name, mut scene) in worlds() {
        for budget in [1, 100, 513, 4096] {
            scene.request.node_budget = budget;
            if let Err(parts) = in_every_way(&scene, budget, &mut counts) {
                println!("{name}, budget {budget}: {parts}");
                mismatches += 1;
            }
        }
    }
    println!("divided, large: {counts}, {mismatches} mismatches");
    mismatches == 0
}

/// What parts of a scene's search, divided in each way.
fn in_every_way(scene: &Scene, seed: u64, counts: &mut Counts) -> Result<(), String> {
    let call = Call::of(scene);
    let whole = original::judge(scene);
    for lots in LOTS {
        let parts = in_lots(scene, &call, &whole, lots, seed, counts);
        parts.map_err(|parts| format!("{lots:?}: {parts}"))?;
    }
    let budget = scene.request.node_budget;
    let roomy = sizes::needed(budget.min(4096));
    counts.search(&expected(&judge(&call), budget, roomy));
    match call.tables == scene.tables.raw() {
        true => Ok(()),
        false => Err("a table was written".to_string()),
    }
}

/// The same in one way, in rooms that are just long enough or longer. What the
/// search comes to must be the original's: outcome, list, nodes and counts.
fn in_lots(
    scene: &Scene,
    call: &Call,
    whole: &Verdict,
    lots: Lots,
    seed: u64,
    counts: &mut Counts,
) -> Result<(), String> {
    let mut chance = Chance::new(seed ^ (lots as u64) << 40);
    let [nodes, front, out] =
        needed(scene.request.node_budget).map(|size| size + more(&mut chance));
    let progress = PROGRESS + chance.below(20);
    let lent = patterned([nodes, front, out, progress], &mut chance);
    let mut strips = Chance::new(!seed);
    let mut answers =
        |scene: &Scene, asked: Tick, lent| compared(call, scene, asked, lent, &mut strips, counts);
    let ended = divided(scene, lots, lent.clone(), &mut chance, &mut answers)?;
    is_whole(&ended, &lent, whole)
}
