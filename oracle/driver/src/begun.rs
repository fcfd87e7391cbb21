//! What begin answers, and what continue is refused by (02, No. 10): rooms that do
//! not fit, tables and requests after the edits of `tables`, records that are cut
//! short. Begin's number must be what the original's search gives.

use mutants::chance::Chance;
use mutants::states::{State, grow};
use mutants::ticked::odd_rooms;
use reading::{Lent, SEARCHING, Tick};
use scene::Scene;

use crate::call::Call;
use crate::counts::Counts;
use crate::expected::{expected, judge};
use crate::runner::{Makers, Mismatch, parted};
use crate::short::{WHOLE, handed};
use crate::sizes::{INDEX, needed};
use crate::tables::{edited, edits};
use crate::tick::{differ, must};

/// How many sets of rooms a scene is begun in.
const ROOMS: usize = 4;

pub fn one_scene(makers: &Makers, number: u64, counts: &mut Counts) -> Result<(), Mismatch> {
    parted(makers, number, counts, parts)
}

fn parts(scene: &Scene, seed: u64, counts: &mut Counts) -> Result<(), String> {
    let mut chance = Chance::new(seed);
    let call = Call::of(scene);
    for _ in 0..ROOMS {
        let lent = odd_rooms(call.request.node_budget, &mut chance);
        begins(&call, &lent, &mut chance, counts)?;
    }
    let state = State::middle(scene, &mut chance);
    let edits = edits(seed);
    let call = edited(scene, &edits, seed);
    let names: Vec<&str> = edits.iter().map(|edit| edit.name).collect();
    edited_calls(&call, state.as_ref(), &mut chance, counts)
        .map_err(|parts| format!("{names:?}: {parts}"))?;
    cut_short(scene, state.as_ref(), &mut chance, counts)
}

/// Begin in these rooms.
fn begins(
    call: &Call,
    lent: &Lent,
    chance: &mut Chance,
    counts: &mut Counts,
) -> Result<(), String> {
    let answer = must(call, Tick::Begin, lent);
    let whole = by_the_original(call, lent);
    if answer.0 != whole {
        return Err(format!(
            "{} by the reading, {whole} by the original",
            answer.0
        ));
    }
    call.ask(|handed| differ(handed, Tick::Begin, lent, answer, chance, counts))?;
    Ok(())
}

/// Begin's number, by what the original's whole search says.
fn by_the_original(call: &Call, lent: &Lent) -> u64 {
    let budget = call.request.node_budget;
    let index = needed(budget.min(4096))[INDEX];
    let sizes = [lent.nodes.len(), lent.front.len(), index, lent.out.len()];
    let whole = expected(&judge(call), budget, sizes);
    if whole.began { SEARCHING } else { whole.number }
}

/// Begin after the edits, and a continue of the search that was under way before
/// them.
fn edited_calls(
    call: &Call,
    state: Option<&State>,
    chance: &mut Chance,
    counts: &mut Counts,
) -> Result<(), String> {
    let lent = odd_rooms(call.request.node_budget, chance);
    begins(call, &lent, chance, counts)?;
    let Some(state) = state else {
        return Ok(());
    };
    let mut lent = state.lent.clone();
    if chance.once_in(2) {
        grow(&mut lent, call.request.node_budget);
    }
    let asked = state.asked();
    let answer = must(call, asked, &lent);
    call.ask(|handed| differ(handed, asked, &lent, answer, chance, counts))?;
    Ok(())
}

/// Begin and continue with records that end at any byte or have a few more.
fn cut_short(
    scene: &Scene,
    state: Option<&State>,
    chance: &mut Chance,
    counts: &mut Counts,
) -> Result<(), String> {
    let handed = handed(scene, WHOLE, chance);
    let begun = odd_rooms(scene.request.node_budget, chance);
    let mut calls = vec![(Tick::Begin, &begun)];
    calls.extend(state.map(|state| (state.asked(), &state.lent)));
    for (asked, lent) in calls {
        let answer = match handed.cut(1) {
            Some(number) => (number, lent.clone()),
            None => must(&handed.call, asked, lent),
        };
        differ(&handed.asked(), asked, lent, answer, chance, counts)
            .map_err(|parts| format!("{}: {parts}", handed.lengths()))?;
        counts.add("calls with a record cut short", handed.short.into());
    }
    Ok(())
}
