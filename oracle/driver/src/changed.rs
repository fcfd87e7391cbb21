//! Searches under way that another hand changed (02, No. 10): the proved continue
//! against the reading, call by call.

use mutants::chance::Chance;
use mutants::states::State;
use mutants::ticked::{Changed, go_on, states};
use reading::Variant::ReadAsWritten;
use reading::{BAD_PROGRESS, Tick, broken};
use scene::Scene;

use crate::call::Call;
use crate::counts::Counts;
use crate::runner::{Makers, Mismatch, parted};
use crate::tick::compared;

pub fn one_scene(makers: &Makers, number: u64, counts: &mut Counts) -> Result<(), Mismatch> {
    parted(makers, number, counts, parts)
}

fn parts(scene: &Scene, seed: u64, counts: &mut Counts) -> Result<(), String> {
    for changed in states(scene, seed) {
        let Changed {
            honest,
            state,
            changes,
            mut chance,
        } = changed;
        let answer = one_state(&state, &mut chance, counts).map_err(|parts| {
            let names: Vec<&str> = changes.iter().map(|change| change.name).collect();
            format!("{names:?}: {parts}")
        });
        let name = match changes[..] {
            _ if state == honest => "none, because there was nothing to change",
            [change] => change.name,
            _ => "two or three changes",
        };
        count(&state, name, answer?, counts);
    }
    Ok(())
}

/// What the call on a state answers, and whether that was accepted, if it and those
/// after it are as they must be.
fn one_state(
    state: &State,
    chance: &mut Chance,
    counts: &mut Counts,
) -> Result<(u64, bool), String> {
    let call = Call::of(&state.scene);
    let mut strips = Chance::new(chance.word());
    let mut answers =
        |scene: &Scene, asked: Tick, lent| compared(&call, scene, asked, lent, &mut strips, counts);
    go_on(state, chance, &mut answers)
}

/// What a changed state is answered, and which clause of 12 is broken alone.
fn count(state: &State, name: &'static str, (number, accepted): (u64, bool), counts: &mut Counts) {
    counts.add("states", 1);
    let side = match number {
        BAD_PROGRESS => "refused by 12",
        _ if accepted => "accepted",
        _ => "refused before 12",
    };
    counts.row(side, name);
    if number == BAD_PROGRESS {
        let State { scene, lent, .. } = state;
        let clauses = broken(scene, state.counts, state.expansions, lent, ReadAsWritten);
        match clauses[..] {
            [clause] => counts.row("12 by this alone", clause),
            _ => counts.row("12 by this alone", "none, by several"),
        }
    }
}
