//! Calls of begin and continue of a scene: its search divided, begun in rooms that
//! do not fit, and continued from states that another hand changed. How soon the
//! variants of 02's No. 10 are noticed by them; and whether the reading, divided,
//! is the original.

use std::ops::Range;

use original::judge;
use reading::{Lent, PROGRESS, SEARCHING, TICKED, Tick, Variant, tick};
use scene::{Answer, Scene, Verdict, Waypoint};

use crate::chance::Chance;
use crate::changes::{CHANGES, Change};
use crate::questions::numbered;
use crate::states::{Answers, Ended, LOTS, State, divided, read, rooms};
use crate::tick_cases;

/// How many states of a scene are changed.
const STATES: u64 = 12;

/// The most calls that follow one on a changed state.
const FURTHER: usize = 5;

/// A state in the midst of a scene's search, with a progress record that may not
/// fit, the same changed, and by what.
pub struct Changed {
    pub honest: State,
    pub state: State,
    pub changes: Vec<&'static Change>,
    /// For what follows.
    pub chance: Chance,
}

/// The changed states of a scene, the same for the same seed whatever is answered.
pub fn states(scene: &Scene, seed: u64) -> impl Iterator<Item = Changed> {
    (0..STATES).filter_map(move |place| {
        let mut chance = Chance::new(STATES * seed + place);
        let mut honest = State::middle(scene, &mut chance)?;
        if chance.once_in(6) {
            let length = chance.pick(&[0, 8, 32, 47, 49, 100]);
            honest.lent.progress.resize(length, 0xa5);
        }
        let (state, changes) = changed(&honest, &mut chance);
        Some(Changed {
            honest,
            state,
            changes,
            chance,
        })
    })
}

/// A state with one to three changes, and which they are. Rooms are cut short by
/// the last of them, because the others write records.
fn changed(state: &State, chance: &mut Chance) -> (State, Vec<&'static Change>) {
    let count = chance.pick(&[1, 1, 1, 2, 3]);
    let mut places: Vec<usize> = (0..count).map(|_| chance.below(CHANGES.len())).collect();
    places.sort();
    places.dedup();
    let mut out = state.clone();
    let changes: Vec<&Change> = places.into_iter().map(|place| &CHANGES[place]).collect();
    for change in &changes {
        (change.make)(&mut out, chance);
    }
    (out, changes)
}

/// The call of a state and, as long as it is still searching, a few more. The
/// number of the first, and whether it was accepted: an expansion closes a node,
/// so that something is written.
pub fn go_on(
    state: &State,
    chance: &mut Chance,
    answers: &mut Answers,
) -> Result<(u64, bool), String> {
    let scene = &state.scene;
    let (first, mut lent) = answers(scene, state.asked(), state.lent.clone())?;
    let accepted = lent != state.lent;
    let mut number = first;
    for _ in 0..FURTHER {
        if number != SEARCHING || lent.progress.len() < PROGRESS {
            break;
        }
        let lots = chance.pick(&LOTS);
        let asked = Tick::Continue(reading::Counts::told(&lent.progress), lots.next(chance));
        (number, lent) = answers(scene, asked, lent)?;
    }
    Ok((first, accepted))
}

/// Rooms of which one is too short now and then, and the progress record too.
pub fn odd_rooms(budget: u64, chance: &mut Chance) -> Lent {
    let extra = [(); 3].map(|()| chance.pick(&[0, 1, 23, 100]));
    let progress = chance.pick(&[PROGRESS, PROGRESS, 0, 8, 47, 49, 64]);
    let mut lent = rooms(budget, extra, progress, chance);
    let room = match chance.below(6) {
        0 => &mut lent.nodes,
        1 => &mut lent.front,
        2 => &mut lent.out,
        _ => return lent,
    };
    let short = chance.pick(&[1, 1, 24, 48, 64]);
    let length = room
        .len()
        .saturating_sub(extra[0].max(extra[1]).max(extra[2]) + short);
    room.truncate(length);
    lent
}

/// Calls of every kind on a scene, the same for the same seed.
fn every_call(scene: &Scene, seed: u64, answers: &mut Answers) -> Result<(), String> {
    let mut chance = Chance::new(seed);
    let budget = scene.request.node_budget;
    answers(scene, Tick::Begin, odd_rooms(budget, &mut chance))?;
    let lent = rooms(budget, [70; 3], PROGRESS, &mut chance);
    divided(scene, chance.pick(&LOTS), lent, &mut chance, answers)?;
    for mut changed in states(scene, seed) {
        go_on(&changed.state, &mut changed.chance, answers)?;
    }
    Ok(())
}

/// Every variant of No. 10, and how many calls on the scenes of these numbers agree
/// before one parts. The right answers are those of `answers`.
pub fn noticed(
    numbers: Range<u64>,
    answers: &mut Answers,
) -> Result<Vec<(Variant, Option<u64>)>, String> {
    let mut rows: Vec<(Variant, Option<u64>)> = TICKED.iter().map(|&edit| (edit, None)).collect();
    let mut calls = 0;
    for number in numbers {
        let Some(scene) = numbered(number) else {
            continue;
        };
        every_call(&scene, number, &mut |scene, asked, lent| {
            let right = answers(scene, asked, lent.clone())?;
            for (edit, after) in rows.iter_mut().filter(|(_, after)| after.is_none()) {
                let mut lent = lent.clone();
                if (tick(scene, asked, &mut lent, *edit), lent) != right {
                    *after = Some(calls);
                }
            }
            calls += 1;
            Ok(right)
        })?;
        if rows.iter().all(|(_, after)| after.is_some()) {
            break;
        }
    }
    Ok(rows)
}

/// The reading's own answers.
fn by_reading(scene: &Scene, asked: Tick, lent: Lent) -> Result<(u64, Lent), String> {
    Ok(read(scene, asked, lent))
}

/// The directed calls, and a line a variant, by the reading's own answers. False if
/// a call parts or a variant is not noticed.
pub fn table(numbers: Range<u64>) -> bool {
    let (cases, parts) = tick_cases::parts(&mut by_reading);
    println!("{cases} directed cases, {} part: {parts:?}", parts.len());
    let rows = noticed(numbers, &mut by_reading).expect("the reading ends its searches");
    let survivors = rows.iter().filter(|(_, after)| after.is_none()).count();
    for (variant, after) in &rows {
        let calls = |calls| format!("after {calls} calls");
        let after = after.map_or("SURVIVES".to_string(), calls);
        println!("{}: {after}", variant.name());
    }
    println!("{survivors} of {} survive the calls", rows.len());
    parts.is_empty() && survivors == 0
}

/// Whether the searches of the scenes of these numbers, divided in every way, are
/// the original's whole ones.
pub fn agree(from: u64, count: u64) -> bool {
    let (mut scenes, mut calls) = (0, 0);
    for number in from..from + count {
        let Some(scene) = numbered(number) else {
            continue;
        };
        let (whole, mut chance) = (judge(&scene), Chance::new(number));
        scenes += 1;
        for lots in LOTS {
            let lent = rooms(scene.request.node_budget, [70; 3], PROGRESS, &mut chance);
            let ended = divided(&scene, lots, lent.clone(), &mut chance, &mut by_reading);
            let parts = ended.and_then(|ended| {
                calls += ended.calls;
                is_whole(&ended, &lent, &whole)
            });
            if let Err(parts) = parts {
                println!("{number}, {lots:?}: {parts}");
                return false;
            }
        }
    }
    println!("{scenes} scenes, divided in 4 ways by {calls} calls, agree with the original");
    true
}

/// Whether a divided search has come to what a whole one says, and left what that
/// would have left in these rooms.
pub fn is_whole(ended: &Ended, lent: &Lent, whole: &Verdict) -> Result<(), String> {
    let mut after = lent.clone();
    let number = match whole {
        Err(refusal) => refusal.number.into(),
        Ok(answer) => {
            if !answer.nodes.is_empty() {
                put_whole(answer, &mut after, &ended.lent.progress);
            }
            answer.outcome as u64
        }
    };
    match ended.number == number && ended.lent == after {
        true => Ok(()),
        false => Err(format!(
            "answered {}, where the whole search answers {number}; or its list, nodes or counts part",
            ended.number
        )),
    }
}

/// What a search that began leaves: its nodes, its list, a frontier all zero, and a
/// progress record. The pushes and the drops in that no whole search tells.
fn put_whole(answer: &Answer, lent: &mut Lent, told: &[u8]) {
    let nodes: Vec<u8> = answer.nodes.iter().flat_map(|node| node.bytes()).collect();
    let list: Vec<u8> = answer.list.iter().flat_map(Waypoint::bytes).collect();
    lent.nodes[..nodes.len()].copy_from_slice(&nodes);
    lent.out[..list.len()].copy_from_slice(&list);
    lent.front.fill(0);
    let [count, retained] = [answer.list.len(), answer.nodes.len()].map(|n| n as u64);
    let numbers = [answer.outcome as u64, count, retained, answer.closed];
    lent.progress[..32].copy_from_slice(&numbers.map(u64::to_le_bytes).concat());
    lent.progress[32..PROGRESS].copy_from_slice(&told[32..PROGRESS]);
}
