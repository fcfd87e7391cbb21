//! Every budget from 0 to two more than the points that graph steps reach, with
//! what demand 3 claims checked on the proved answers.

use mutants::draft::scene_of;
use scene::{NODE, Scene, Walked, YES};

use crate::call::Call;
use crate::counts::Counts;
use crate::differ::differ;
use crate::expected::{Expected, judge};
use crate::runner::{Makers, Mismatch, smallest};
use crate::sizes::needed;

/// Scenes that reach more points are passed over.
const MOST: usize = 100;

pub fn one_scene(makers: &Makers, number: u64, counts: &mut Counts) -> Result<(), Mismatch> {
    let Some((records, scene)) = makers.scene(number, counts) else {
        return Ok(());
    };
    match sweep(scene, number, counts) {
        None => Ok(()),
        Some(_) => Err(smallest(records, &|records| {
            sweep(scene_of(records)?, number, &mut Counts::default())
        })),
    }
}

/// What the graph of a scene comes to.
struct Reach {
    points: usize,
    /// Whether a reached point has a connector, so that there is a route.
    connected: bool,
}

/// The first budget at which something parts or a claim breaks.
fn sweep(mut scene: Scene, seed: u64, counts: &mut Counts) -> Option<String> {
    scene.request.node_budget = 1;
    let call = Call::of(&scene);
    let begins =
        matches!(judge(&call), crate::expected::Judged::Answered(a) if !a.nodes.is_empty());
    if !begins {
        counts.add("scenes whose search does not begin", 1);
        return None;
    }
    let Some(reach) = reach(&scene) else {
        counts.add("scenes that reach more", 1);
        return None;
    };
    counts.add("scenes swept", 1);
    counts.add("points reached", reach.points as u64);
    let mut before: Option<Expected> = None;
    for budget in 0..=reach.points as u64 + 2 {
        match one_budget(&call, budget, seed, &reach, before.as_ref(), counts) {
            Ok(answer) => before = Some(answer),
            Err(parts) => return Some(format!("budget {budget} of {}: {parts}", reach.points)),
        }
    }
    None
}

fn one_budget(
    call: &Call,
    budget: u64,
    seed: u64,
    reach: &Reach,
    before: Option<&Expected>,
    counts: &mut Counts,
) -> Result<Expected, String> {
    let mut call = call.clone();
    call.request.node_budget = budget;
    let answer = differ(&call, &judge(&call), needed(budget), seed + budget)?;
    counts.search(&answer);
    if answer.number == 0 && call.walk_back(&answer.list) != Walked::told(YES) {
        return Err("a found list is no route".to_string());
    }
    if let Some(broken) = broken(&answer, budget, reach, before) {
        return Err(broken.to_string());
    }
    let points = reach.points as u64;
    match (budget + 1 == points, budget == points, answer.number) {
        (true, _, 0) => counts.add("found one below", 1),
        (true, _, _) => counts.add("exceeded one below", 1),
        (_, true, 0) => counts.add("found at the number", 1),
        (_, true, _) => counts.add("unreachable at the number", 1),
        _ => {}
    }
    Ok(answer)
}

/// The first claim that an answer breaks.
fn broken(
    answer: &Expected,
    budget: u64,
    reach: &Reach,
    before: Option<&Expected>,
) -> Option<&'static str> {
    let points = reach.points as u64;
    let claims = [
        (
            "more was retained or closed than there is room for",
            within(answer, budget),
        ),
        (
            "an outcome was lost",
            before.is_none_or(|before| stays(before, answer)),
        ),
        (
            "other points were retained first",
            before.is_none_or(|before| grows(before, answer)),
        ),
        (
            "found without a route, or unreachable with one",
            settled(answer, reach),
        ),
        (
            "enough budget was exceeded",
            budget < points || answer.number != 2,
        ),
        (
            "with a point too few it was known that there is no route",
            budget >= points || answer.number != 1,
        ),
    ];
    let first = claims.iter().find(|(_, holds)| !holds);
    first.map(|(claim, _)| *claim)
}

/// "No input makes more than the budget of retained nodes" and so on.
fn within(answer: &Expected, budget: u64) -> bool {
    let [_, count, retained, closed] = answer.answer();
    retained <= budget && closed <= retained && count <= budget + 1
}

/// Found stays Found, Unreachable stays so.
fn stays(before: &Expected, answer: &Expected) -> bool {
    before.number == 2 || before.number == answer.number
}

/// The points that the smaller budget retained come first.
fn grows(before: &Expected, answer: &Expected) -> bool {
    let feet = |answer: &Expected| -> Vec<Vec<u8>> {
        answer
            .nodes
            .chunks(NODE)
            .map(|node| node[..24].to_vec())
            .collect()
    };
    feet(answer).starts_with(&feet(before))
}

/// Found only if there is a route, Unreachable only if there is none.
fn settled(answer: &Expected, reach: &Reach) -> bool {
    match answer.number {
        0 => reach.connected,
        1 => !reach.connected,
        _ => true,
    }
}

/// The points that the original's steps reach from the start, if they are not
/// too many.
fn reach(scene: &Scene) -> Option<Reach> {
    let mut checks = original::Checks::new(scene);
    let key = |point: [f64; 3]| point.map(|n| if n == 0.0 { 0 } else { n.to_bits() });
    let mut points = vec![scene.request.start];
    let mut next = 0;
    let mut connected = key(scene.request.start) == key(scene.request.goal);
    while next < points.len() {
        connected |= checks.connector(points[next]).is_some();
        for step in checks.steps(points[next]) {
            if !points.iter().any(|&point| key(point) == key(step.feet)) {
                points.push(step.feet);
            }
        }
        if points.len() > MOST {
            return None;
        }
        next += 1;
    }
    Some(Reach {
        points: points.len(),
        connected,
    })
}
