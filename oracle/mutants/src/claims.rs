//! What 01 claims of budgets, tried on the reading.

use reading::{Graph, Variant, reachable_points, search};
use scene::{Answer, Outcome, Scene, to_text, write_bytes};

use crate::draft::scene_of;
use crate::recipes::Recipe;

/// Scenes that reach more points are passed over.
const MOST: usize = 40;

/// Searches each scene with every budget up to one more than it reaches; prints
/// the first that breaks a claim.
pub fn claims(name: &str, make: &Recipe, seed: u64, count: u64) -> bool {
    let mut swept = 0;
    for number in seed..seed + count {
        let records = make(number);
        let Some(mut scene) = scene_of(&records) else {
            continue;
        };
        let begins = search(&scene, Variant::ReadAsWritten).is_ok_and(|a| !a.nodes.is_empty());
        if !begins {
            continue;
        }
        let points = reachable_points(&scene, MOST + 1);
        if points.len() > MOST {
            continue;
        }
        swept += 1;
        if let Some(broken) = sweep(&mut scene, &points) {
            println!("{name} {number}: {broken}");
            print!("{}", to_text(&write_bytes(&records)));
            return false;
        }
    }
    println!("{name}: {swept} of {count} scenes from seed {seed} keep the claims");
    true
}

/// The first claim that the scene breaks. Its budget is changed.
fn sweep(scene: &mut Scene, points: &[[f64; 3]]) -> Option<String> {
    let mut before: Option<Answer> = None;
    for budget in 0..=points.len() + 1 {
        scene.request.node_budget = budget as u64;
        let answer = search(scene, Variant::ReadAsWritten).ok()?;
        let broken = if answer.nodes.len() > budget || answer.closed > answer.nodes.len() as u64 {
            Some("more was retained or closed than there was room for")
        } else if before
            .as_ref()
            .is_some_and(|before| !grows(before, &answer))
        {
            Some("an outcome was lost, or other points were retained first")
        } else if budget >= points.len() && !settled(scene, points, &answer) {
            Some("with room for every point the outcome is not what is reached")
        } else {
            None
        };
        if let Some(broken) = broken {
            return Some(format!("budget {budget}: {broken}"));
        }
        before = Some(answer);
    }
    None
}

/// "Found stays Found", "Unreachable stays so", and what the smaller budget
/// retained comes first under the larger one.
fn grows(small: &Answer, large: &Answer) -> bool {
    let feet = |answer: &Answer| -> Vec<[u64; 3]> {
        let nodes = answer.nodes.iter();
        nodes
            .map(|node| node.point.feet.map(f64::to_bits))
            .collect()
    };
    let stays = small.outcome == Outcome::BudgetExceeded || small.outcome == large.outcome;
    stays && feet(large).starts_with(&feet(small))
}

/// Found exactly if a reachable point has a connector, else Unreachable.
fn settled(scene: &Scene, points: &[[f64; 3]], answer: &Answer) -> bool {
    let graph = Graph {
        scene,
        edit: Variant::ReadAsWritten,
    };
    let connected = points.iter().any(|&point| graph.connector(point).is_some());
    answer.outcome
        == if connected {
            Outcome::Found
        } else {
            Outcome::Unreachable
        }
}
