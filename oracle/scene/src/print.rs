//! What walkprint writes to standard output, by 01's "Scenes and walkprint"; a
//! waypoint's door last (02, No. 5). The length is worked out by `reading`, which
//! has its variants too.

use std::fmt::Write;

use crate::{Answer, Outcome, Refusal};

pub(crate) const MOVEMENTS: [&str; 4] = ["walk", "step", "jump", "drop"];

/// An outcome's name in lower case.
pub fn name(outcome: Outcome) -> &'static str {
    match outcome {
        Outcome::Found => "found",
        Outcome::Unreachable => "unreachable",
        Outcome::BudgetExceeded => "budgetexceeded",
    }
}

/// Outcome, waypoints, retained, closed, length; then a line a waypoint.
pub fn print(answer: &Answer, length: f64) -> String {
    let mut out = String::new();
    let _ = writeln!(
        out,
        "{} {} {} {} {:016x}",
        name(answer.outcome),
        answer.list.len(),
        answer.nodes.len(),
        answer.closed,
        length.to_bits()
    );
    for (place, point) in answer.list.iter().enumerate() {
        let [x, y, z] = point.feet.map(f64::to_bits);
        let _ = writeln!(
            out,
            "{place} {} {x:016x} {y:016x} {z:016x} {:016x} {}",
            MOVEMENTS[point.movement as usize],
            point.lift.to_bits(),
            point.door
        );
    }
    out
}

/// The line of a refusal.
pub fn print_refusal(refusal: Refusal) -> String {
    format!("refused {} {}\n", refusal.number, refusal.record)
}
