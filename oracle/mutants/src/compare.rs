//! What two answers to a scene have in common: everything, or where they part
//! first.

use reading::Variant::{self, ReadAsWritten};
use reading::print;
use scene::Verdict;

/// Outcome or refusal, list, counts and node records have the same bits.
pub fn same(a: &Verdict, b: &Verdict) -> bool {
    match (a, b) {
        (Ok(a), Ok(b)) => a.same_bits(b),
        (Err(a), Err(b)) => a == b,
        _ => false,
    }
}

/// Whether a variant's answer to a scene tells it from the reading, whose answer
/// is the right one: of a variant of lengths, whether it prints another length.
pub fn tells(right: &Verdict, wrong: &Verdict, edit: Variant) -> bool {
    match edit.is_of_lengths() {
        true => print(right, ReadAsWritten) != print(wrong, edit),
        false => !same(right, wrong),
    }
}

/// What parts them: the outcome, else the list, else the counts, else the node
/// records, else the length.
pub fn shown_by(a: &Verdict, b: &Verdict) -> &'static str {
    let (Ok(a), Ok(b)) = (a, b) else {
        return "outcome";
    };
    if a.same_bits(b) {
        return "length";
    }
    let lists = a.list.len() == b.list.len()
        && a.list
            .iter()
            .zip(&b.list)
            .all(|(x, y)| x.bytes() == y.bytes());
    if a.outcome != b.outcome {
        "outcome"
    } else if !lists {
        "list"
    } else if (a.nodes.len(), a.closed) != (b.nodes.len(), b.closed) {
        "counts"
    } else {
        "nodes"
    }
}

/// The first line where the printed answers part, else the first node record.
/// The second one is a variant's, and its length is worked out so.
pub fn parting(right: &Verdict, wrong: &Verdict, edit: Variant) -> [String; 2] {
    let (right, wrong) = (lines(right, ReadAsWritten), lines(wrong, edit));
    let length = right.len().max(wrong.len());
    for place in 0..length {
        let (x, y) = (right.get(place), wrong.get(place));
        if x != y {
            return [x, y].map(|line| line.cloned().unwrap_or("nothing".to_string()));
        }
    }
    ["the same".to_string(), "the same".to_string()]
}

fn lines(verdict: &Verdict, edit: Variant) -> Vec<String> {
    let printed = print(verdict, edit);
    let mut lines: Vec<String> = printed.lines().map(str::to_string).collect();
    for (place, node) in verdict
        .iter()
        .flat_map(|answer| answer.nodes.iter().enumerate())
    {
        let [x, y, z] = node.point.feet;
        lines.push(format!(
            "node {place} at {x} {y} {z}, movement {}, lift {:016x}, door {}, cost {:016x}, parent {}, closed {}",
            node.point.movement,
            node.point.lift.to_bits(),
            node.point.door,
            node.cost.to_bits(),
            node.parent as i32,
            node.closed
        ));
    }
    lines
}
