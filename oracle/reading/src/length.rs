//! 02's No. 2, "The printed length is too short on stairs. The guide lifts,
//! crosses and settles; document 01 sums straight lines. .. This amends 01's
//! length only, not the search's cost."

use scene::{Verdict, WAYPOINT, Waypoint, f64_at, print as lines, print_refusal};

use crate::Variant::{self, *};
use crate::boxes::Point;

/// What a length reads of a record.
#[derive(Debug, Clone, Copy)]
pub(crate) struct Stop {
    pub feet: Point,
    pub lift: f64,
}

/// The length of a list of waypoint records, which need be no route: "the f64
/// sum, from 0.0 in list order" (01), of the edges between neighbours.
pub fn length(list: &[u8], edit: Variant) -> f64 {
    let stops = stops(list, edit);
    let mut edges = edges_of(&stops, edit);
    if edit == LengthFromTheEnd {
        edges.reverse();
    }
    let first = match edit {
        LengthFromMinusZero => -0.0,
        LengthWithTheFirstLift => stops.first().map_or(0.0, |stop| stop.lift),
        _ => 0.0,
    };
    edges.into_iter().fold(first, |sum, edge| match edit {
        LengthPartByPart => edge.into_iter().fold(sum, |sum, part| sum + part),
        _ => sum + added(edge, edit),
    })
}

/// Lift, crossing and settling of each edge of a list.
pub fn edges(list: &[u8]) -> Vec<[f64; 3]> {
    edges_of(&stops(list, ReadAsWritten), ReadAsWritten)
}

/// The length of one edge.
pub(crate) fn edge_length(from: Stop, to: Stop) -> f64 {
    added(parts(from, to, ReadAsWritten), ReadAsWritten)
}

/// Whether two numbers are the same: by their bits, and every NaN is one NaN.
pub fn same_number(a: f64, b: f64) -> bool {
    a.to_bits() == b.to_bits() || a.is_nan() && b.is_nan()
}

/// What walkprint prints of an answer or a refusal.
pub fn print(verdict: &Verdict, edit: Variant) -> String {
    match verdict {
        Ok(answer) => {
            let list: Vec<u8> = answer.list.iter().flat_map(Waypoint::bytes).collect();
            lines(answer, length(&list, edit))
        }
        Err(refusal) => print_refusal(*refusal),
    }
}

/// The whole records of a list: "A partial record at the end is not read"
/// (include/walkprint.h).
fn stops(list: &[u8], edit: Variant) -> Vec<Stop> {
    let size = match edit {
        LengthOfOldRecords => 40,
        LengthOfNodeRecords => 64,
        _ => WAYPOINT,
    };
    let mut whole = list.to_vec();
    if edit == LengthOfAPartialRecord {
        whole.resize(list.len().next_multiple_of(size), 0);
    }
    let stop = |record: &[u8]| Stop {
        feet: [0, 8, 16].map(|at| f64_at(record, at)),
        lift: f64_at(record, 24),
    };
    whole.chunks_exact(size).map(stop).collect()
}

fn edges_of(stops: &[Stop], edit: Variant) -> Vec<[f64; 3]> {
    let pairs = stops.windows(2);
    pairs.map(|pair| parts(pair[0], pair[1], edit)).collect()
}

/// "Lift, plus the root of dx² + dz², plus the size of to.y - (from.y + lift)":
/// the three parts of an edge. The lift is that of the edge to the later record.
fn parts(from: Stop, to: Stop, edit: Variant) -> [f64; 3] {
    let [dx, dy, dz] = [0, 1, 2].map(|axis| to.feet[axis] - from.feet[axis]);
    let lift = match edit {
        LengthByTheLiftBefore => from.lift,
        _ => to.lift,
    };
    let crossing = match edit {
        LengthStraight | LengthWithTheRise => (dx * dx + dy * dy + dz * dz).sqrt(),
        LengthAlongAxes => dx.abs() + dz.abs(),
        LengthFused => dx.mul_add(dx, dz * dz).sqrt(),
        LengthHypot => dx.hypot(dz),
        _ => (dx * dx + dz * dz).sqrt(),
    };
    let settle = match edit {
        LengthSettleFromFeet => dy.abs(),
        LengthSettleLessLift => (dy - lift).abs(),
        LengthSettleSigned => to.feet[1] - (from.feet[1] + lift),
        _ => (to.feet[1] - (from.feet[1] + lift)).abs(),
    };
    match edit {
        LengthStraight => [0.0, crossing, 0.0],
        LengthWithoutLift => [0.0, crossing, settle],
        LengthWithoutSettle => [lift, crossing, 0.0],
        _ => [lift, crossing, settle],
    }
}

/// "Added in that order, then added to the sum."
fn added([lift, crossing, settle]: [f64; 3], edit: Variant) -> f64 {
    match edit {
        LengthCrossingWithSettle => lift + (crossing + settle),
        LengthSettleBeforeCrossing => (lift + settle) + crossing,
        _ => (lift + crossing) + settle,
    }
}
