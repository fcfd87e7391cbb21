//! 01's "Route", and the points that graph steps reach.

use scene::{Scene, Waypoint};

use crate::Variant::ReadAsWritten;
use crate::boxes::Point;
use crate::graph::{Graph, same_point};
use crate::request::valid_request;

/// The graph as 01 reads.
fn graph(scene: &Scene) -> Graph<'_> {
    Graph {
        scene,
        edit: ReadAsWritten,
    }
}

fn same(a: Point, b: Point) -> bool {
    same_point(a, b, ReadAsWritten)
}

/// The same point, movement and lift, which "compare as numbers", and "the right
/// door too" (02, No. 5).
fn agrees(claimed: &Waypoint, edge: &Waypoint) -> bool {
    same(claimed.feet, edge.feet)
        && claimed.movement == edge.movement
        && claimed.lift == edge.lift
        && claimed.door == edge.door
}

/// "Route: valid request; goal in range; both ends standable; points compared
/// by that rule, the start first (Walk, lift 0); each pair a graph step with
/// its edge's movement and lift, the last pair allowed to be a connector; the
/// last point equal to the goal. A single point is a route when start equals
/// goal."
pub fn is_route(scene: &Scene, list: &[Waypoint]) -> bool {
    let request = &scene.request;
    let graph = graph(scene);
    let start = Waypoint::walked(request.start);
    let (Some(first), Some(last)) = (list.first(), list.last()) else {
        return false;
    };
    valid_request(scene, ReadAsWritten)
        && graph.in_range(request.goal)
        && graph.standable(request.start)
        && graph.standable(request.goal)
        && agrees(first, &start)
        && list.windows(2).enumerate().all(|(place, pair)| {
            let steps = graph.steps(pair[0].feet, &|_| false);
            let connector = graph.connector(pair[0].feet);
            steps.iter().any(|step| agrees(&pair[1], step))
                || place + 2 == list.len()
                    && connector.is_some_and(|connector| agrees(&pair[1], &connector))
        })
        && same(last.feet, request.goal)
}

/// All distinct points that graph steps reach from the start, the start first,
/// in discovery order and without the connector; at most `most` of them.
pub fn reachable_points(scene: &Scene, most: usize) -> Vec<Point> {
    let graph = graph(scene);
    let mut points = vec![scene.request.start];
    let mut next = 0;
    while next < points.len() {
        for step in graph.steps(points[next], &|_| false) {
            if points.len() < most && !points.iter().any(|&point| same(point, step.feet)) {
                points.push(step.feet);
            }
        }
        next += 1;
    }
    points
}
