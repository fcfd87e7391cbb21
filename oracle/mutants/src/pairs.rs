//! Pairs of points for an edge check: from the nodes of a scene's search to the
//! heights around them, and to points a little off those; from far and from
//! nowhere.

use original::Checks;
use scene::Scene;

use crate::chance::Chance;

pub type Point = [f64; 3];

/// How far a point is put off on an axis: around E, and by whole parts of a cell.
const OFF: [f64; 10] = [
    0.0, 0.0, 1.0e-7, -1.0e-7, 2.0e-7, -2.0e-7, 0.25, -0.25, 1.0, -1.0,
];

/// Coordinates that no point of a search has.
const FAR: [f64; 7] = [
    1.0e9,
    -1.0e9,
    1.0e300,
    -1.0e300,
    f64::NAN,
    f64::INFINITY,
    f64::NEG_INFINITY,
];

/// From the start to the goal, and of a scene that a search would not refuse
/// each retained node with each height around it.
pub fn pairs(scene: &Scene, refused: bool) -> Vec<(Point, Point)> {
    let mut out = vec![(scene.request.start, scene.request.goal)];
    if !refused {
        out.extend(Checks::new(scene).neighbours(scene));
    }
    out
}

/// The pair with its target put off, in half of all cases, and now and then a
/// coordinate of either point far away or no number.
pub fn put_off((mut from, mut to): (Point, Point), chance: &mut Chance) -> (Point, Point) {
    if chance.once_in(2) {
        to = to.map(|at| at + chance.pick(&OFF));
    }
    for point in [&mut from, &mut to] {
        if chance.once_in(16) {
            point[chance.below(3)] = chance.pick(&FAR);
        }
    }
    (from, to)
}
