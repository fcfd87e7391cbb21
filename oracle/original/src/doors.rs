//! Doors (02, No. 5), which the original does not name. They are the reading's
//! (`oracle/reading`, `doors`); a second scan, over the original's own boxes and
//! the blocks that stand in for its world, must say the same.

use reading::{Area, Graph, Variant::ReadAsWritten};
use scene::{Answer, NO_DOOR, NO_PARENT, Scene, Waypoint};

use crate::search::{Checks, World};

/// An answer of the original with its doors: of each node the door of its edge
/// from its parent, which is the last one's where it was re-parented; of each
/// waypoint that of its edge from the one before; of the start none.
pub(crate) fn doored(scene: &Scene, mut answer: Answer) -> Answer {
    if answer.nodes.is_empty() {
        return answer;
    }
    let checks = Checks::new(scene);
    let feet: Vec<[f64; 3]> = answer.nodes.iter().map(|node| node.point.feet).collect();
    for node in answer
        .nodes
        .iter_mut()
        .filter(|node| node.parent != NO_PARENT)
    {
        node.point.door = checks.door(feet[node.parent as usize], &node.point);
    }
    for place in 1..answer.list.len() {
        let from = answer.list[place - 1].feet;
        answer.list[place].door = checks.door(from, &answer.list[place]);
    }
    answer
}

impl Checks<'_> {
    /// The door of an edge from a point to a waypoint.
    pub(crate) fn door(&self, from: [f64; 3], point: &Waypoint) -> u64 {
        let areas = self.areas(from, point.lift, point.feet);
        let mut seen = areas.into_iter().map(|area| self.world.door_in(area));
        let seen = seen.find(|&door| door != NO_DOOR).unwrap_or(NO_DOOR);
        let read = self.reading().door(from, point);
        assert_eq!(
            read, seen,
            "two scans for a door part: {from:?} to {point:?}"
        );
        read
    }

    /// The first door of an area that is clear, none of another.
    pub fn door_in(&mut self, area: [f64; 6]) -> u64 {
        if !self.clear_area(area) {
            return NO_DOOR;
        }
        let [a, b, c, d, e, f] = area;
        let [min, max] = [[a, b, c], [d, e, f]];
        let (read, seen) = (
            self.reading().door_in(Area { min, max }),
            self.world.door_in(area),
        );
        assert_eq!(read, seen, "two scans for a door part: {area:?}");
        read
    }

    fn reading(&self) -> Graph<'_> {
        let (scene, edit) = (self.scene, ReadAsWritten);
        Graph { scene, edit }
    }
}

impl World {
    /// y slowest, then x, z fastest, as the original's check of an area goes.
    fn door_in(&self, area: [f64; 6]) -> u64 {
        let first = |axis: usize| area[axis].floor() as i32;
        let end = |axis: usize| area[axis + 3].ceil() as i32;
        for y in first(1)..end(1) {
            for x in first(0)..end(0) {
                for z in first(2)..end(2) {
                    if let Some(state) = self.passable([x, y, z], area) {
                        return state.into();
                    }
                }
            }
        }
        NO_DOOR
    }
}
