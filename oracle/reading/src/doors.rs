//! 02's No. 5, "Waypoints should name the door": "the state number, as u64, of
//! the first crossed cell that is known, lacks bit 4 and whose voxel intersects a
//! corridor area, taken in lift, crossing, settle order and within each in the
//! clear check's y, x, z order; 4294967295 when there is none".

use scene::{NO_DOOR, Waypoint};

use crate::Variant::*;
use crate::boxes::{Area, Point, X, Y, Z};
use crate::graph::{Graph, voxel};
use crate::world::door_state;

/// The lift, crossing and settle areas of an edge.
pub(crate) type Corridor = [Area; 3];

impl Graph<'_> {
    /// The door of an edge that passes, by what it answers and where it begins.
    pub fn door(&self, from: Point, point: &Waypoint) -> u64 {
        let corridor = self.corridor(from, point.feet, point.movement, point.lift);
        self.corridor_door(from, &corridor)
    }

    /// The first door of one area.
    pub fn door_in(&self, area: Area) -> u64 {
        self.doors_in(&area)
            .first()
            .map_or(NO_DOOR, |(_, door)| *door)
    }

    /// "Taken in lift, crossing, settle order."
    pub(crate) fn corridor_door(&self, from: Point, corridor: &Corridor) -> u64 {
        let [lift, crossing, settle] = corridor;
        let order = match self.edit {
            DoorCrossingBeforeLift => vec![crossing, lift, settle],
            DoorSettleBeforeCrossing => vec![lift, settle, crossing],
            DoorOfTheCrossing => vec![crossing],
            DoorNotOfTheSettle => vec![lift, crossing],
            _ => vec![lift, crossing, settle],
        };
        let body = self.body_at(from);
        let left =
            |at: [i64; 3]| self.is(DoorNotOfTheCellLeft) && voxel(at).intersects(&body, None);
        let all = order.into_iter().flat_map(|area| self.doors_in(area));
        let mut doors = all.filter(|(at, _)| !left(*at)).map(|(_, door)| door);
        let named = match self.edit {
            DoorLast => doors.next_back(),
            _ => doors.next(),
        };
        named.unwrap_or(NO_DOOR)
    }

    /// The doors of an area in order, each with its cell. The layer below is the
    /// clear check's too, but no voxel of it intersects.
    fn doors_in(&self, area: &Area) -> Vec<([i64; 3], u64)> {
        let door = |at: [i64; 3]| {
            let inside = match self.edit {
                DoorVoxelUnread => true,
                DoorVoxelTouchingY => voxel(at).intersects(area, Some(Y)),
                _ => voxel(at).intersects(area, None),
            };
            let state = door_state(&self.scene.tables, at, self.edit).filter(|_| inside)?;
            Some((at, u64::from(state)))
        };
        self.crossed(area).into_iter().filter_map(door).collect()
    }

    /// The clear check's cells, "in the clear check's y, x, z order".
    fn crossed(&self, area: &Area) -> Vec<[i64; 3]> {
        let ranges = self.clear_cells(area);
        // The axes from the slowest to the fastest.
        let [slow, middle, fast] = match self.edit {
            DoorOrderYZX => [Y, Z, X],
            DoorOrderXYZ => [X, Y, Z],
            DoorOrderXZY => [X, Z, Y],
            _ => [Y, X, Z],
        };
        let mut cells = Vec::new();
        for a in ranges[slow].clone() {
            for b in ranges[middle].clone() {
                for c in ranges[fast].clone() {
                    let mut at = [0; 3];
                    (at[slow], at[middle], at[fast]) = (a, b, c);
                    cells.push(at);
                }
            }
        }
        if self.is(DoorFromTheTop) {
            cells.sort_by_key(|at| -at[Y]);
        }
        cells
    }
}
