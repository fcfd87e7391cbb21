//! 01's section "The graph": ranges, clear areas, standing, the connector and
//! the same point. Supported segments, edges and graph steps have files of
//! their own.
//!
//! Every variant is switched at the words that it misreads, by `self.is(..)`
//! or in a `match` whose last arm is the reading.

use std::ops::RangeInclusive;

use scene::{Scene, Waypoint};

use crate::Variant::{self, *};
use crate::boxes::{Area, Point, X, Y, Z, add};
use crate::world::{Cell, cell};

/// "E is 1.0e-7 as f64."
pub const E: f64 = 1.0e-7;

/// The graph of a scene, as a variant reads it.
pub struct Graph<'a> {
    pub scene: &'a Scene,
    pub edit: Variant,
}

/// "Floor to a cell number (saturating at the i32 ends, NaN to 0, as Rust's
/// `as`)."
pub(crate) fn floor(x: f64) -> i64 {
    i64::from(x.floor() as i32)
}

/// As `floor`, upwards.
pub(crate) fn ceil(x: f64) -> i64 {
    i64::from(x.ceil() as i32)
}

/// The unit cube of a cell.
pub(crate) fn voxel(at: [i64; 3]) -> Area {
    let min = at.map(|n| n as f64);
    Area {
        min,
        max: add(min, [1.0; 3]),
    }
}

/// "Same point: equal bits, with -0.0 as 0."
pub fn same_point(a: Point, b: Point, edit: Variant) -> bool {
    let word = |n: f64| {
        if n == 0.0 && edit != ZeroSignCounts {
            0
        } else {
            n.to_bits()
        }
    };
    match edit {
        SamePointWithinE => (0..3).all(|axis| (a[axis] - b[axis]).abs() <= E),
        SamePointByColumn => word(a[X]) == word(b[X]) && word(a[Z]) == word(b[Z]),
        _ => a.map(word) == b.map(word),
    }
}

impl Graph<'_> {
    pub(crate) fn is(&self, edit: Variant) -> bool {
        self.edit == edit
    }

    pub(crate) fn cell(&self, x: i64, y: i64, z: i64) -> Cell<'_> {
        cell(&self.scene.tables, [x, y, z], self.edit)
    }

    pub(crate) fn body_at(&self, feet: Point) -> Area {
        Area::from_feet(feet, self.scene.body.width, self.scene.body.height)
    }

    /// "In range: each coordinate differs from the start's by at most
    /// max_range + E."
    pub fn in_range(&self, feet: Point) -> bool {
        let request = &self.scene.request;
        let most = match self.edit {
            RangeWithoutE => request.max_range,
            _ => request.max_range + E,
        };
        let far = |axis: usize| (feet[axis] - request.start[axis]).abs();
        match self.edit {
            RangeAtEOut => [X, Y, Z].into_iter().all(|axis| far(axis) < most),
            RangeEOnTheDifference => [X, Y, Z]
                .into_iter()
                .all(|axis| far(axis) - E <= request.max_range),
            RangeFlat => [X, Z].into_iter().all(|axis| far(axis) <= most),
            ToldNanInRange => [X, Y, Z]
                .into_iter()
                .all(|axis| far(axis) <= most || far(axis).is_nan()),
            RangeRound => (far(X) * far(X) + far(Y) * far(Y) + far(Z) * far(Z)).sqrt() <= most,
            _ => [X, Y, Z].into_iter().all(|axis| far(axis) <= most),
        }
    }

    /// "Clear: of the cells from floor(min) to ceil(max) - 1 on each axis, and
    /// one layer below, none has a box that intersects the area, and none
    /// whose voxel does lacks bit 1."
    pub fn clear(&self, area: Area) -> bool {
        let [xs, ys, zs] = self.clear_cells(&area);
        ys.into_iter().all(|y| {
            xs.clone().all(|x| {
                zs.clone()
                    .all(|z| self.clear_of(&area, [x, y, z], &self.cell(x, y, z)))
            })
        })
    }

    pub(crate) fn clear_cells(&self, area: &Area) -> [RangeInclusive<i64>; 3] {
        let first = |axis: usize| match self.edit {
            ClearFromCeilX if axis == X => ceil(area.min[axis]),
            ClearFromCeilZ if axis == Z => ceil(area.min[axis]),
            _ => floor(area.min[axis]),
        };
        let last = |axis: usize| match self.edit {
            ClearToFloorX if axis == X => floor(area.max[axis]),
            ClearToFloorY if axis == Y => floor(area.max[axis]),
            ClearToFloorZ if axis == Z => floor(area.max[axis]),
            ClearTopLayerMissing if axis == Y => ceil(area.max[axis]) - 2,
            _ => ceil(area.max[axis]) - 1,
        };
        let below = match self.edit {
            ClearLowerLayerMissing => 0,
            ClearTwoLowerLayers => 2,
            ClearLowerLayerOnlyUnderLayers if last(Y) < first(Y) => 0,
            _ => 1,
        };
        [
            first(X)..=last(X),
            first(Y) - below..=last(Y),
            first(Z)..=last(Z),
        ]
    }

    /// The cell at `at` leaves the area clear.
    fn clear_of(&self, area: &Area, at: [i64; 3], cell: &Cell) -> bool {
        let touching = match self.edit {
            BoxTouchingX => Some(X),
            BoxTouchingY => Some(Y),
            BoxTouchingZ => Some(Z),
            _ => None,
        };
        let hit = cell.boxes().any(|shape| shape.intersects(area, touching));
        let inside = match self.edit {
            VoxelTouchingY => voxel(at).intersects(area, Some(Y)),
            OccupiedOfEveryCell => true,
            OccupiedUnread => false,
            _ => voxel(at).intersects(area, None),
        };
        let hit = hit && !(self.is(ClearBoxesOfOccupiableUnread) && cell.occupied);
        !hit && (cell.occupied || !inside)
    }

    /// The body is clear at the point and supported there.
    pub fn standable(&self, feet: Point) -> bool {
        self.clear(self.body_at(feet)) && self.supported(feet, feet)
    }

    /// "Connector: an edge to the goal with both horizontal differences at
    /// most 1.5."
    pub fn connector(&self, from: Point) -> Option<Waypoint> {
        let goal = self.scene.request.goal;
        let far = |axis: usize| (from[axis] - goal[axis]).abs();
        let near = match self.edit {
            ConnectorBelow => far(X) < 1.5 && far(Z) < 1.5,
            ConnectorWithinOne => far(X) <= 1.0 && far(Z) <= 1.0,
            ConnectorWithE => far(X) <= 1.5 + E && far(Z) <= 1.5 + E,
            ConnectorXUnread => far(Z) <= 1.5,
            ConnectorZUnread => far(X) <= 1.5,
            ConnectorAlsoVertical => (0..3).all(|axis| far(axis) <= 1.5),
            ConnectorRound => (far(X) * far(X) + far(Z) * far(Z)).sqrt() <= 1.5,
            _ => far(X) <= 1.5 && far(Z) <= 1.5,
        };
        if near { self.edge(from, goal) } else { None }
    }
}
