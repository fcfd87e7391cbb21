//! 01's module "Boxes": points, boxes of two corners, and the four things done
//! with them. One rounding per operation, in the source's order.

use crate::Variant;

/// A point: x, y, z.
pub type Point = [f64; 3];

pub const X: usize = 0;
pub const Y: usize = 1;
pub const Z: usize = 2;

/// A box is two corners of three numbers each.
#[derive(Debug, Clone, Copy, PartialEq)]
pub struct Area {
    pub min: Point,
    pub max: Point,
}

fn per_axis(f: impl Fn(usize) -> f64) -> Point {
    [f(X), f(Y), f(Z)]
}

/// One rounding a coordinate.
pub fn add(a: Point, b: Point) -> Point {
    per_axis(|axis| a[axis] + b[axis])
}

/// One rounding a coordinate.
pub fn minus(a: Point, b: Point) -> Point {
    per_axis(|axis| a[axis] - b[axis])
}

/// "Distance is the root of x² + y² + z² summed left to right."
pub fn distance(from: Point, to: Point, edit: Variant) -> f64 {
    let [x, y, z] = minus(to, from);
    match edit {
        Variant::DistanceFromZToX => (z * z + y * y + x * x).sqrt(),
        Variant::DistanceFlat => (x * x + z * z).sqrt(),
        Variant::DistanceAlongAxes => x.abs() + y.abs() + z.abs(),
        _ => (x * x + y * y + z * z).sqrt(),
    }
}

impl Area {
    /// The body that stands at `feet`.
    pub fn from_feet(feet: Point, width: f64, height: f64) -> Self {
        let half = width / 2.0;
        Self {
            min: [feet[X] - half, feet[Y], feet[Z] - half],
            max: [feet[X] + half, feet[Y] + height, feet[Z] + half],
        }
    }

    /// Both corners moved.
    pub fn offset(self, by: Point) -> Self {
        Self {
            min: add(self.min, by),
            max: add(self.max, by),
        }
    }

    /// Grown in the direction of `by` only.
    pub fn expand_towards(self, by: Point) -> Self {
        Self {
            min: add(self.min, by.map(|n| n.min(0.0))),
            max: add(self.max, by.map(|n| n.max(0.0))),
        }
    }

    /// Whether two boxes share room, strictly on every axis. The variants
    /// let faces touch on the axis that they name.
    pub fn intersects(&self, other: &Self, touching: Option<usize>) -> bool {
        (0..3).all(|axis| {
            if touching == Some(axis) {
                self.min[axis] <= other.max[axis] && self.max[axis] >= other.min[axis]
            } else {
                self.min[axis] < other.max[axis] && self.max[axis] > other.min[axis]
            }
        })
    }
}
