//! 01's records as the bytes that a caller lends and is given, little-endian.

use crate::{Body, FrontierRecord, NodeRecord, Request, Waypoint, Window};

/// Bytes of a waypoint, of a node record, which is a waypoint and 16 bytes more,
/// and of a frontier record.
pub const WAYPOINT: usize = 48;
pub const NODE: usize = 64;
pub const WAITING: usize = 24;

impl Window {
    /// Origin, then sizes.
    pub fn bytes(&self) -> [u8; 24] {
        let numbers = self.origin.map(i32::cast_unsigned);
        let mut out = [0; 24];
        for (place, number) in numbers.into_iter().chain(self.sizes).enumerate() {
            out[4 * place..][..4].copy_from_slice(&number.to_le_bytes());
        }
        out
    }
}

impl Request {
    /// Start, goal, range, step, jump and drop, then the budget.
    pub fn bytes(&self) -> [u8; 88] {
        let rest = [
            self.max_range,
            self.step_height,
            self.jump_height,
            self.max_drop,
        ];
        let mut out = [0; 88];
        put_floats(&mut out, &[&self.start[..], &self.goal, &rest].concat());
        out[80..].copy_from_slice(&self.node_budget.to_le_bytes());
        out
    }
}

impl Body {
    /// Width, height, step height.
    pub fn bytes(&self) -> [u8; 24] {
        let mut out = [0; 24];
        put_floats(&mut out, &[self.width, self.height, self.step_height]);
        out
    }
}

impl Waypoint {
    /// Feet, lift, movement, door.
    pub fn bytes(&self) -> [u8; WAYPOINT] {
        let [x, y, z] = self.feet;
        let mut out = [0; WAYPOINT];
        put_floats(&mut out, &[x, y, z, self.lift]);
        out[32..40].copy_from_slice(&self.movement.to_le_bytes());
        out[40..].copy_from_slice(&self.door.to_le_bytes());
        out
    }

    /// The waypoint of a record, whatever its words.
    pub fn from_bytes(record: &[u8]) -> Self {
        Self {
            feet: [0, 8, 16].map(|at| f64_at(record, at)),
            lift: f64_at(record, 24),
            movement: u64_at(record, 32),
            door: u64_at(record, 40),
        }
    }
}

impl NodeRecord {
    /// The waypoint, cost, parent, closed.
    pub fn bytes(&self) -> [u8; NODE] {
        let mut out = [0; NODE];
        out[..WAYPOINT].copy_from_slice(&self.point.bytes());
        put_floats(&mut out[WAYPOINT..], &[self.cost]);
        out[56..60].copy_from_slice(&self.parent.to_le_bytes());
        out[60..].copy_from_slice(&self.closed.to_le_bytes());
        out
    }

    /// The node of a record, whatever its words.
    pub fn from_bytes(record: &[u8]) -> Self {
        Self {
            point: Waypoint::from_bytes(record),
            cost: f64_at(record, WAYPOINT),
            parent: u32_at(record, 56),
            closed: u32_at(record, 60),
        }
    }
}

impl FrontierRecord {
    /// Estimate, push order, waiting.
    pub fn bytes(&self) -> [u8; WAITING] {
        let mut out = [0; WAITING];
        put_floats(&mut out, &[self.estimate]);
        out[8..16].copy_from_slice(&self.push.to_le_bytes());
        out[16..].copy_from_slice(&self.waiting.to_le_bytes());
        out
    }

    /// What a record says, whatever its words.
    pub fn from_bytes(record: &[u8]) -> Self {
        Self {
            estimate: f64_at(record, 0),
            push: u64_at(record, 8),
            waiting: u64_at(record, 16),
        }
    }
}

fn put_floats(out: &mut [u8], numbers: &[f64]) {
    for (place, number) in numbers.iter().enumerate() {
        out[8 * place..][..8].copy_from_slice(&number.to_bits().to_le_bytes());
    }
}

pub fn u32_at(bytes: &[u8], at: usize) -> u32 {
    u32::from_le_bytes(bytes[at..at + 4].try_into().expect("4 bytes"))
}

pub fn u64_at(bytes: &[u8], at: usize) -> u64 {
    u64::from_le_bytes(bytes[at..at + 8].try_into().expect("8 bytes"))
}

pub fn f64_at(bytes: &[u8], at: usize) -> f64 {
    f64::from_bits(u64_at(bytes, at))
}
