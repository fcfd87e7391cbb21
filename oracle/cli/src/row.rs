//! The digest that the gate's programs print: a row of numbers, folded to one.
//! oracle/README.md describes it.

use scene::{Walked, Waypoint};

use crate::geometry::edge_number;

/// Marsaglia's xorshift: the word after one in a row of all words but 0.
pub fn stirred(mut w: u64) -> u64 {
    w ^= w << 13;
    w ^= w >> 7;
    w ^ w << 17
}

/// A row of numbers, folded to one.
#[derive(Debug, Clone, Copy)]
pub struct Row(pub u64);

impl Row {
    pub fn take(&mut self, x: u64) {
        self.0 = stirred(self.0.wrapping_add(x ^ 0x9e37_79b9_7f4a_7c15));
    }

    pub fn take_float(&mut self, x: f64) {
        self.take(bits(x));
    }

    /// Eight bytes to a number.
    pub fn take_words(&mut self, bytes: &[u8]) {
        for word in bytes.as_chunks().0 {
            self.take(u64::from_le_bytes(*word));
        }
    }

    pub fn take_height(&mut self, height: Option<f64>) {
        match height {
            Some(y) => self.take_float(y),
            None => self.take(4),
        }
    }

    /// An edge check: its number, then feet, lift and door, if there is an edge.
    pub fn take_check(&mut self, check: Result<Waypoint, u64>) {
        self.take(edge_number(check));
        if let Ok(point) = check {
            self.take_point(&point);
        }
    }

    /// A connector: its movement, feet, lift and door; 4 if there is none.
    pub fn take_connector(&mut self, edge: Option<Waypoint>) {
        let Some(point) = edge else {
            self.take(4);
            return;
        };
        self.take(point.movement);
        self.take_point(&point);
    }

    fn take_point(&mut self, point: &Waypoint) {
        for number in [point.feet[0], point.feet[1], point.feet[2], point.lift] {
            self.take_float(number);
        }
        self.take(point.door);
    }

    /// A walk-back: its number, then its place, 0 if there is none, then the
    /// list's length.
    pub fn take_walked(&mut self, walked: Walked, length: f64) {
        self.take(walked.number);
        self.take(walked.place.unwrap_or(0));
        self.take_float(length);
    }
}

/// A float's bits, with one pattern for every NaN.
pub fn bits(x: f64) -> u64 {
    if x.is_nan() {
        0x7ff8_0000_0000_0000
    } else {
        x.to_bits()
    }
}
