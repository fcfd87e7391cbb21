//! Lookups in an index of points, and how many slots they look at.

use reading::index;

/// A point's three words.
pub type Point = [u64; 3];

/// Some lookups: how many, the slots of all, and the most that one looked at.
#[derive(Clone, Copy, Default)]
pub struct Lookups {
    pub count: usize,
    pub slots: usize,
    pub longest: usize,
}

impl Lookups {
    fn add(&mut self, slots: usize) {
        self.count += 1;
        self.slots += slots;
        self.longest = self.longest.max(slots);
    }

    /// These and others.
    pub fn and(self, other: Self) -> Self {
        Self {
            count: self.count + other.count,
            slots: self.slots + other.slots,
            longest: self.longest.max(other.longest),
        }
    }

    pub fn mean(&self) -> f64 {
        self.slots as f64 / self.count as f64
    }
}

/// Lookups of points that are there, and of points that are not.
#[derive(Clone, Copy, Default)]
pub struct Both {
    pub there: Lookups,
    pub absent: Lookups,
}

impl Both {
    pub fn and(self, other: Self) -> Self {
        Self {
            there: self.there.and(other.there),
            absent: self.absent.and(other.absent),
        }
    }
}

/// Enters points, all different, into an index of so many slots, then looks for
/// each of them and for the points beside them; of those only the ones that are
/// not there count. None if a point is not found as the one it is.
pub fn look(points: &[Point], slots: usize, beside: &[Point]) -> Option<Both> {
    let mut room = vec![0; 4 * slots];
    let mut both = Both::default();
    if index::enter(&mut room, points) != points.len() {
        return None;
    }
    for (k, &point) in points.iter().enumerate() {
        let (found, looked) = index::probes(&room, points, point);
        if found != k {
            return None;
        }
        both.there.add(looked);
    }
    for &point in beside {
        let (found, looked) = index::probes(&room, points, point);
        if found == points.len() {
            both.absent.add(looked);
        }
    }
    Some(both)
}

/// What a perfect hash looks at in the mean, where so many points are in so many
/// slots: for a point that is there, and for one that is not.
pub fn perfect(points: usize, slots: usize) -> [f64; 2] {
    let free = 1.0 - points as f64 / slots as f64;
    [(1.0 + 1.0 / free) / 2.0, (1.0 + 1.0 / (free * free)) / 2.0]
}
