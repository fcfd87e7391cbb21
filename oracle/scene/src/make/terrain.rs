//! What fills the cells, and where a body could stand.

use super::{AIR, Draft, E, FLOOR, GROUND};
use crate::random::Random;

impl Draft {
    fn any_shape(&mut self) -> u32 {
        self.random.from_to(1, self.shapes.len() as i64 - 1) as u32
    }

    fn any_state(&mut self) -> u32 {
        // One past the table is an unknown state.
        let past = u64::from(self.random.once_in(12));
        self.random.below(self.permissions.len() as u64 + past) as u32
    }

    pub(super) fn terrain(&mut self) {
        let [width, height, depth] = self.sizes;
        let rough = self.random.one_of(&[3, 5, 8, 20]);
        for z in 0..depth {
            for x in 0..width {
                let floor = self.floor(x, z, rough).min(height - 2);
                for y in 0..=floor {
                    let place = self.at(x, y, z);
                    self.cells[place] = FLOOR;
                }
                self.surface(x, floor, z, rough);
            }
        }
        self.strew();
    }

    /// The highest ground cell of a column.
    fn floor(&mut self, x: usize, z: usize, rough: u64) -> usize {
        let wall = match self.kind {
            "mazes" => {
                let post = x % 2 == 1 && z % 2 == 1;
                post || ((x % 2 == 1) != (z % 2 == 1) && self.random.once_in(3))
            }
            "open" => self.random.once_in(rough + 4),
            "levels" | "far" => return self.slope(x, z),
            _ => self.random.once_in(2 * rough),
        };
        if wall {
            self.random.from_to(1, 2) as usize
        } else {
            0
        }
    }

    /// Ground that mostly goes on as high as in the column before.
    fn slope(&mut self, x: usize, z: usize) -> usize {
        let neighbour = match (x, z) {
            (0, 0) => return self.random.below(3) as usize,
            (0, _) => (0, z - 1),
            _ => (x - 1, z),
        };
        let height = self.sizes[1];
        let ground = |y: usize| self.cells[self.at(neighbour.0, y, neighbour.1)] == FLOOR;
        let level = (0..height).take_while(|&y| ground(y)).count().max(1) - 1;
        match self.random.below(10) {
            0 => level + 1,
            1 => level.saturating_sub(1),
            2 => self.random.below(3) as usize,
            _ => level,
        }
    }

    /// What stands on the ground of a column.
    fn surface(&mut self, x: usize, floor: usize, z: usize, rough: u64) {
        if self.kind == "mazes" || self.kind == "open" || !self.random.once_in(rough.min(5)) {
            return;
        }
        let place = self.at(x, floor + 1, z);
        let state = if matches!(self.kind, "doors" | "forbidden") || self.random.once_in(6) {
            self.any_state()
        } else {
            GROUND
        };
        self.cells[place] = (state, self.any_shape());
        if matches!(self.kind, "ties" | "borders") && self.random.once_in(2) {
            // Instead of the ground itself, so that tops differ by little.
            let place = self.at(x, floor, z);
            self.cells[place] = (GROUND, self.any_shape());
        }
    }

    /// A few cells anywhere: ceilings, holes, unknown shapes.
    fn strew(&mut self) {
        let count = self.random.below(1 + self.cells.len() as u64 / 24);
        for _ in 0..count {
            let place = self.random.below(self.cells.len() as u64) as usize;
            self.cells[place] = match self.random.below(8) {
                0..=2 => (AIR, 0),
                3 | 4 => (self.any_state(), 0),
                5 => (self.any_state(), self.any_shape()),
                6 => (GROUND, self.any_shape()),
                _ if self.random.once_in(4) => (AIR, self.shapes.len() as u32),
                _ => FLOOR,
            };
        }
    }

    /// The tops of a column's boxes, where its states collide.
    fn tops(&self, x: usize, z: usize) -> Vec<f64> {
        let mut tops = Vec::new();
        for y in 0..self.sizes[1] {
            let (state, shape) = self.cells[self.at(x, y, z)];
            let permission = self.permissions.get(state as usize);
            if permission.is_some_and(|byte| byte & 4 != 0) {
                let boxes = self.shapes.get(shape as usize).into_iter().flatten();
                let floor = f64::from(self.origin[1] + y as i32);
                tops.extend(boxes.map(|numbers| numbers[4] + floor));
            }
        }
        tops
    }

    /// Whether the two cells above a top are likely to be free.
    fn roomy(&self, x: usize, top: f64, z: usize) -> bool {
        let [width, height, depth] = self.sizes;
        let edge = x == 0 || z == 0 || x + 1 == width || z + 1 == depth;
        let low = (top - f64::from(self.origin[1])).ceil() as usize;
        let free = |y: usize| y < height && self.cells[self.at(x, y, z)] == (AIR, 0);
        !edge && free(low) && (free(low + 1) || self.kind == "bodies")
    }

    /// A top and its column, mostly with room above it.
    fn place(&mut self) -> (usize, f64, usize) {
        let careless = self.random.once_in(12);
        let mut place = (0, f64::from(self.origin[1] + 1), 0);
        for _ in 0..40 {
            let x = self.random.below(self.sizes[0] as u64) as usize;
            let z = self.random.below(self.sizes[2] as u64) as usize;
            let tops = self.tops(x, z);
            if let Some(&last) = tops.last() {
                let any = tops[self.random.below(tops.len() as u64) as usize];
                let top = if self.random.once_in(4) { any } else { last };
                place = (x, top, z);
                if careless || self.roomy(x, top, z) {
                    break;
                }
            }
        }
        place
    }

    /// A point on a top of a column, perhaps off its centre.
    pub(super) fn point(&mut self) -> [f64; 3] {
        let (x, top, z) = self.place();
        let offset = |random: &mut Random| match random.below(8) {
            0 | 1 => random.one_of(&[0.0, 0.25, 0.3125, 0.75, 0.5 + E, 0.5 - E]),
            2 => random.part(),
            _ => 0.5,
        };
        let mut point = [
            f64::from(self.origin[0] + x as i32) + offset(&mut self.random),
            top,
            f64::from(self.origin[2] + z as i32) + offset(&mut self.random),
        ];
        if self.random.once_in(16) {
            point[1] += self.random.one_of(&[E, -E, 0.5 * E, 2.0 * E, 0.1]);
        }
        if self.kind == "zeros" {
            point = point.map(|c| {
                let near = if self.random.once_in(3) { c.round() } else { c };
                if near == 0.0 && self.random.once_in(2) {
                    -0.0
                } else {
                    near
                }
            });
        }
        point
    }

    /// A point of the start's row, mostly.
    pub(super) fn in_line(&mut self, start: [f64; 3]) -> [f64; 3] {
        let mut point = self.point();
        for _ in 0..20 {
            if point[2] == start[2] {
                break;
            }
            point = self.point();
        }
        point
    }
}
