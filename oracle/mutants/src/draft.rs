//! Small random scenes that lie on borders on purpose: numbers at, just above
//! and just below a border, a border and E, and what sums of them round to.

use reading::{E, Graph, Variant};
use scene::{Record, Scene, write_bytes};

use crate::chance::Chance;

const LEVELS: [f64; 10] = [0.0, 0.0625, 0.25, 0.5, 0.5625, 0.75, 0.9375, 1.0, 1.5, 2.0];
const BORDERS: [f64; 12] = [
    -1.0, -0.5, 0.0, 0.125, 0.25, 0.375, 0.5, 0.625, 0.75, 1.0, 1.5, 2.0,
];
const PLACES: [f64; 10] = [0.5, 0.5, 0.5, 0.5, 0.0, 0.25, 0.3, 0.7, 0.1, 0.9];

/// Makes a scene from a seed.
pub fn draft(seed: u64) -> Vec<Record> {
    Draft::new(seed).records()
}

struct Draft {
    chance: Chance,
    /// One number in this many is moved off its border.
    nudges: usize,
    origin: [i32; 3],
    sizes: [u32; 3],
    shapes: Vec<(u32, [f64; 6])>,
    states: Vec<u8>,
    fills: Vec<Record>,
}

impl Draft {
    fn new(seed: u64) -> Self {
        let mut chance = Chance::new(seed);
        let nudges = chance.pick(&[1_000_000, 30, 8, 3]);
        let origin = match chance.below(8) {
            0 => [-3, -2, -3].map(|n| n + chance.between(-2, 2)),
            1 => [1000, 60, -1000],
            2 => [-1, -1, -1],
            _ => [0, 0, 0],
        };
        let sizes = [
            chance.between(1, 6),
            chance.between(3, 7),
            chance.between(1, 5),
        ];
        let mut this = Self {
            chance,
            nudges,
            origin,
            sizes: sizes.map(|n| n as u32),
            shapes: Vec::new(),
            states: vec![7, 7],
            fills: Vec::new(),
        };
        this.furnish();
        this
    }

    fn nudge(&mut self, number: f64) -> f64 {
        if !self.chance.once_in(self.nudges) {
            return number;
        }
        let e = self
            .chance
            .pick(&[0.5, 0.8, 1.0, 1.0, 1.0, 1.0, 1.2, 1.6, 2.0, 3.0])
            * E;
        let moved = match self.chance.below(10) {
            0 => number,
            1 => number + 0.1 * self.chance.part(),
            2..6 => number + e,
            _ => number - e,
        };
        match self.chance.below(6) {
            0 => moved.next_up(),
            1 => moved.next_down(),
            _ => moved,
        }
    }

    /// Shapes and states, then the cells.
    fn furnish(&mut self) {
        let top = self.chance.pick(&[0.0, 0.5, 1.0, 1.0, 1.0]);
        let floor = self.nudge(top);
        self.shapes
            .push((1, [0.0, -1.0_f64.min(floor), 0.0, 1.0, floor, 1.0]));
        let kinds = self.chance.between(1, 4) as u32;
        for shape in 2..2 + kinds {
            for _ in 0..self.chance.between(1, 3) {
                let numbers = self.shape_box(floor);
                self.shapes.push((shape, numbers));
            }
        }
        for _ in 0..self.chance.below(3) {
            let byte = self.chance.pick(&[7, 6, 5, 3, 2, 1, 0, 4]);
            self.states.push(byte);
        }
        self.build(kinds);
    }

    /// Air, mostly a floor, and a few cells of any state and shape.
    fn build(&mut self, kinds: u32) {
        let [x, y, z] = self.origin;
        let [width, tall, depth] = self.sizes.map(|n| n as i32);
        let last = [x + width - 1, y + tall - 1, z + depth - 1];
        self.fill([x, y, z], last, 0, 0);
        let level = y + self.chance.between(0, 1).min(tall - 1);
        if !self.chance.once_in(5) {
            self.fill([x, level, z], [last[0], level, last[2]], 1, 1);
        }
        for _ in 0..self.chance.below(8) {
            let at = [
                self.chance.between(x, last[0]),
                self.chance.between(y, last[1]),
                self.chance.between(z, last[2]),
            ];
            let mut to = at;
            if self.chance.once_in(4) {
                to[self.chance.below(3)] += 1;
            }
            let state = match self.chance.below(20) {
                0 => self.states.len() as u32,
                1 | 2 => 0,
                n if n < 8 => self.chance.below(self.states.len()) as u32,
                _ => 1,
            };
            let shape = match self.chance.below(20) {
                0 => 9,
                1 => 0,
                n if n < 7 => 1,
                _ => self.chance.between(2, 1 + kinds as i32) as u32,
            };
            self.fill(at, to, state, shape);
        }
    }

    fn fill(&mut self, min: [i32; 3], max: [i32; 3], state: u32, shape: u32) {
        self.fills.push(Record::Fill {
            min,
            max,
            state,
            shape,
        });
    }

    fn shape_box(&mut self, floor: f64) -> [f64; 6] {
        let level = self.chance.pick(&LEVELS);
        let level = match self.chance.below(3) {
            0 => self.nudge(floor),
            _ => self.nudge(level),
        };
        let half = self.nudge(0.5);
        let side = self.chance.below(2);
        match self.chance.below(6) {
            0 => [0.0, level.min(0.0), 0.0, 1.0, level, 1.0],
            1 => [0.375, 0.0, 0.375, 0.625, 1.5, 0.625],
            2 if side == 0 => [0.0, level.min(0.0), 0.0, half, level, 1.0],
            2 => [half, level.min(0.0), 0.0, 1.0, level, 1.0],
            3 if side == 0 => [0.0, level.min(0.0), 0.0, 1.0, level, half],
            3 => [0.0, level.min(0.0), half, 1.0, level, 1.0],
            _ => {
                let mut numbers = [0.0; 6];
                for axis in 0..3 {
                    let (a, b) = (self.chance.pick(&BORDERS), self.chance.pick(&BORDERS));
                    let (a, b) = (self.nudge(a), self.nudge(b));
                    numbers[axis] = a.min(b);
                    numbers[axis + 3] = a.max(b);
                }
                if self.chance.once_in(2) {
                    numbers[4] = numbers[1].max(level);
                }
                numbers
            }
        }
    }

    /// A point over the top of some box, or anywhere.
    fn point(&mut self) -> [f64; 3] {
        let mut place = [0.0; 3];
        for axis in [0, 2] {
            let cell = self.origin[axis] + self.chance.below(self.sizes[axis] as usize) as i32;
            let part = self.chance.pick(&PLACES);
            place[axis] = self.nudge(f64::from(cell) + part);
        }
        let shape = self.chance.below(self.shapes.len());
        let shape = if self.chance.once_in(2) { 0 } else { shape };
        let top = self.shapes[shape].1[4];
        let cell = self.origin[1] + self.chance.below(self.sizes[1] as usize) as i32;
        place[1] = self.nudge(f64::from(cell) + top);
        place
    }

    /// A height that may carry from one top to another.
    fn climb(&mut self) -> f64 {
        let usual = self
            .chance
            .pick(&[0.0, 0.5, 0.5, 0.5625, 1.0, 1.25, 2.0, 3.0]);
        let (a, b) = (self.shapes[0].1[4], self.chance.below(self.shapes.len()));
        let rise = (self.shapes[b].1[4] - a + f64::from(self.chance.between(0, 1))).abs();
        let number = if self.chance.once_in(2) { usual } else { rise };
        self.nudge(number)
    }

    fn records(&mut self) -> Vec<Record> {
        let range = self.chance.pick(&[1.0, 2.0, 3.0, 16.0, 16.0, 16.0]);
        let mut max_range = self.nudge(range);
        let budget = self
            .chance
            .pick(&[64, 64, 64, 30, 12, 9, 6, 5, 4, 3, 2, 1, 0]);
        let width = self
            .chance
            .pick(&[0.625, 0.625, 0.6, 0.25, 1.0, 0.5, 1.5, 1e-20]);
        let height = self.chance.pick(&[1.75, 1.0, 1.8, 0.5, 0.9, 2.5, 1e-20]);
        let body = Record::Body {
            numbers: [
                self.climb(),
                self.climb(),
                self.climb(),
                self.nudge(width),
                self.nudge(height),
                self.climb(),
            ],
        };
        let request = |start: [f64; 3], goal: [f64; 3], max_range: f64| Record::Request {
            start,
            goal,
            max_range,
            budget,
        };
        let any = [0.5, 1.0, 0.5];
        let tables = scene_of(&self.with(request(any, any, max_range), body.clone()));
        let start = self.standing(tables.as_ref());
        let goal = match self.chance.below(30) {
            0 => start,
            _ => self.standing(tables.as_ref()),
        };
        if self.chance.once_in(10) {
            let axis = self.chance.below(3);
            max_range = self.nudge((goal[axis] - start[axis]).abs());
        }
        self.with(request(start, goal, max_range), body)
    }

    /// A point where the body stands, if a few tries find one.
    fn standing(&mut self, tables: Option<&Scene>) -> [f64; 3] {
        for _ in 0..40 {
            let point = self.point();
            let stands = tables.is_some_and(|scene| {
                Graph {
                    scene,
                    edit: Variant::ReadAsWritten,
                }
                .standable(point)
            });
            if stands || self.chance.once_in(200) {
                return point;
            }
        }
        self.point()
    }

    fn with(&self, request: Record, body: Record) -> Vec<Record> {
        let mut records = vec![request, body];
        records.push(Record::Window {
            origin: self.origin,
            sizes: self.sizes,
        });
        for &(shape, numbers) in &self.shapes {
            records.push(Record::Shape { shape, numbers });
        }
        for (state, &permission) in self.states.iter().enumerate() {
            records.push(Record::State {
                state: state as u32,
                permission,
            });
        }
        records.extend(self.fills.iter().cloned());
        records
    }
}

/// The scene of these records, if they are good.
pub fn scene_of(records: &[Record]) -> Option<Scene> {
    scene::read(&write_bytes(records)).ok()
}
