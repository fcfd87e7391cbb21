//! Random scenes full of doors: states without bit 4 in any cells above uneven
//! ground, among them state 0, so that the areas of an edge cross several and
//! their order shows.

use reading::{Graph, Variant};
use scene::{Record, Scene};

use crate::chance::Chance;
use crate::draft::scene_of;

/// Cells above the ground's lowest layer.
const ABOVE: i32 = 5;

/// Makes a scene from a seed.
pub fn doorways(seed: u64) -> Vec<Record> {
    Doorways::new(seed).records()
}

struct Doorways {
    chance: Chance,
    sizes: [i32; 3],
    /// Permission bytes; air, stone, then the others.
    states: Vec<u8>,
    fills: Vec<Record>,
}

impl Doorways {
    fn new(seed: u64) -> Self {
        let mut chance = Chance::new(seed);
        let sizes = [chance.between(2, 8), 1 + ABOVE, chance.between(1, 7)];
        let air = chance.pick(&[7, 7, 7, 7, 3, 1]);
        let mut states = vec![air, 7];
        for _ in 0..chance.between(1, 5) {
            states.push(chance.pick(&[3, 3, 3, 1, 7, 5]));
        }
        let mut this = Self {
            chance,
            sizes,
            states,
            fills: Vec::new(),
        };
        this.ground();
        this.doors();
        this
    }

    fn fill(&mut self, min: [i32; 3], max: [i32; 3], state: u32, shape: u32) {
        self.fills.push(Record::Fill {
            min,
            max,
            state,
            shape,
        });
    }

    /// Stone below, and in some columns a slab or a block on it, or another block
    /// still.
    fn ground(&mut self) {
        let [width, tall, depth] = self.sizes;
        self.fill([0; 3], [width - 1, tall - 1, depth - 1], 0, 0);
        self.fill([0; 3], [width - 1, 0, depth - 1], 1, 1);
        let rough = self.chance.pick(&[1000, 8, 4]);
        for x in 0..width {
            for z in 0..depth {
                if !self.chance.once_in(rough) {
                    continue;
                }
                match self.chance.below(3) {
                    0 => self.fill([x, 1, z], [x, 1, z], 1, 2),
                    1 => self.fill([x, 1, z], [x, 1, z], 1, 1),
                    _ => self.fill([x, 1, z], [x, 2, z], 1, 1),
                }
            }
        }
    }

    /// Other states in cells that are air, of no shape, of a cube that is not
    /// there without bit 4, or now and then of an unknown one; some of them one
    /// above the other.
    fn doors(&mut self) {
        let [width, tall, depth] = self.sizes;
        let rare = self.chance.pick(&[1, 2, 4, 9]);
        for _ in 0..(width * depth * ABOVE / rare).max(1) {
            let at = [width, tall - 1, depth].map(|size| self.chance.between(0, size - 1));
            let [x, y, z] = [at[0], at[1] + 1, at[2]];
            let taken = self.fills[2..].iter().any(|fill| holds(fill, [x, y, z]));
            if taken {
                continue;
            }
            let state = self.chance.below(self.states.len()) as u32;
            let shape = match self.states[state as usize] & 4 {
                0 => self.chance.pick(&[0, 1, 1, 3]),
                _ => 0,
            };
            let shape = if self.chance.once_in(40) { 9 } else { shape };
            self.fill([x, y, z], [x, y, z], state, shape);
        }
    }

    fn records(&mut self) -> Vec<Record> {
        let width = self.chance.pick(&[0.625, 0.625, 0.25, 1.0, 1.5, 2.5]);
        let height = self.chance.pick(&[1.75, 1.0, 0.5, 2.5]);
        let jump = self.chance.pick(&[0.0, 1.25, 1.25, 2.0]);
        let step = self.chance.pick(&[0.5, 0.5, 1.0]);
        let body = Record::Body {
            numbers: [step, jump, 3.0, width, height, step],
        };
        let budget = self.chance.pick(&[64, 64, 64, 16, 6]);
        let request = |start: [f64; 3], goal: [f64; 3]| Record::Request {
            start,
            goal,
            max_range: 16.0,
            budget,
        };
        let any = scene_of(&self.with(request([0.5; 3], [0.5; 3]), body.clone()));
        let start = self.standing(any.as_ref());
        let goal = match self.chance.below(20) {
            0 => start,
            _ => self.far_from(start, any.as_ref()),
        };
        self.with(request(start, goal), body)
    }

    /// The farthest of four points where the body stands.
    fn far_from(&mut self, start: [f64; 3], tables: Option<&Scene>) -> [f64; 3] {
        let far = |[x, _, z]: [f64; 3]| (x - start[0]).abs() + (z - start[2]).abs();
        let tries = [(); 4].map(|()| self.standing(tables));
        let farther = |a, b| if far(a) < far(b) { b } else { a };
        tries.into_iter().reduce(farther).unwrap_or(start)
    }

    /// A point where the body stands, if a few tries find one.
    fn standing(&mut self, tables: Option<&Scene>) -> [f64; 3] {
        let mut point = [0.5, 1.0, 0.5];
        for _ in 0..40 {
            let [width, _, depth] = self.sizes;
            let [x, z] = [width, depth].map(|size| {
                let aside = self.chance.pick(&[0.5, 0.5, 0.5, 0.25, 0.75, 0.0]);
                f64::from(self.chance.between(0, size - 1)) + aside
            });
            point = [x, self.chance.pick(&[1.0, 1.0, 1.5, 2.0, 3.0]), z];
            let edit = Variant::ReadAsWritten;
            if tables.is_some_and(|scene| Graph { scene, edit }.standable(point)) {
                break;
            }
        }
        point
    }

    fn with(&self, request: Record, body: Record) -> Vec<Record> {
        let sizes = self.sizes.map(|size| size as u32);
        let window = Record::Window {
            origin: [0; 3],
            sizes,
        };
        let mut records = vec![request, body, window];
        // A cube, a slab, and a leaf at the side.
        for (shape, max) in (1..).zip([[1.0, 1.0, 1.0], [1.0, 0.5, 1.0], [0.1875, 1.0, 1.0]]) {
            let numbers = [0.0, 0.0, 0.0, max[0], max[1], max[2]];
            records.push(Record::Shape { shape, numbers });
        }
        for (state, &permission) in (0..).zip(&self.states) {
            records.push(Record::State { state, permission });
        }
        records.extend(self.fills.iter().cloned());
        records
    }
}

/// Whether a fill reaches a cell.
fn holds(fill: &Record, at: [i32; 3]) -> bool {
    match fill {
        Record::Fill { min, max, .. } => {
            (0..3).all(|axis| (min[axis]..=max[axis]).contains(&at[axis]))
        }
        _ => false,
    }
}
