//! The scene reader, by 01's "Scenes and walkprint".

use crate::bytes::{f64_at, u32_at};
use crate::world::good_box;
use crate::{Body, Request, Scene, Tables, UNFILLED, Window};

/// Bytes of a scene record.
pub const RECORD: usize = 64;

/// Number 7: the first bad record, counted from 0.
#[derive(Debug, Clone, Copy, PartialEq, Eq)]
pub struct BadScene {
    pub record: u64,
}

/// What a record of kind 1 says.
#[derive(Debug, Clone, Copy, PartialEq)]
pub struct Ends {
    pub start: [f64; 3],
    pub goal: [f64; 3],
    pub max_range: f64,
    pub node_budget: u64,
}

/// What a record of kind 2 says.
#[derive(Debug, Clone, Copy, PartialEq)]
pub struct Steps {
    pub step_height: f64,
    pub jump_height: f64,
    pub max_drop: f64,
    pub body: Body,
}

/// What the good records before the first bad one made.
#[derive(Debug, Clone, PartialEq)]
pub struct Partial {
    /// How many good records there were.
    pub good: u64,
    pub ends: Option<Ends>,
    pub steps: Option<Steps>,
    /// None before a good record of kind 3.
    pub window: Option<Window>,
    /// Its window is empty before a good record of kind 3.
    pub tables: Tables,
    /// Kind of the last good record, 0 before the first.
    kind: u8,
}

/// Reads a whole scene.
pub fn read(bytes: &[u8]) -> Result<Scene, BadScene> {
    let (partial, bad) = read_partial(bytes);
    match (bad, partial.ends, partial.steps) {
        (None, Some(ends), Some(steps)) => Ok(Scene {
            request: Request {
                start: ends.start,
                goal: ends.goal,
                max_range: ends.max_range,
                node_budget: ends.node_budget,
                step_height: steps.step_height,
                jump_height: steps.jump_height,
                max_drop: steps.max_drop,
            },
            body: steps.body,
            tables: partial.tables,
        }),
        (bad, ..) => Err(bad.unwrap_or(BadScene {
            record: partial.good,
        })),
    }
}

/// Reads records until one is bad; says what the good ones made.
pub fn read_partial(bytes: &[u8]) -> (Partial, Option<BadScene>) {
    let mut partial = Partial {
        good: 0,
        ends: None,
        steps: None,
        window: None,
        tables: Tables::default(),
        kind: 0,
    };
    for record in bytes.chunks(RECORD) {
        if record.len() < RECORD || !partial.take(Fields(record)) {
            let record = partial.good;
            return (partial, Some(BadScene { record }));
        }
        partial.good += 1;
    }
    let missing = partial.good < 3;
    let record = partial.good;
    (partial, missing.then_some(BadScene { record }))
}

/// A whole record.
#[derive(Clone, Copy)]
pub(crate) struct Fields<'a>(pub(crate) &'a [u8]);

impl Fields<'_> {
    pub(crate) fn u32(self, at: usize) -> u32 {
        u32_at(self.0, at)
    }

    pub(crate) fn i32(self, at: usize) -> i32 {
        self.u32(at) as i32
    }

    pub(crate) fn f64(self, at: usize) -> f64 {
        f64_at(self.0, at)
    }

    pub(crate) fn f64s<const N: usize>(self, at: usize) -> [f64; N] {
        std::array::from_fn(|i| self.f64(at + 8 * i))
    }

    pub(crate) fn n(self) -> u32 {
        self.u32(4)
    }

    /// The bytes from `at` on are unused and zero.
    fn unused(self, at: usize) -> bool {
        self.0[at..].iter().all(|&byte| byte == 0)
    }
}

impl Partial {
    /// Takes a record in; false, and nothing changed, if it is bad here.
    fn take(&mut self, record: Fields) -> bool {
        let kind = record.0[0];
        let in_order = match self.kind {
            0 => kind == 1,
            1 => kind == 2,
            2 => kind == 3,
            last => last.max(4) <= kind && kind <= 6,
        };
        if !in_order || record.0[1..4] != [0; 3] {
            return false;
        }
        let good = match kind {
            1 => self.ends(record),
            2 => self.steps(record),
            3 => self.window(record),
            4 => self.shape(record),
            5 => self.state(record),
            _ => self.fill(record),
        };
        if good {
            self.kind = kind;
        }
        good
    }

    /// Kind 1: start, goal, max_range; n the budget, at most 512.
    fn ends(&mut self, record: Fields) -> bool {
        if record.n() > 512 {
            return false;
        }
        self.ends = Some(Ends {
            start: record.f64s(8),
            goal: record.f64s(32),
            max_range: record.f64(56),
            node_budget: u64::from(record.n()),
        });
        true
    }

    /// Kind 2: step, jump, drop, width, height, body step; n is 0.
    fn steps(&mut self, record: Fields) -> bool {
        if record.n() != 0 || !record.unused(56) {
            return false;
        }
        let [step_height, jump_height, max_drop, width, height, body_step] = record.f64s(8);
        self.steps = Some(Steps {
            step_height,
            jump_height,
            max_drop,
            body: Body {
                width,
                height,
                step_height: body_step,
            },
        });
        true
    }

    /// Kind 3: window origin, sizes each at most 256; at most 4,096 cells; n
    /// is 0. Its cells are unfilled.
    fn window(&mut self, record: Fields) -> bool {
        let sizes = [record.u32(20), record.u32(24), record.u32(28)];
        let volume: u64 = sizes.iter().map(|&size| u64::from(size.min(257))).product();
        if record.n() != 0
            || !record.unused(32)
            || sizes.iter().any(|&size| size > 256)
            || volume > 4096
        {
            return false;
        }
        let window = Window {
            origin: [record.i32(8), record.i32(12), record.i32(16)],
            sizes,
        };
        self.window = Some(window);
        self.tables.window = window;
        self.tables.cells = vec![UNFILLED; volume as usize];
        true
    }

    /// Kind 4: n the shape, not falling, at most 255; six box numbers. At most
    /// 256 boxes, 16 a shape. Unnamed lower shapes are empty.
    fn shape(&mut self, record: Fields) -> bool {
        let shape = record.n() as usize;
        let numbers: [f64; 6] = record.f64s(8);
        let tables = &mut self.tables;
        let falling = shape + 1 < tables.shapes.len();
        let full = tables
            .shapes
            .get(shape)
            .is_some_and(|(_, count)| *count == 16);
        if shape > 255
            || falling
            || full
            || tables.boxes.len() == 256
            || !good_box(&numbers)
            || !record.unused(56)
        {
            return false;
        }
        let first = tables.boxes.len() as u32;
        while tables.shapes.len() <= shape {
            tables.shapes.push((first, 0));
        }
        tables.shapes[shape].1 += 1;
        tables.boxes.push(numbers);
        true
    }

    /// Kind 5: n the state, counting from 0 to at most 255; permission byte at
    /// most 7.
    fn state(&mut self, record: Fields) -> bool {
        let permission = record.0[8];
        if record.n() as usize != self.tables.permissions.len()
            || record.n() > 255
            || permission > 7
            || !record.unused(9)
        {
            return false;
        }
        self.tables.permissions.push(permission);
        true
    }

    /// Kind 6: fill, min and max corners inclusive as i32, state, shape; n is
    /// 0. "Clipped, later ones win, an inverted one fills nothing."
    fn fill(&mut self, record: Fields) -> bool {
        if record.n() != 0 || !record.unused(40) {
            return false;
        }
        let min = [record.i32(8), record.i32(12), record.i32(16)].map(i64::from);
        let max = [record.i32(20), record.i32(24), record.i32(28)].map(i64::from);
        let content = (record.u32(32), record.u32(36));
        let Window { origin, sizes } = self.tables.window;
        let [width, _, depth] = sizes.map(i64::from);
        for (place, cell) in self.tables.cells.iter_mut().enumerate() {
            let place = place as i64;
            let local = [
                place % width,
                place / (width * depth),
                place / width % depth,
            ];
            if (0..3).all(|axis| {
                let at = i64::from(origin[axis]) + local[axis];
                min[axis] <= at && at <= max[axis]
            }) {
                *cell = content;
            }
        }
        true
    }
}
