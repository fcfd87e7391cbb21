//! Worlds built cell by cell: air in every cell of a window, and a shape where
//! one is put. State 0 is the only one, and may be all that there is.

use scene::{Body, Request, Scene, Tables, Window};

/// A box of a shape: min x, y, z, max x, y, z.
pub type Numbers = [f64; 6];

/// The whole cell.
pub const CUBE: Numbers = [0.0, 0.0, 0.0, 1.0, 1.0, 1.0];

/// A step, a jump or a drop that nothing but the range ends.
pub const ENDLESS: f64 = 1e9;

/// Tables under construction.
pub struct Ground(Tables);

impl Ground {
    pub fn new(origin: [i32; 3], sizes: [u32; 3]) -> Self {
        let volume = sizes.iter().product::<u32>() as usize;
        Self(Tables {
            window: Window { origin, sizes },
            cells: vec![(0, 0); volume],
            permissions: vec![7],
            shapes: vec![(0, 0)],
            boxes: Vec::new(),
        })
    }

    /// A new shape; its number.
    pub fn shape(&mut self, boxes: &[Numbers]) -> u32 {
        let number = self.0.shapes.len() as u32;
        let first = self.0.boxes.len() as u32;
        self.0.shapes.push((first, boxes.len() as u32));
        self.0.boxes.extend_from_slice(boxes);
        number
    }

    /// Sets a cell.
    pub fn put(&mut self, at: [i32; 3], shape: u32) {
        let Window { origin, sizes } = self.0.window;
        let [x, y, z] = [0, 1, 2].map(|axis| (at[axis] - origin[axis]) as usize);
        let [width, _, depth] = sizes.map(|size| size as usize);
        self.0.cells[x + width * (z + depth * y)] = (0, shape);
    }

    /// Sets the cells between two corners, both included.
    pub fn fill(&mut self, min: [i32; 3], max: [i32; 3], shape: u32) {
        for y in min[1]..=max[1] {
            for z in min[2]..=max[2] {
                for x in min[0]..=max[0] {
                    self.put([x, y, z], shape);
                }
            }
        }
    }

    pub fn scene(self, request: Request, body: Body) -> Scene {
        Scene {
            request,
            body,
            tables: self.0,
        }
    }
}

/// The flat scene's steps, with the largest range and budget.
pub fn request(start: [f64; 3], goal: [f64; 3]) -> Request {
    Request {
        start,
        goal,
        max_range: 64.0,
        node_budget: 4096,
        step_height: 0.5,
        jump_height: 0.0,
        max_drop: 3.0,
    }
}

/// A request with such a budget, that may step, jump and drop as far as the
/// range goes.
pub fn endless(start: [f64; 3], goal: [f64; 3], node_budget: u64) -> Request {
    Request {
        node_budget,
        step_height: ENDLESS,
        jump_height: ENDLESS,
        max_drop: ENDLESS,
        ..request(start, goal)
    }
}

/// A body that steps as high as the request lets it.
pub fn body(width: f64, height: f64) -> Body {
    Body {
        width,
        height,
        step_height: ENDLESS,
    }
}

/// The flat scene's width and height.
pub fn walker() -> Body {
    body(0.625, 1.75)
}

/// A body that fits between plates.
pub fn mite() -> Body {
    body(0.001, 0.001)
}
