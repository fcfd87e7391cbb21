//! Small worlds made of the flat scene, searches in them, and lists to be walked
//! back, for `reasons`, `doors`, `lengths` and `slices`.

use walkprint::{Body, Error, NO_DOOR, Outcome, Point, Reason, Request, Rooms, Tables, WalkBack, Window, raw};

use super::{BODY, NODE, ROOMS, WAYPOINT, WINDOW, flat, floats, pattern};

/// The flat scene's start, the point between, and its goal.
pub const S: Point = [0.5, 1.0, 0.5];
pub const A: Point = [1.5, 1.0, 0.5];
pub const G: Point = [2.5, 1.0, 0.5];

/// One block up from A.
pub const UP: Point = [1.5, 2.0, 0.5];

// ---- small worlds

/// The flat scene with so many layers.
pub struct World {
    window: Window,
    tables: [Vec<u8>; 4],
}

impl World {
    pub fn new(layers: u32) -> Self {
        let mut tables = flat();
        tables[0].resize(8 * 7 * 5 * layers as usize, 0);
        Self { window: Window { sizes: [7, layers, 5], ..WINDOW }, tables }
    }

    pub fn flat() -> Self {
        Self::new(4)
    }

    /// A cell with such a state and shape.
    pub fn with(mut self, [x, y, z]: [i32; 3], state: u32, shape: u32) -> Self {
        let at = 8 * ((y * 5 + z + 2) * 7 + x + 2) as usize;
        self.tables[0][at..at + 8].copy_from_slice(&[state.to_le_bytes(), shape.to_le_bytes()].concat());
        self
    }

    pub fn stone(self, cell: [i32; 3]) -> Self {
        self.with(cell, 1, 1)
    }

    pub fn air(self, cell: [i32; 3]) -> Self {
        self.with(cell, 0, 0)
    }

    /// The permission bytes of the states, from 0 on.
    pub fn permitting(mut self, permissions: &[u8]) -> Self {
        self.tables[1] = permissions.to_vec();
        self
    }

    /// The next shape: one box, from the cell's least corner to this one.
    pub fn shaped(mut self, corner: Point) -> Self {
        let [_, _, shapes, boxes] = &mut self.tables;
        shapes.extend([boxes.len() as u32 / 48, 1].map(u32::to_le_bytes).concat());
        boxes.extend(floats(&[[0.0; 3], corner].concat()));
        self
    }

    /// A block between the start and the goal.
    pub fn wall() -> Self {
        Self::flat().stone([1, 1, 0])
    }

    /// A wall between them, three blocks high, from z -2 to this one: to 1 it leaves a
    /// way around its end, and to 2 none.
    pub fn barrier(last: i32) -> Self {
        (-2..=last).fold(Self::flat(), |world, z| (1..=3).fold(world, |world, y| world.stone([1, y, z])))
    }

    /// No floor between them.
    pub fn gap() -> Self {
        (-2..=2).fold(Self::flat(), |world, z| world.air([1, 0, z]))
    }

    /// A block to jump on, and one above the start's head.
    pub fn low_roof() -> Self {
        Self::new(6).stone([1, 1, 0]).stone([0, 3, 0])
    }

    /// A block to stand on at y 4, and one beside it, over the floor.
    pub fn ledge() -> Self {
        Self::new(6).stone([0, 3, 0]).stone([1, 3, 0])
    }

    pub fn bad() -> Self {
        let mut world = Self::flat();
        world.tables[0].pop();
        world
    }

    pub fn tables(&self) -> Tables<'_> {
        let [cells, permissions, shapes, boxes] = &self.tables;
        Tables { window: self.window, cells, permissions, shapes, boxes }
    }

    /// Calls `ask` with the world, a request and a body in bytes.
    pub fn asked<T>(&self, request: &Request, body: &Body, ask: impl FnOnce(&raw::Asked) -> T) -> T {
        let Window { origin, sizes } = self.window;
        let window = [origin.map(i32::to_le_bytes), sizes.map(u32::to_le_bytes)].concat().concat();
        let [cells, permissions, shapes, boxes] = &self.tables;
        ask(&raw::Asked {
            window: &window,
            tables: [cells, permissions, shapes, boxes],
            request: &request_bytes(request),
            body: &floats(&[body.width, body.height, body.step_height]),
        })
    }
}

fn request_bytes(r: &Request) -> Vec<u8> {
    let rest = [r.max_range, r.step_height, r.jump_height, r.max_drop];
    let mut bytes = floats(&[&r.start[..], &r.goal, &rest].concat());
    bytes.extend(r.node_budget.to_le_bytes());
    bytes
}

// ---- searches

/// The records of the list that a search finds, which walks back as a route, and
/// those of the nodes.
pub fn found(world: &World, request: &Request, body: &Body) -> [Vec<u8>; 2] {
    let [mut nodes, mut front, mut index, mut out] = ROOMS.map(pattern);
    let mut rooms = Rooms { nodes: &mut nodes, front: &mut front, index: &mut index, out: &mut out };
    let answer = walkprint::find_walk_path(&world.tables(), request, body, &mut rooms).expect("no refusal");
    assert_eq!(answer.outcome, Outcome::Found);
    out.truncate(WAYPOINT * answer.count);
    nodes.truncate(NODE * answer.retained);
    assert_eq!(walkprint::walk_back(&world.tables(), request, body, &out), Ok(WalkBack::Yes));
    [out, nodes]
}

// ---- lists

/// A record with such a door.
pub fn through(door: u64, feet: Point, lift: f64, movement: u64) -> Vec<u8> {
    [floats(&feet), floats(&[lift]), [movement, door].map(u64::to_le_bytes).concat()].concat()
}

/// One without a door.
pub fn record(feet: Point, lift: f64, movement: u64) -> Vec<u8> {
    through(NO_DOOR, feet, lift, movement)
}

/// A list of walks, each with lift 0 and no door.
pub fn walks(points: &[Point]) -> Vec<u8> {
    points.iter().flat_map(|&feet| record(feet, 0.0, 0)).collect()
}

/// A list of walks, and a last point with such a lift and movement.
pub fn then(points: &[Point], last: Point, lift: f64, movement: u64) -> Vec<u8> {
    [walks(points), record(last, lift, movement)].concat()
}

/// A list walked back: it is asked for by the call and by its raw call, with
/// slices for the place that are too short, exact and too long.
pub fn walked(world: &World, request: &Request, body: &Body, list: &[u8]) -> Result<WalkBack, Error> {
    let answer = walkprint::walk_back(&world.tables(), request, body, list);
    let (number, place) = match answer {
        Ok(WalkBack::Yes) => (0, None),
        Ok(WalkBack::No(reason, place)) => (reason.number(), place),
        Err(error) => (error.number(), None),
    };
    for length in [0, 1, 7, 8, 9, 15, 16, 64] {
        let (mut lent, mut must) = (pattern(length), pattern(length));
        if let (Some(place), 8..) = (place, length) {
            must[..8].copy_from_slice(&(place as u64).to_le_bytes());
        }
        assert_eq!(world.asked(request, body, |asked| raw::walk_back(asked, list, &mut lent)), number);
        assert_eq!(lent, must);
    }
    answer
}

pub fn back(world: &World, request: &Request, list: &[u8]) -> WalkBack {
    walked(world, request, &BODY, list).expect("no refusal")
}

/// No, with a reason that no place goes with.
pub fn no(reason: Reason) -> WalkBack {
    WalkBack::No(reason, None)
}

pub fn at(place: usize, reason: Reason) -> WalkBack {
    WalkBack::No(reason, Some(place))
}
