//! Worlds too large for a scene file, to measure time on: tables built
//! directly.

use crate::random::Random;
use crate::{Body, Request, Scene, Tables, Window};

/// The names that `large` knows.
pub const LARGE: [&str; 3] = ["wide", "maze", "tower"];

const AIR: (u32, u32) = (0, 0);
const STONE: (u32, u32) = (1, 1);
/// The lower half of a cell.
const SLAB: (u32, u32) = (1, 2);

/// `wide`: the flat scene widened to 64 by 64, to its far corner. `maze`: a
/// maze of 63 by 63 with walls two high. `tower`: a stair of half blocks that
/// winds up a tower, sixteen columns a turn.
pub fn large(name: &str) -> Option<Scene> {
    match name {
        "wide" => Some(wide()),
        "maze" => Some(maze()),
        "tower" => Some(tower()),
        _ => None,
    }
}

fn empty(origin: [i32; 3], sizes: [u32; 3], start: [f64; 3], goal: [f64; 3]) -> Scene {
    let volume: u32 = sizes.iter().product();
    Scene {
        request: Request {
            start,
            goal,
            max_range: 64.0,
            node_budget: 4096,
            step_height: 0.5,
            jump_height: 0.0,
            max_drop: 3.0,
        },
        body: Body {
            width: 0.625,
            height: 1.75,
            step_height: 0.5,
        },
        tables: Tables {
            window: Window { origin, sizes },
            cells: vec![AIR; volume as usize],
            permissions: vec![7, 7],
            shapes: vec![(0, 0), (0, 1), (1, 1)],
            boxes: vec![
                [0.0, 0.0, 0.0, 1.0, 1.0, 1.0],
                [0.0, 0.0, 0.0, 1.0, 0.5, 1.0],
            ],
        },
    }
}

impl Tables {
    /// Sets a cell by its place inside the window.
    fn put(&mut self, [x, y, z]: [usize; 3], content: (u32, u32)) {
        let [width, _, depth] = self.window.sizes.map(|size| size as usize);
        self.cells[x + width * (z + depth * y)] = content;
    }

    fn floor(&mut self) {
        let [width, _, depth] = self.window.sizes.map(|size| size as usize);
        self.cells[..width * depth].fill(STONE);
    }
}

fn wide() -> Scene {
    let mut scene = empty([-2, 0, -2], [64, 4, 64], [0.5, 1.0, 0.5], [59.5, 1.0, 59.5]);
    scene.tables.floor();
    scene
}

const MAZE: usize = 63;

fn maze() -> Scene {
    let mut scene = empty(
        [0, 0, 0],
        [MAZE as u32, 4, MAZE as u32],
        [1.5, 1.0, 1.5],
        [61.5, 1.0, 61.5],
    );
    scene.tables.floor();
    for (z, row) in carved().iter().enumerate() {
        for (x, _) in row.iter().enumerate().filter(|(_, wall)| **wall) {
            scene.tables.put([x, 1, z], STONE);
            scene.tables.put([x, 2, z], STONE);
        }
    }
    scene
}

/// The walls left by a walk that goes back where it cannot go on, always the
/// same.
fn carved() -> [[bool; MAZE]; MAZE] {
    let mut wall = [[true; MAZE]; MAZE];
    let mut random = Random::new(1, "maze");
    let mut trail: Vec<(usize, usize)> = vec![(1, 1)];
    wall[1][1] = false;
    while let Some(&(x, z)) = trail.last() {
        let open: Vec<(usize, usize)> = [(2, 0), (0, 2), (-2, 0), (0, -2)]
            .into_iter()
            .filter_map(|(dx, dz)| Some((x.checked_add_signed(dx)?, z.checked_add_signed(dz)?)))
            .filter(|&(a, b)| a < MAZE && b < MAZE && wall[b][a])
            .collect();
        if open.is_empty() {
            trail.pop();
            continue;
        }
        let (a, b) = random.one_of(&open);
        wall[(b + z) / 2][(a + x) / 2] = false;
        wall[b][a] = false;
        trail.push((a, b));
    }
    wall
}

fn tower() -> Scene {
    const STEPS: usize = 112;
    let ring = ring();
    let at = |step: usize| ring[step % ring.len()];
    let top = (STEPS - 1) as f64 * 0.5 + 1.0;
    let (x, z) = at(STEPS - 1);
    let mut scene = empty(
        [0, 0, 0],
        [7, 62, 7],
        [1.5, 1.0, 1.5],
        [x as f64 + 0.5, top, z as f64 + 0.5],
    );
    scene.tables.floor();
    for step in 1..STEPS {
        let (x, z) = at(step);
        // The top of this step, in half blocks above the floor's bottom.
        let halves = step + 2;
        let content = if halves % 2 == 0 { STONE } else { SLAB };
        scene.tables.put([x, (halves - 1) / 2, z], content);
    }
    scene
}

/// A hill of half steps: 80 columns deep, and 80 long, each half a block higher
/// than the one before. The start is in its middle; the goal is the top of a
/// pillar that no step reaches, so that every budget is used up.
pub fn stairs(budget: u64) -> Scene {
    const LONG: usize = 80;
    const PILLAR: usize = 48;
    let last = LONG as f64 - 0.5;
    let mut scene = empty(
        [0, 0, 0],
        [LONG as u32, 52, LONG as u32],
        [40.5, 20.5, 40.5],
        [last, PILLAR as f64, last],
    );
    scene.request.node_budget = budget;
    for z in 0..LONG {
        for x in 0..LONG {
            for y in 0..x / 2 {
                scene.tables.put([x, y, z], STONE);
            }
            let top = if x % 2 == 0 { SLAB } else { STONE };
            scene.tables.put([x, x / 2, z], top);
        }
    }
    for y in 0..PILLAR {
        scene.tables.put([LONG - 1, y, LONG - 1], STONE);
    }
    scene
}

/// The sixteen columns around a three by three core.
fn ring() -> Vec<(usize, usize)> {
    let mut out = Vec::new();
    out.extend((1..5).map(|x| (x, 1)));
    out.extend((1..5).map(|z| (5, z)));
    out.extend((2..=5).rev().map(|x| (x, 5)));
    out.extend((2..=5).rev().map(|z| (1, z)));
    out
}
