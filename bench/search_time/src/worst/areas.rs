//! Areas of many cells, or of many boxes.

use scene::Scene;

use super::fields::field;
use crate::ground::{CUBE, Ground, Numbers, body, request};

/// `wide-body`: the largest body on an open field. `dense`: a wide one on a
/// floor of sixteen boxes a cell. `elsewhere`: each cell above the floor has
/// sixteen boxes, all of them deep below. `lifts`: one that lifts by 60 blocks for each
/// step up. `corner`: every area is blocked by its cell with the least x and the
/// greatest z, which a scan with z fastest meets among the first and one with x
/// fastest among the last.
pub fn world(name: &str) -> Option<Scene> {
    match name {
        "wide-body" => Some(wide_body()),
        "dense" => Some(dense()),
        "elsewhere" => Some(elsewhere()),
        "lifts" => Some(lifts()),
        "corner" => Some(corner()),
        _ => None,
    }
}

fn wide_body() -> Scene {
    let mut scene = field([0, 1, 0], 3, 18, &[CUBE]);
    scene.request.node_budget = 64;
    scene.body = body(8.0, 16.0);
    scene
}

/// Fifteen small boxes at one border of the cell, which carry nothing.
pub fn crumbs() -> Vec<Numbers> {
    let crumb = |k: u32| {
        let x = f64::from(k) / 16.0;
        [x, 0.0, 0.0, x + 0.05, 0.2, 0.05]
    };
    (0..15).map(crumb).collect()
}

fn dense() -> Scene {
    let floor = [&crumbs()[..], &[[0.0, 0.5, 0.0, 1.0, 1.0, 1.0]]].concat();
    let mut scene = field([0, 1, 0], 3, 6, &floor);
    scene.request.node_budget = 64;
    scene.body = body(8.0, 2.0);
    scene
}

/// Boxes may be up to sixteen blocks from their cell.
fn elsewhere() -> Scene {
    let mut deep = [crumbs(), crumbs()].concat();
    deep.truncate(16);
    for numbers in &mut deep {
        numbers[1] -= 12.0;
        numbers[4] -= 12.0;
    }
    let mut scene = field([0, 1, 0], 3, 8, &[CUBE]);
    scene.request.node_budget = 16;
    scene.body = body(8.0, 4.0);
    let tables = &mut scene.tables;
    tables.shapes.push((tables.boxes.len() as u32, 16));
    tables.boxes.extend(deep);
    let [width, _, depth] = tables.window.sizes.map(|size| size as usize);
    tables.cells[4 * width * depth..].fill((0, 2));
    scene
}

/// Steps up and down, a block high: up goes only by a jump.
fn lifts() -> Scene {
    let mut ground = Ground::new([-40, -2, -40], [110, 80, 80]);
    let cube = ground.shape(&[CUBE]);
    for x in -30..=30 {
        let top = (x + 30) % 2;
        ground.fill([x, 0, -30], [x, top, 30], cube);
    }
    ground.put([60, 0, 0], cube);
    let mut request = request([0.5, 1.0, 0.5], [60.5, 1.0, 0.5]);
    request.jump_height = 60.0;
    request.node_budget = 512;
    ground.scene(request, body(0.9, 2.0))
}

/// The columns that the start looks at.
const LOOKED: [(i32, i32); 5] = [(0, 0), (1, 0), (0, 1), (-1, 0), (0, -1)];

/// The start stands on a needle over a pit. In the five columns around it there
/// are deeper needles, four in a row and then three blocks of air, where no body
/// fits: for each column a pillar stands in the corner of the body's area. All
/// other cells below the feet have crumbs, which block nothing.
fn corner() -> Scene {
    const TOP: i32 = 64;
    let mut ground = Ground::new([-10, 0, -10], [50, TOP as u32 + 4, 21]);
    let crumbs = ground.shape(&crumbs());
    let needles = ground.shape(&[1.0, 1.05, 1.1, 1.15].map(needle));
    let pillar = ground.shape(&[[0.0, 0.0, 0.0, 1.0, 1.5, 1.0]]);
    for y in (3..TOP - 4).step_by(4) {
        ground.fill([-10, y, -10], [10, y, 10], crumbs);
        for (x, z) in LOOKED {
            ground.put([x, y, z], needles);
        }
    }
    for (x, z) in LOOKED {
        ground.fill([x - 4, 0, z + 4], [x - 4, TOP - 3, z + 4], pillar);
    }
    let stand = ground.shape(&[needle(1.0)]);
    ground.put([0, TOP - 1, 0], stand);
    ground.put([30, TOP - 1, 0], stand);
    let height = f64::from(TOP);
    let mut request = request([0.5, height, 0.5], [30.5, height, 0.5]);
    request.max_drop = 64.0;
    ground.scene(request, body(8.0, 0.01))
}

/// A thin box in the middle of its cell, with its top at such a height of it.
fn needle(top: f64) -> Numbers {
    [0.49, top - 0.01, 0.49, 0.51, top, 0.51]
}
