//! Floors whose boxes cover the way of an edge one by one, the far end first:
//! the proved search passes over the boxes as often as what is covered grows,
//! the original sorts them once.

use scene::Scene;

use super::fields::field;
use crate::ground::{CUBE, Ground, Numbers, body, request};

/// `strips`: each cell of a floor is sixteen strips across x. `strips-wide`: the
/// same under the widest body. `tiles`: four by four tiles. `slivers-` and a
/// body's width: each box under one way covers another part of it.
pub fn world(name: &str) -> Option<Scene> {
    match name {
        "strips" => Some(floor_of(&strips(), 512, 0.625)),
        "strips-wide" => Some(floor_of(&strips(), 64, 8.0)),
        "tiles" => Some(floor_of(&tiles(), 512, 0.625)),
        "slivers-2" => Some(slivers(2)),
        "slivers-4" => Some(slivers(4)),
        "slivers-8" => Some(slivers(8)),
        _ => None,
    }
}

fn floor_of(shape: &[Numbers], budget: u64, width: f64) -> Scene {
    let mut scene = field([0, 1, 0], 3, 3, shape);
    scene.request.node_budget = budget;
    scene.body.width = width;
    scene
}

/// Along x, so that a way towards greater x meets the last one first.
fn strips() -> Vec<Numbers> {
    let strip = |k: u32| {
        let x = f64::from(k) / 16.0;
        [x, 0.0, 0.0, x + 1.0 / 16.0, 1.0, 1.0]
    };
    (0..16).rev().map(strip).collect()
}

fn tiles() -> Vec<Numbers> {
    let tile = |k: u32| {
        let [x, z] = [k % 4, k / 4].map(|n| f64::from(n) / 4.0);
        [x, 0.0, z, x + 0.25, 1.0, z + 0.25]
    };
    (0..16).rev().map(tile).collect()
}

/// A way from (0.5, 1, 0.5) to (1.5, 1, 0.5) for a body of an even width, and
/// nothing else to stand on but the goal's block. Every box that the body can
/// have under it there is a part of the way: three layers of cells, sixteen a
/// cell, the far end first in the order of the proved search.
fn slivers(width: i32) -> Scene {
    let half = width / 2;
    let parts = 16 * 3 * (width + 1) * (width + 2);
    let far = 16 * ((width + 1 + half) * (width + 2) + half + 1);
    let mut ground = Ground::new([-10, -4, -10], [40, 8, 20]);
    let mut k = 0..;
    for y in -1..=1 {
        for z in -half..=half {
            for x in -half..=half + 1 {
                let places = k.by_ref().take(16).map(|k| place(k, far, parts - 1));
                let boxes: Vec<Numbers> = places
                    .map(|place| sliver([x, y, z], place, parts))
                    .collect();
                let shape = ground.shape(&boxes);
                ground.put([x, y, z], shape);
            }
        }
    }
    let block = ground.shape(&[CUBE]);
    ground.put([20, 0, 0], block);
    let request = request([0.5, 1.0, 0.5], [20.5, 1.0, 0.5]);
    ground.scene(request, body(f64::from(width), 0.001))
}

/// Which part of the way box k is, counted from the far end. Two pairs of boxes
/// change places, or nothing could stand at an end: the far end itself has to be
/// in its own column, and the near end under a body that stands there.
fn place(k: i32, far: i32, last: i32) -> i32 {
    match k {
        0 => far,
        _ if k == far => 0,
        _ if k == last => last - 16,
        _ if k == last - 16 => last,
        _ => k,
    }
}

/// Such a part of the way as a box of a cell.
fn sliver([x, y, z]: [i32; 3], part: i32, parts: i32) -> Numbers {
    let along = |part: i32| 0.5 + f64::from(parts - part) / f64::from(parts) - f64::from(x);
    let top = 1.0 - f64::from(y);
    let side = 0.5 - f64::from(z);
    [
        along(part + 1),
        top - 0.01,
        side - 0.1,
        along(part),
        top,
        side + 0.1,
    ]
}
