//! Searches with many nodes and little to do for each, or with next to none.

use scene::Scene;

use super::fields::field;
use crate::ground::{CUBE, Ground, body, endless, mite, request};
use crate::worlds::sixteen;

/// `snake`: a way of one column's width, 4,000 columns long. `ridge`: ridges
/// with ledges below them, from where nothing goes on. `fan`: the start's
/// expansion retains 4,095 nodes, and the second one finds the goal. `shaft`: a
/// column of heights that are all reached from the next column, and from where
/// nothing goes on. `near`: the goal is next to the start, and the budget large.
/// `tables`: the same with 65,536 boxes that no shape has.
pub fn world(name: &str) -> Option<Scene> {
    match name {
        "snake" => Some(snake()),
        "ridge" => Some(ridge()),
        "fan" => Some(fan()),
        "shaft" => Some(shaft()),
        "near" => Some(near(0)),
        "tables" => Some(near(65_536)),
        _ => None,
    }
}

/// Rows along x, two apart, joined at their ends by turns.
fn snake() -> Scene {
    const ROWS: i32 = 32;
    let mut ground = Ground::new([-65, -3, -2], [131, 7, 70]);
    let floor = ground.shape(&[CUBE]);
    for row in 0..ROWS {
        ground.fill([-63, 0, 2 * row], [63, 0, 2 * row], floor);
        let end = if row % 2 == 0 { 63 } else { -63 };
        ground.put([end, 0, 2 * row + 1], floor);
    }
    // The first row begins at the start.
    ground.fill([-63, 0, 0], [-1, 0, 0], 0);
    // The last turn leads nowhere; the last row ends where x is least.
    let goal = [-62.5, 1.0, f64::from(2 * ROWS - 2) + 0.5];
    // All is level, so the band is as thin as it can be.
    let mut request = request([0.5, 1.0, 0.5], goal);
    request.step_height = 0.0;
    request.max_drop = 0.0;
    ground.scene(request, mite())
}

/// Ridges along x, four apart, joined by one along z. On both sides of every
/// second column a ledge is three blocks deeper: half a cell, so that no ledge is
/// reached but from its ridge. The goal is an island between two ridges.
fn ridge() -> Scene {
    let mut ground = Ground::new([-66, -3, -66], [133, 12, 133]);
    let cube = ground.shape(&[CUBE]);
    let near = ground.shape(&[[0.0, 0.0, 0.0, 1.0, 1.0, 0.5]]);
    let far = ground.shape(&[[0.0, 0.0, 0.5, 1.0, 1.0, 1.0]]);
    for z in (-64..=64).step_by(4) {
        ground.fill([-64, 4, z], [64, 4, z], cube);
        for x in (-63..=63).step_by(2) {
            ground.put([x, 1, z + 1], near);
            ground.put([x, 1, z - 1], far);
        }
    }
    ground.fill([0, 4, -64], [0, 4, 64], cube);
    ground.put([62, 4, 2], cube);
    ground.scene(request([0.5, 5.0, 0.5], [62.5, 5.0, 2.5]), mite())
}

/// The start's column is a shaft with a floor at height 1; the four next to it
/// have sixteen heights a cell, up to the end of the range.
fn fan() -> Scene {
    let mut ground = Ground::new([-3, -3, -3], [7, 72, 7]);
    let plates = ground.shape(&sixteen());
    let cube = ground.shape(&[CUBE]);
    for [x, z] in [[1, 0], [0, 1], [-1, 0], [0, -1]] {
        ground.fill([x, 0, z], [x, 64, z], plates);
    }
    ground.put([0, 0, 0], cube);
    ground.put([0, 0, 2], cube);
    let mut request = endless([0.5, 1.0, 0.5], [0.5, 1.0, 2.5], 4096);
    request.max_drop = 0.0;
    ground.scene(request, mite())
}

/// The start's column is a shaft, and one beside it has 128 heights.
fn shaft() -> Scene {
    let mut ground = Ground::new([-3, -3, -3], [12, 14, 7]);
    let plates = ground.shape(&sixteen());
    let cube = ground.shape(&[CUBE]);
    ground.fill([1, 0, 0], [1, 7, 0], plates);
    ground.put([0, 0, 0], cube);
    ground.put([6, 0, 0], cube);
    let request = endless([0.5, 1.0, 0.5], [6.5, 1.0, 0.5], 4096);
    ground.scene(request, body(0.9, 0.01))
}

/// A field with a goal in the next column, and so many boxes that no shape has:
/// every record is judged before a search, used or not.
fn near(unused: usize) -> Scene {
    let mut scene = field([0, 1, 0], 3, 3, &[CUBE]);
    scene.request.goal = [1.5, 1.0, 0.5];
    let boxes = &mut scene.tables.boxes;
    boxes.resize(boxes.len() + unused, CUBE);
    scene
}
