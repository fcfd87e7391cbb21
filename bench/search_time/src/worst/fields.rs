//! Fields: a floor around the start, and a goal on an island that no step
//! reaches, so that the budget is used up.

use reading::index::home;
use scene::Scene;

use crate::ground::{CUBE, ENDLESS, Ground, Numbers, request, walker};

/// How far the floor goes from the start's column, in x and z.
const FLOOR: i32 = 61;

/// Where the island is, in x: as far as the range goes.
const ISLAND: i32 = 64;

/// How far the window goes beyond the start, with room for a wide body.
const WINDOW: i32 = 69;

/// A floor of one shape whose top is the cell's, the start's cell above it, and
/// so many layers of air below and above.
pub fn field(start: [i32; 3], below: i32, above: i32, floor: &[Numbers]) -> Scene {
    let [x, y, z] = start;
    let size = (2 * WINDOW + 1) as u32;
    let layers = (below + 1 + above) as u32;
    let mut ground = Ground::new(
        [x - WINDOW, y - 1 - below, z - WINDOW],
        [size, layers, size],
    );
    let shape = ground.shape(floor);
    ground.fill(
        [x - FLOOR, y - 1, z - FLOOR],
        [x + FLOOR, y - 1, z + FLOOR],
        shape,
    );
    ground.put([x + ISLAND, y - 1, z], shape);
    let [x, y, z] = start.map(f64::from);
    let feet = |dx| [x + dx + 0.5, y, z + 0.5];
    ground.scene(request(feet(0.0), feet(f64::from(ISLAND))), walker())
}

/// `flat`: a field as it is. `air`: one with a band of 128 layers of air. `deep`
/// and `big`: the same two in the largest window, where each layer of a column
/// is half a megabyte from the next. `odd`: tops at many fractions. `far` and
/// `farther`: a field 100,000 and 2^30 blocks away. `one-slot`: all points have
/// one slot of the index. `bridge`: a floor one column wide with unknown cells
/// on both sides.
pub fn world(name: &str) -> Option<Scene> {
    match name {
        "flat" => Some(field([0, 1, 0], 3, 3, &[CUBE])),
        "air" => Some(tall(field([0, 1, 0], 66, 64, &[CUBE]))),
        "deep" => Some(tall(widened(field([0, 1, 0], 66, 64, &[CUBE])))),
        "big" => Some(widened(field([0, 1, 0], 31, 32, &[CUBE]))),
        "odd" => Some(uneven(odd)),
        "far" => Some(field([100_000, 70, -100_000], 3, 3, &[CUBE])),
        "farther" => Some(field([1 << 30, 1 << 10, -(1 << 30)], 3, 3, &[CUBE])),
        "one-slot" => Some(uneven(one_slot)),
        "bridge" => Some(bridge()),
        _ => None,
    }
}

/// The same scene with a jump and a drop as far as the range goes.
fn tall(mut scene: Scene) -> Scene {
    scene.request.jump_height = ENDLESS;
    scene.request.max_drop = ENDLESS;
    scene
}

/// The same scene in a window of 256 by 256 columns, the new ones air.
fn widened(scene: Scene) -> Scene {
    let old = &scene.tables;
    let [width, layers, depth] = old.window.sizes.map(|size| size as usize);
    let mut cells = vec![(0, 0); 256 * 256 * layers];
    for row in 0..layers * depth {
        let (y, z) = (row / depth, row % depth);
        let to = 256 * (z + 256 * y);
        cells[to..][..width].copy_from_slice(&old.cells[row * width..][..width]);
    }
    let mut scene = scene;
    scene.tables.cells = cells;
    scene.tables.window.sizes = [256, layers as u32, 256];
    scene
}

/// A field whose columns, by their centres, have tops so far above 0 that each
/// is within a step of all.
fn uneven(top: impl Fn(f64, f64) -> f64) -> Scene {
    const HALF: i32 = 32;
    let size = 2 * HALF as u32 + 8;
    let mut ground = Ground::new([-HALF, -3, -HALF], [size, 8, size]);
    let middle = |n: i32| f64::from(n) + 0.5;
    let height = |x: i32, z: i32| 0.25 + top(middle(x), middle(z));
    for z in -HALF..HALF {
        for x in -HALF..HALF {
            let shape = ground.shape(&[[0.0, 0.0, 0.0, 1.0, height(x, z), 1.0]]);
            ground.put([x, 0, z], shape);
        }
    }
    let island = ground.shape(&[CUBE]);
    ground.put([HALF + 3, 0, 0], island);
    let start = [0.5, height(0, 0), 0.5];
    let goal = [middle(HALF + 3), 1.0, 0.5];
    ground.scene(request(start, goal), walker())
}

/// Tops that hardly any two columns have in common.
fn odd(x: f64, z: f64) -> f64 {
    (x * 0.618 + z * 0.414).rem_euclid(1.0) / 2.001
}

/// A top by which the point of a column has the first slot of the index.
fn one_slot(x: f64, z: f64) -> f64 {
    const SLOTS: usize = 8192;
    let tops = (0..1 << 20).map(|k| f64::from(k) / f64::from(1 << 22));
    let mut good = tops.filter(|top| {
        let feet = [x, 0.25 + top, z];
        home(SLOTS, feet.map(f64::to_bits)) == 0
    });
    good.next().expect("one of a million tops has slot 0")
}

fn bridge() -> Scene {
    let mut ground = Ground::new([-70, 0, 0], [140, 4, 1]);
    let floor = ground.shape(&[CUBE]);
    ground.fill([-64, 0, 0], [60, 0, 0], floor);
    ground.put([64, 0, 0], floor);
    ground.scene(request([0.5, 1.0, 0.5], [64.5, 1.0, 0.5]), walker())
}
