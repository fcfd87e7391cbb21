//! A scene that was spoilt a little, so that ways of its search break for every
//! reason: another range, another body, a block, a shelf or a hole at a node.

use scene::{NodeRecord, Scene, Tables};

use crate::chance::Chance;

/// The scene with one to three changes around the nodes that its search
/// retained.
pub fn spoilt(scene: &Scene, nodes: &[NodeRecord], chance: &mut Chance) -> Scene {
    let mut out = scene.clone();
    for _ in 0..1 + chance.below(3) {
        let near = nodes[chance.below(nodes.len())].point.feet;
        let offset = [(-1, 1), (-1, 3), (-1, 1)].map(|(low, high)| chance.between(low, high));
        match chance.below(6) {
            0 => narrow(&mut out, near, chance),
            1 => moving(&mut out, chance),
            2 => shelf(&mut out, near, offset, chance),
            3 => put(&mut out.tables, near, offset, chance, is_free),
            _ => put(&mut out.tables, near, offset, chance, is_solid),
        }
    }
    out
}

/// A retained point for the goal, and a range that ends there, or a little above
/// it, so that jumps rise out of it.
fn narrow(scene: &mut Scene, goal: [f64; 3], chance: &mut Chance) {
    let start = scene.request.start;
    let far = (0..3).map(|axis| (goal[axis] - start[axis]).abs());
    let most = far.fold(0.0, f64::max);
    scene.request.goal = goal;
    scene.request.max_range = most + chance.pick(&[0.0, 0.0, 0.25, 0.5, 1.0]);
    scene.request.jump_height = chance.pick(&[0.75, 1.25, 2.5]);
}

/// Other heights of the body, of its jumps and of its drops.
fn moving(scene: &mut Scene, chance: &mut Chance) {
    scene.body.height = chance.pick(&[0.25, 0.5, 0.875, 1.75]);
    scene.request.jump_height = chance.pick(&[0.0, 0.75, 1.25, 2.5]);
    scene.request.max_drop = chance.pick(&[0.5, 2.0, 3.0, 6.0]);
}

/// A block with room for a small body below it, who jumps onto it; the way down
/// through it is blocked.
fn shelf(scene: &mut Scene, near: [f64; 3], [x, _, z]: [i32; 3], chance: &mut Chance) {
    scene.body.height = 0.5;
    scene.request.jump_height = 2.5;
    scene.request.max_drop = 3.0;
    put(&mut scene.tables, near, [x, 0, z], chance, is_free);
    put(&mut scene.tables, near, [x, 1, z], chance, is_solid);
}

/// Another cell of the tables, of the kind that is wanted, takes the place of
/// one near a point.
fn put(
    tables: &mut Tables,
    near: [f64; 3],
    offset: [i32; 3],
    chance: &mut Chance,
    wanted: fn(&Tables, (u32, u32)) -> bool,
) {
    let Some(at) = place(tables, near, offset) else {
        return;
    };
    let cells = tables.cells.iter().copied();
    let kinds: Vec<(u32, u32)> = cells.filter(|&cell| wanted(tables, cell)).collect();
    if !kinds.is_empty() {
        tables.cells[at] = chance.pick(&kinds);
    }
}

/// The place in the table of the cell so far from a point's.
fn place(tables: &Tables, near: [f64; 3], offset: [i32; 3]) -> Option<usize> {
    let window = &tables.window;
    let mut local = [0; 3];
    for axis in 0..3 {
        let cell = near[axis].floor() as i64 + i64::from(offset[axis]);
        let from_origin = usize::try_from(cell - i64::from(window.origin[axis])).ok()?;
        local[axis] = Some(from_origin).filter(|&n| n < window.sizes[axis] as usize)?;
    }
    let [x, y, z] = local;
    let [wide, _, deep] = window.sizes.map(|size| size as usize);
    Some(x + wide * (z + deep * y))
}

/// How many boxes a cell has, if it is known.
fn boxes(tables: &Tables, (state, shape): (u32, u32)) -> Option<u32> {
    let permission = tables.permissions.get(state as usize)?;
    let (_, count) = tables.shapes.get(shape as usize)?;
    Some(if permission & 4 == 0 { 0 } else { *count })
}

fn is_solid(tables: &Tables, cell: (u32, u32)) -> bool {
    boxes(tables, cell).is_some_and(|count| count > 0)
}

fn is_free(tables: &Tables, cell: (u32, u32)) -> bool {
    boxes(tables, cell) == Some(0)
}
