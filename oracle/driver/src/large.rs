//! Worlds too large for a scene, with budgets to 4,097: the oracle's three, two
//! floors on which no way leads to the goal, and a window of 256 on every axis;
//! doors are strewn in each.

use scene::Scene;

use crate::call::Call;
use crate::counts::Counts;
use crate::differ::differ;
use crate::expected::judge;
use crate::sizes::{INDEX, longer, needed};
use crate::strewn::strewn;

const BUDGETS: [u64; 10] = [0, 1, 100, 512, 513, 1000, 2048, 4095, 4096, 4097];

/// The worlds, that with a window of 256 last.
pub fn worlds() -> Vec<(&'static str, Scene)> {
    let mut worlds: Vec<(&str, Scene)> = scene::LARGE
        .iter()
        .filter_map(|&name| Some((name, scene::large(name)?)))
        .collect();
    worlds.extend(island(64).map(|scene| ("island in 64 by 64", scene)));
    worlds.extend(island(100).map(|scene| ("island in 100 by 100", scene)));
    worlds.extend(whole_window().map(|scene| ("whole window", scene)));
    (0..)
        .zip(worlds)
        .map(|(number, (name, scene))| (name, strewn(scene, number)))
        .collect()
}

pub fn all() -> bool {
    let worlds = worlds();
    let mut counts = Counts::default();
    let mut mismatches = 0;
    for (name, scene) in &worlds {
        let mut call = Call::of(scene);
        for budget in BUDGETS {
            call.request.node_budget = budget;
            let sizes = longer(needed(budget), [11, 11, budget as usize % 2, 11]);
            match differ(&call, &judge(&call), sizes, budget) {
                Ok(answer) => {
                    counts.search(&answer);
                    counts.index(&answer, sizes[INDEX]);
                }
                Err(parts) => {
                    println!("{name}, budget {budget}: {parts}");
                    mismatches += 1;
                }
            }
        }
    }
    println!(
        "large: {} worlds, {counts}, {mismatches} mismatches",
        worlds.len()
    );
    mismatches == 0
}

/// A floor of so many columns a side from whose middle no way leads to a goal
/// with a moat around it.
fn island(side: u32) -> Option<Scene> {
    let mut scene = scene::large("wide")?;
    let columns = side as usize;
    let mut cells = vec![(0, 0); 4 * columns * columns];
    cells[..columns * columns].fill((1, 1));
    for z in 2..9 {
        for x in 2..9 {
            let island = (4..7).contains(&x) && (4..7).contains(&z);
            cells[x + columns * z] = if island { (1, 1) } else { (0, 0) };
        }
    }
    let middle = f64::from(side / 2) + 0.5;
    scene.tables.window.origin = [0; 3];
    scene.tables.window.sizes = [side, 4, side];
    scene.tables.cells = cells;
    scene.request.start = [middle, 1.0, middle];
    scene.request.goal = [5.5, 1.0, 5.5];
    Some(scene)
}

/// A floor across 256 by 256 columns in the middle of 256 layers, with a wall
/// to go around.
fn whole_window() -> Option<Scene> {
    let mut scene = scene::large("wide")?;
    let place = |x: usize, y: usize, z: usize| x + 256 * (z + 256 * y);
    let mut cells = vec![(0, 0); 1 << 24];
    cells[place(0, 127, 0)..place(0, 128, 0)].fill((1, 1));
    for z in 100..150 {
        for y in 128..130 {
            cells[place(120, y, z)] = (1, 1);
        }
    }
    scene.tables.window.origin = [-128; 3];
    scene.tables.window.sizes = [256; 3];
    scene.tables.cells = cells;
    scene.request.start = [-18.5, 0.0, 0.5];
    scene.request.goal = [10.5, 0.0, 0.5];
    Some(scene)
}
