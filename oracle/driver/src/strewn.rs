//! Doors here and there in a world: other states, without bit 4, in cells that
//! have no boxes. They change nothing of a search but the doors that it names.

use mutants::chance::Chance;
use scene::{Scene, Tables};

/// The world with doors in some of its free cells; the same for the same number.
pub fn strewn(mut scene: Scene, number: u64) -> Scene {
    strew(&mut scene.tables, &mut Chance::new(!number));
    scene
}

/// Up to four new states, and cells of them.
pub fn strew(tables: &mut Tables, chance: &mut Chance) {
    let first = tables.permissions.len();
    let states = 1 + chance.below(4);
    for _ in 0..states {
        tables.permissions.push(chance.pick(&[3, 3, 1]));
    }
    let rare = chance.pick(&[2, 5, 30]);
    for cell in &mut tables.cells {
        let (state, shape) = *cell;
        let occupied = tables.permissions[..first].get(state as usize);
        let boxes = tables.shapes.get(shape as usize);
        let free =
            occupied.is_some_and(|byte| byte & 1 != 0) && boxes.is_some_and(|run| run.1 == 0);
        if free && chance.once_in(rare) {
            cell.0 = (first + chance.below(states)) as u32;
        }
    }
}
