//! What the examples share: a scene file read into tables, and a route printed.

use std::error::Error;

use walkprint::{SCENE_TABLES, Scene, Tables, Waypoint};

/// A scene, and the tables that it made, in vectors of the largest sizes.
pub struct World {
    pub scene: Scene,
    tables: [Vec<u8>; 4],
}

impl World {
    /// The scene file that the program is given.
    pub fn named() -> Result<Self, Box<dyn Error>> {
        let bytes = std::fs::read(std::env::args().nth(1).ok_or("no scene is named")?)?;
        let mut tables = SCENE_TABLES.map(|n| vec![0; n]);
        let [cells, permissions, shapes, boxes] = &mut tables;
        let scene = walkprint::read_scene(&bytes, cells, permissions, shapes, boxes)?;
        Ok(Self { scene, tables })
    }

    /// Of each table what is in use.
    pub fn tables(&self) -> Tables<'_> {
        let [cells, permissions, shapes, boxes] = [0, 1, 2, 3].map(|k| &self.tables[k][..self.scene.in_use[k]]);
        Tables { window: self.scene.window, cells, permissions, shapes, boxes }
    }
}

/// Before it goes on to a waypoint, a guide opens the door that is named with
/// it, if that is still shut.
pub fn print_route(list: &[Waypoint]) {
    for (i, w) in list.iter().enumerate() {
        let door = w.door.map_or(String::new(), |state| format!(" door {state}"));
        println!("{i} {} {} {} {} lift {}{door}", w.movement, w.feet[0], w.feet[1], w.feet[2], w.lift);
    }
}
