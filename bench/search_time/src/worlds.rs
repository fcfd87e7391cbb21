//! The worlds that an ordinary run times, by name, and how often each is
//! searched: the oracle's three large ones, its stairs, columns of plates, and the
//! wide one with doors.

use scene::Scene;

use crate::ground::{Ground, Numbers, endless, mite};
use crate::worst;

/// The slower a world, the fewer its rounds, so that the run stays short.
pub const ORDINARY: [(&str, usize); 11] = [
    ("wide", 100),
    ("maze", 100),
    ("tower", 100),
    ("stairs-64", 100),
    ("stairs-512", 100),
    ("stairs-4096", 20),
    ("plates-128", 20),
    ("plates-512", 10),
    ("plates-2048", 5),
    ("doors", 100),
    ("doorways", 100),
];

/// A world of an ordinary run, or one of the worst.
pub fn world(name: &str) -> Option<Scene> {
    let numbered = || -> Option<Scene> {
        let (kind, number) = name.rsplit_once('-')?;
        let number: u32 = number.parse().ok()?;
        match kind {
            "stairs" => Some(scene::stairs(number.into())),
            "plates" => Some(plates(number)),
            _ => None,
        }
    };
    numbered()
        .or_else(|| doors(name))
        .or_else(|| scene::large(name))
        .or_else(|| worst::world(name))
}

/// Tells of each world that is named, or of the usual ones. False if one of them was
/// answered wrongly, none if a name is no world's.
pub fn each(names: &[&str], usual: &[&str], told: impl Fn(&str) -> Option<bool>) -> Option<bool> {
    let names = if names.is_empty() { usual } else { names };
    names
        .iter()
        .try_fold(true, |right, name| Some(right & told(name)?))
}

/// The wide world. `doors`: its air passes through, so that every edge names it.
/// `doorways`: in every seventh column a door of two cells stands on the floor;
/// the other edges are looked through in vain.
fn doors(name: &str) -> Option<Scene> {
    /// A state that a body passes through: bit 4 is not set.
    const OPEN: u8 = 3;
    let mut scene = scene::large("wide")?;
    let tables = &mut scene.tables;
    match name {
        "doors" => tables.permissions[0] = OPEN,
        "doorways" => {
            let door = (tables.permissions.len() as u32, 0);
            tables.permissions.push(OPEN);
            let [width, _, depth] = tables.window.sizes.map(|size| size as usize);
            let layer = width * depth;
            for cell in (0..layer).filter(|cell| (cell % width + 3 * (cell / width)) % 7 == 0) {
                tables.cells[layer + cell] = door;
                tables.cells[2 * layer + cell] = door;
            }
        }
        _ => return None,
    }
    Some(scene)
}

/// A thin box over the whole cell, with its top at such a height of it.
pub fn plate(top: f64) -> Numbers {
    [0.0, top - 1.0 / 64.0, 0.0, 1.0, top, 1.0]
}

/// Sixteen plates, one above the other, up to the cell's top.
pub fn sixteen() -> Vec<Numbers> {
    (1..=16).map(|k| plate(f64::from(k) / 16.0)).collect()
}

/// Five by five columns with so many heights each, sixteen a cell, all of them
/// in the band of heights: each of four nodes has to ask for all of them.
fn plates(heights: u32) -> Scene {
    let middle = f64::from(heights / 32);
    columns(heights / 16, |_| sixteen(), middle, middle - 2.0)
}

/// Five by five columns of so many layers, with boxes by layer, and four nodes to
/// be retained. The start is in the middle at one height, the goal in a corner at
/// another.
pub fn columns(layers: u32, boxes: impl Fn(u32) -> Vec<Numbers>, from: f64, to: f64) -> Scene {
    let mut ground = Ground::new([0, 0, 0], [5, layers, 5]);
    for layer in 0..layers {
        let shape = ground.shape(&boxes(layer));
        let y = layer as i32;
        ground.fill([0, y, 0], [4, y, 4], shape);
    }
    let request = endless([2.5, from, 2.5], [0.5, to, 0.5], 4);
    ground.scene(request, mite())
}
