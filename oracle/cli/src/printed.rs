//! The scenes that the gate's program `replay_check` prints as walkprint does.

use std::path::Path;

use crate::files::{directed, scene_file};

/// Where the flat scene is cut, in and between records.
const CUTS: [usize; 13] = [0, 63, 64, 65, 128, 191, 192, 193, 320, 447, 448, 449, 511];

/// Every scene in text form of a folder; the flat one with 01's other budgets
/// and goals, and cut; and the first seeds of each kind.
pub fn scenes(folder: &Path) -> Result<Vec<Vec<u8>>, String> {
    let file = |name: &str| folder.join(name).to_string_lossy().into_owned();
    let mut out = Vec::new();
    for name in directed(folder)? {
        out.push(scene_file(&file(&name))?);
    }
    let flat = std::fs::read_to_string(file("flat.txt")).map_err(|error| error.to_string())?;
    for budget in ["budget 0", "budget 1", "budget 2"] {
        out.push(scene::from_text(&flat.replace("budget 64", budget))?);
    }
    for goal in ["goal 2.0 ", "goal 2.0625 "] {
        out.push(scene::from_text(&flat.replace("goal 2.5 ", goal))?);
    }
    let whole = scene::from_text(&flat)?;
    out.extend(CUTS.map(|bytes| whole[..bytes].to_vec()));
    for kind in scene::KINDS.into_iter().chain(["mixed"]) {
        out.extend((1..=4).map(|seed| scene::make(seed, kind).expect("the kind is known")));
    }
    Ok(out)
}
