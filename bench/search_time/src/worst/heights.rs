//! Columns whose heights are hard to tell in order, or hard to find.

use scene::Scene;

use super::areas::crumbs;
use crate::ground::Numbers;
use crate::worlds::{columns, plate};

/// `sinking`: 256 heights, each below the one before. `falling`: a cell's tops
/// fall from 15 above it to 14 below, so that those of thirty layers are mixed.
/// `same`: the sixteen tops of a cell are one height. `within`: they are closer
/// together than E, and three of them are kept. `hidden`: two heights among 1,890
/// boxes that give none.
pub fn world(name: &str) -> Option<Scene> {
    match name {
        "sinking" => Some(columns(16, sinking, 8.5, 8.4375)),
        "falling" => Some(columns(LAYERS, |_| falling(), 64.4375, 62.4375)),
        "same" => Some(columns(LAYERS, |_| vec![plate(1.0); 16], 64.0, 62.0)),
        "within" => Some(columns(LAYERS, |_| within(), 64.0, 62.0)),
        "hidden" => Some(columns(LAYERS, hidden, 64.0, 2.0)),
        _ => None,
    }
}

/// As many as the largest range has.
const LAYERS: u32 = 128;

/// As the layers rise the tops fall, sixteen a block.
fn sinking(layer: u32) -> Vec<Numbers> {
    let top = |k: u32| 16.0 - 2.0 * f64::from(layer) - f64::from(k + 1) / 16.0;
    (0..16).map(|k| plate(top(k))).collect()
}

/// No two cells of a column have a top in common: each box has a sixteenth of
/// its own.
fn falling() -> Vec<Numbers> {
    let top = |k: u32| 15.0 - 2.0 * f64::from(k) + f64::from(k) / 16.0;
    (0..16).map(|k| plate(top(k))).collect()
}

fn within() -> Vec<Numbers> {
    let top = |k: u32| 1.0 - 1.9e-8 * f64::from(k);
    (0..16).map(|k| plate(top(k))).collect()
}

/// Crumbs, which no column's centre lies on, but for the start's and the goal's
/// floor.
fn hidden(layer: u32) -> Vec<Numbers> {
    if layer == 63 || layer == 1 {
        vec![plate(1.0)]
    } else {
        crumbs()
    }
}
