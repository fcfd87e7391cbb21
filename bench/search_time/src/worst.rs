//! Worlds made to be hard for the proved search: each has much of what it does
//! in another way than the original. `bench/search worst` times them.

mod areas;
mod fields;
mod heights;
mod nodes;
mod segments;

use scene::Scene;

/// The worlds and how often each is searched.
pub const WORST: [(&str, usize); 31] = [
    ("sinking", 10),
    ("falling", 5),
    ("same", 5),
    ("within", 5),
    ("hidden", 20),
    ("air", 3),
    ("deep", 3),
    ("strips", 20),
    ("strips-wide", 10),
    ("tiles", 20),
    ("slivers-2", 20),
    ("slivers-4", 10),
    ("slivers-8", 3),
    ("wide-body", 10),
    ("dense", 10),
    ("elsewhere", 10),
    ("lifts", 10),
    ("corner", 50),
    ("flat", 10),
    ("big", 5),
    ("snake", 20),
    ("ridge", 20),
    ("fan", 3),
    ("shaft", 5),
    ("near", 100),
    ("tables", 50),
    ("bridge", 50),
    ("odd", 10),
    ("far", 10),
    ("farther", 10),
    ("one-slot", 5),
];

pub fn world(name: &str) -> Option<Scene> {
    heights::world(name)
        .or_else(|| segments::world(name))
        .or_else(|| areas::world(name))
        .or_else(|| nodes::world(name))
        .or_else(|| fields::world(name))
}
