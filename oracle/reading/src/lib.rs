//! A plain reading of document 01, and of 02's No. 2, 3, 5, 7 and 10: what each
//! sentence says, one function a paragraph, without a thought for speed. It
//! shares nothing with the original's code; where 01 leaves a sum to the source,
//! it takes the source's.
//!
//! It comes with variants, each of which misreads one sentence on purpose, so
//! that a scene can be shown to tell the sentence from its misreading.

mod boxes;
mod doors;
mod edge;
mod graph;
pub mod index;
mod length;
mod lookup;
mod policy;
mod progress;
mod reason;
mod request;
mod root;
mod route;
mod search;
mod steps;
mod support;
mod ticks;
mod variant;
mod walk_back;
mod world;

pub use boxes::Area;
pub use graph::{E, Graph};
pub use length::{edges, length, print, same_number};
pub use policy::{
    DAMAGING, DOOR, GRASS, IRON_DOOR, OPEN, Passage, Policy, WATER, fill_permissions,
    find_path_request, jump_apex, passage, permission,
};
pub use progress::broken;
pub use reason::Reason;
pub use request::{Rooms, bad_world, search, search_in, too_large, valid_request};
pub use root::is_root;
pub use route::{is_route, reachable_points};
pub use ticks::{BAD_PROGRESS, Counts, Lent, PROGRESS, SEARCHING, Tick, tick};
pub use variant::{ASKED, LISTED, ROOMED, TICKED, TOLD, VARIANTS, Variant};
pub use walk_back::walk_back;
