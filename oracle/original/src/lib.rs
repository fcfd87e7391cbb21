//! The original search and policy, compiled unchanged over stand-ins, as the
//! judge of what walkprint must answer. docs/DIFFERENCES.md lists the
//! stand-ins and their rules.

mod absent;
mod doors;
mod entity;
mod glam;
mod policy;
mod registry;
mod route;
mod search;

pub use policy::{Apex, Call, Found, Policy, door_passage, find_path, jump_apex, permission_bytes};
pub use route::{Walks, walk_back};
pub use search::{Checks, Column, Navigator, find_walk_path, judge, valid_request, verdict};
