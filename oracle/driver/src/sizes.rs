//! The sizes of the rooms that a search is lent.

use reading::index;
use scene::{NODE, WAITING, WAYPOINT};

/// The bytes of each room.
pub type Sizes = [usize; 4];

/// The rooms in the order in which they are lent.
pub const NODES: usize = 0;
pub const FRONT: usize = 1;
pub const INDEX: usize = 2;
pub const OUT: usize = 3;

/// The smallest rooms that a budget allows.
pub fn needed(budget: u64) -> Sizes {
    let records = budget as usize;
    let index = index::least_bytes(budget);
    [
        NODE * records,
        WAITING * records,
        index,
        WAYPOINT * (records + 1),
    ]
}

/// These rooms, each so many bytes longer, and the index so often doubled.
pub fn longer(sizes: Sizes, extra: Sizes) -> Sizes {
    let mut out: Sizes = std::array::from_fn(|room| sizes[room] + extra[room]);
    out[INDEX] = sizes[INDEX] << extra[INDEX];
    out
}

/// "Node or frontier room under node_budget records, output under node_budget +
/// 1", and (02, No. 7) "5 also for an index room of a wrong size".
pub fn no_room(sizes: Sizes, budget: u64) -> bool {
    let needed = needed(budget);
    let short = |&room: &usize| sizes[room] < needed[room];
    [NODES, FRONT, OUT].iter().any(short) || index::wrong_size(sizes[INDEX], budget)
}
