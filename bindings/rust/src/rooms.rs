//! The rooms that a search is lent, and how long they are for a budget.

use crate::Waypoint;

/// The rooms that a search is lent. `nodes_bytes` and its neighbours say how
/// many bytes each has at least, and of the index exactly which.
#[derive(Debug)]
pub struct Rooms<'a> {
    pub nodes: &'a mut [u8],
    pub front: &'a mut [u8],
    pub index: &'a mut [u8],
    pub out: &'a mut [u8],
}

/// The largest budget that a search takes. The functions below answer a larger
/// one as this.
const MOST_NODE_BUDGET: usize = 4096;

/// The budget that a mob's search asks for.
pub const PATH_NODE_BUDGET: usize = 2048;

/// The bytes of a mob's shortest node room.
pub const PATH_NODES_BYTES: usize = nodes_bytes(PATH_NODE_BUDGET);

/// The bytes of a mob's shortest frontier room.
pub const PATH_FRONT_BYTES: usize = front_bytes(PATH_NODE_BUDGET);

/// The bytes of a mob's smallest index room.
pub const PATH_INDEX_BYTES: usize = index_bytes(PATH_NODE_BUDGET);

/// The bytes of a mob's shortest output.
pub const PATH_OUT_BYTES: usize = out_bytes(PATH_NODE_BUDGET);

/// An index room of so many bytes is of a right size for every budget up to
/// 4,096, the most that a search takes. Larger powers of two are right too.
pub const MOST_INDEX_BYTES: usize = index_bytes(MOST_NODE_BUDGET);

const fn taken(budget: usize) -> usize {
    if budget < MOST_NODE_BUDGET { budget } else { MOST_NODE_BUDGET }
}

/// The bytes of the shortest node room for a budget, 64 a node. For a budget
/// above 4,096, which no search takes, the bytes for 4,096.
pub const fn nodes_bytes(budget: usize) -> usize {
    64 * taken(budget)
}

/// The bytes of the shortest frontier room for a budget, 24 a node. For a budget
/// above 4,096, which no search takes, the bytes for 4,096.
pub const fn front_bytes(budget: usize) -> usize {
    24 * taken(budget)
}

/// The bytes of the shortest output for a budget: one waypoint more than that.
/// For a budget above 4,096, which no search takes, the bytes for 4,096.
pub const fn out_bytes(budget: usize) -> usize {
    Waypoint::BYTES * (taken(budget) + 1)
}

/// The bytes of the smallest index room for a budget. It has slots of 4 bytes,
/// their number is a power of two, and there are at least twice the budget; so
/// one that is twice as long is right too, and so on, but none between them. For
/// a budget above 4,096, which no search takes, the bytes for 4,096.
pub const fn index_bytes(budget: usize) -> usize {
    let mut bytes = 4;
    while bytes / 8 < taken(budget) {
        bytes *= 2;
    }
    bytes
}
