//! Old bytes that look like an index. A search must not read them, and one that
//! did would be misled by some: where no slot is free it enters no node and
//! scans them all, so the ones that mislead have free slots and wrong numbers.

use mutants::chance::Chance;
use reading::index;

/// What the slots of an index room hold before a search.
#[derive(Clone, Copy, Debug, PartialEq)]
pub enum Used {
    /// The number of a node that will be retained, or the next one.
    Numbers,
    /// The same, and half of the slots are free.
    Sparse,
    /// The start.
    Start,
    /// What the search itself will enter.
    Built,
    /// The same with the nodes' numbers from the last to the first.
    Reversed,
}

pub const USED: [Used; 5] = [
    Used::Numbers,
    Used::Sparse,
    Used::Start,
    Used::Built,
    Used::Reversed,
];

impl Used {
    /// Fills a room for a search that retains these points.
    pub fn fill(self, room: &mut [u8], points: &[[u64; 3]], chance: &mut Chance) {
        match self {
            Used::Numbers => numbers(room, || 1 + chance.below(points.len() + 1)),
            Used::Sparse => numbers(room, || match chance.once_in(2) {
                true => 0,
                false => 1 + chance.below(points.len() + 1),
            }),
            Used::Start => numbers(room, || 1),
            Used::Built => built(room, points),
            Used::Reversed => {
                built(room, points);
                for slot in room.as_chunks_mut().0 {
                    let number = u32::from_le_bytes(*slot);
                    if number > 0 {
                        *slot = (points.len() as u32 + 1 - number).to_le_bytes();
                    }
                }
            }
        }
    }
}

/// A number in each slot.
fn numbers(room: &mut [u8], mut number: impl FnMut() -> usize) {
    for slot in room.as_chunks_mut().0 {
        *slot = (number() as u32).to_le_bytes();
    }
}

/// The index of the points, as far as the room has slots.
fn built(room: &mut [u8], points: &[[u64; 3]]) {
    room.fill(0);
    index::enter(room, points);
}
