//! Lookups by an index that is misread (02, No. 7). The reading itself scans:
//! "each lookup answers as the scan does". A variant has the nodes from before
//! an expansion in its index and scans the others, as the proved search does.

use crate::Variant::{self, *};
use crate::boxes::Point;
use crate::graph::same_point;
use crate::index;

/// Whether a variant misreads the index.
pub fn is_of_index(edit: Variant) -> bool {
    matches!(
        edit,
        IndexStartFree
            | IndexHalfLost
            | IndexNotRound
            | IndexByZeroSign
            | IndexUncompared
            | IndexOwnSlotOnly
    )
}

/// Which of the points is at q, by an index of them of the least size that the
/// budget allows.
pub fn look_up(points: &[Point], budget: u64, q: Point, edit: Variant) -> Option<usize> {
    let mut slots = vec![None; index::least_bytes(budget) / 4];
    for (k, &p) in points.iter().enumerate() {
        let lost = match edit {
            IndexStartFree => k == 0,
            IndexHalfLost => 2 * (k + 1) == slots.len(),
            _ => false,
        };
        let mut way = way(slots.len(), p, edit);
        if let Some(slot) = way.find(|&slot| slots[slot].is_none() && !lost) {
            slots[slot] = Some(k);
        }
    }
    for slot in way(slots.len(), q, edit) {
        let k = slots[slot]?;
        if edit == IndexUncompared || same_point(points[k], q, edit) {
            return Some(k);
        }
        if edit == IndexOwnSlotOnly {
            return None;
        }
    }
    None
}

/// The slots that a point is sought in, from its own on, behind the last the
/// first.
fn way(slots: usize, p: Point, edit: Variant) -> impl Iterator<Item = usize> {
    let words = p.map(f64::to_bits);
    let first = match edit {
        IndexByZeroSign => own_words(slots, words),
        _ => index::home(slots, words),
    };
    let again = if edit == IndexNotRound { 0 } else { first };
    (first..slots).chain(0..again)
}

/// A point's slot by words that are not made canonical.
fn own_words(slots: usize, words: [u64; 3]) -> usize {
    (index::hash_words(words) % slots as u64) as usize
}
