//! 02's No. 7: "Keep an index in a room of its own, u32 slots, a power of two
//! and at least twice the budget, addressed by a hash of the three 64-bit words
//! of a point, built from shifts and sums that wrap."
//!
//! 02 leaves the hash open, and what a slot holds; this is the search's own. A
//! slot is 0 where it is free, else a point's number and 1. Points are entered in
//! the order of their numbers, each in the first free slot from its own on,
//! behind the last slot the first. A search leaves the room zero, so a caller
//! sees of all this nothing but the time; bench/probes counts it.

/// Bytes of a slot: a u32, little-endian.
const SLOT: usize = 4;

/// "-0.0 as 0", as same points have it (01): else they could have two slots.
pub fn canonical(w: u64) -> u64 {
    if w == (-0.0f64).to_bits() { 0 } else { w }
}

/// A hash, stirred by shifts and sums that wrap.
fn stir(h: u64) -> u64 {
    let d = h.wrapping_add(h >> 19);
    d.wrapping_add(d << 5)
}

/// The hash of three words: each added and stirred in, then stirred twice more.
pub fn hash_words(words: [u64; 3]) -> u64 {
    let h = words.into_iter().fold(0, |h: u64, w| stir(h.wrapping_add(w)));
    let h = stir(stir(h));
    h.wrapping_add(h >> 34)
}

/// The hash of a point.
pub fn hash(p: [u64; 3]) -> u64 {
    hash_words(p.map(canonical))
}

/// A point's own slot, of so many, which are at least one.
pub fn home(slots: usize, p: [u64; 3]) -> usize {
    (hash(p) % slots as u64) as usize
}

/// "5 also for an index room of a wrong size": of whole slots, whose number is
/// "a power of two and at least twice the budget". So 0 bytes are wrong, also
/// for budget 0, and a longer room is good only if it is a power of two again.
pub fn wrong_size(bytes: usize, budget: u64) -> bool {
    let slots = (bytes / SLOT) as u128;
    let power = (0..usize::BITS).any(|k| slots == 1 << k);
    bytes % SLOT != 0 || !power || slots < 2 * u128::from(budget)
}

/// The smallest room that is not of a wrong size. (Above a budget of 2^60 there
/// is none; a search takes 4,096 at most.)
pub fn least_bytes(budget: u64) -> usize {
    let mut powers = (0..usize::BITS - 2).map(|k| SLOT << k);
    powers
        .find(|&bytes| !wrong_size(bytes, budget))
        .expect("a budget that a room can be made for")
}

/// Enters points, the first as number 0, while a slot is free. How many are
/// entered.
pub fn enter(room: &mut [u8], points: &[[u64; 3]]) -> usize {
    for (k, &p) in points.iter().enumerate() {
        let Some(slot) = round(room.len(), p).find(|&slot| at(room, slot) == 0) else {
            return k;
        };
        room[SLOT * slot..][..SLOT].copy_from_slice(&(k as u32 + 1).to_le_bytes());
    }
    points.len()
}

/// Which of the entered points is at q, or how many points there are; and how
/// many slots were looked at for that, a free one at the end included. A number
/// that no point has ends it as a free slot does.
pub fn probes(room: &[u8], points: &[[u64; 3]], q: [u64; 3]) -> (usize, usize) {
    let mut looked = 0;
    for slot in round(room.len(), q) {
        looked += 1;
        let entry = at(room, slot);
        if entry == 0 || entry > points.len() {
            break;
        }
        if points[entry - 1].map(canonical) == q.map(canonical) {
            return (entry - 1, looked);
        }
    }
    (points.len(), looked)
}

/// All slots of a room, from a point's own on.
fn round(bytes: usize, p: [u64; 3]) -> impl Iterator<Item = usize> {
    let slots = bytes / SLOT;
    let first = if slots == 0 { 0 } else { home(slots, p) };
    (first..slots).chain(0..first)
}

/// What a slot holds.
fn at(room: &[u8], slot: usize) -> usize {
    let bytes = room[SLOT * slot..][..SLOT].try_into().expect("a slot");
    u32::from_le_bytes(bytes) as usize
}
