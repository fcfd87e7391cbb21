//! Damage to a scene's bytes.

use crate::random::Random;
use crate::read::RECORD;

/// Breaks something, or nothing that matters: a byte, a field, a record's
/// place, the end.
pub(super) fn damage(random: &mut Random, bytes: &mut Vec<u8>) {
    let count = (bytes.len() / RECORD) as u64;
    let early = if random.once_in(2) { 6 } else { count };
    let begin = random.below(early.min(count)) as usize * RECORD;
    match random.below(9) {
        0 => bytes.truncate(random.below(bytes.len() as u64 + 1) as usize),
        6 => drop(bytes.drain(begin..begin + RECORD)),
        7 => {
            let copy = bytes[begin..begin + RECORD].to_vec();
            let times = random.one_of(&[1, 2, 17, 300]);
            let at = if random.once_in(2) {
                begin
            } else {
                bytes.len()
            };
            bytes.splice(at..at, copy.repeat(times));
        }
        sort => change(random, sort, &mut bytes[begin..begin + RECORD]),
    }
}

/// Changes a record: a bit, its kind, a zero, its n, its last byte, a float.
fn change(random: &mut Random, sort: u64, record: &mut [u8]) {
    match sort {
        1 => record[random.below(64) as usize] ^= 1 << random.below(8),
        2 => record[0] = random.below(9) as u8,
        3 => record[random.from_to(1, 3) as usize] = 1,
        4 => {
            let n = random.one_of(&[1u32, 2, 255, 256, 512, 513, u32::MAX]);
            record[4..8].copy_from_slice(&n.to_le_bytes());
        }
        5 => record[63] = random.below(3) as u8,
        _ => {
            let at = 8 + 8 * random.below(7) as usize;
            let number = random.one_of(&[16.0, 16.0f64.next_up(), -16.0, f64::NAN, 2.0, -3.0]);
            record[at..at + 8].copy_from_slice(&number.to_bits().to_le_bytes());
        }
    }
}
