//! The original's policy for all flag bytes and all policies, and its jumps.

use std::fmt::Write;

use original::{Apex, Policy};
use scene::Random;

use crate::digest::Digest;

/// Combinations of a policy's seven yes or no, and in_water as bit 7.
const COMBINATIONS: u32 = 256;

/// The passages of all 256 flag bytes under a policy.
fn passages(combination: u32) -> Vec<u8> {
    let policy = Policy::numbered(combination & 127, 0.0);
    (0..=255)
        .map(|flags| original::door_passage(&policy, flags))
        .collect()
}

/// The permission bytes of all 256 flag bytes under a policy.
fn permissions(combination: u32) -> Vec<u8> {
    let policy = Policy::numbered(combination & 127, 0.0);
    let all: Vec<u8> = (0..=255).collect();
    original::permission_bytes(&policy, combination & 128 != 0, &all)
}

/// Both of a combination.
pub fn answers(combination: u32) -> (Vec<u8>, Vec<u8>) {
    (passages(combination), permissions(combination))
}

/// All passages, then all permission bytes, combination by combination.
pub fn bytes() -> Vec<u8> {
    let mut out = Vec::new();
    for combination in 0..COMBINATIONS {
        out.extend(passages(combination));
    }
    for combination in 0..COMBINATIONS {
        out.extend(permissions(combination));
    }
    out
}

/// A line of digests for each combination and one for all, then the jumps.
pub fn text() -> String {
    let mut out = String::new();
    let mut whole = [Digest::default(); 2];
    for combination in 0..COMBINATIONS {
        let (passages, permissions) = answers(combination);
        whole[0].take(&passages);
        whole[1].take(&permissions);
        let _ = writeln!(
            out,
            "policy {combination} passages {} permissions {}",
            Digest::of(&passages),
            Digest::of(&permissions)
        );
    }
    let [passages, permissions] = whole;
    let _ = writeln!(
        out,
        "all passages {} permissions {}",
        passages.0, permissions.0
    );
    for (power, gravity) in jumps() {
        let height = match original::jump_apex(power, gravity) {
            Apex::Height(height) => format!("{:016x}", height.to_bits()),
            Apex::Endless => "endless".to_string(),
        };
        let _ = writeln!(
            out,
            "jump {:08x} {:016x} {height}",
            power.to_bits(),
            gravity.to_bits()
        );
    }
    out
}

const POWERS: [f32; 15] = [
    0.42,
    0.5,
    1.0,
    0.0,
    -0.0,
    -1.0,
    0.42_f32.next_up(),
    f32::MIN_POSITIVE,
    f32::from_bits(1),
    f32::MAX,
    f32::INFINITY,
    f32::NEG_INFINITY,
    f32::NAN,
    1.0e10,
    16.0,
];

const GRAVITIES: [f64; 16] = [
    0.08,
    0.04,
    1.0,
    0.0,
    -0.0,
    -0.08,
    0.08_f64.next_down(),
    f64::MIN_POSITIVE,
    5.0e-324,
    1.0e300,
    f64::MAX,
    f64::INFINITY,
    f64::NEG_INFINITY,
    f64::NAN,
    0.42,
    0.42_f32 as f64,
];

/// Chosen powers times chosen gravities, then random ones. No NaN carries a
/// payload of its own.
pub fn jumps() -> Vec<(f32, f64)> {
    let mut out: Vec<(f32, f64)> = Vec::new();
    for power in POWERS {
        out.extend(GRAVITIES.map(|gravity| (power, gravity)));
    }
    let mut random = Random::new(1, "jumps");
    while out.len() < 2048 {
        let power = match random.below(4) {
            0 => f32::from_bits(random.next() as u32),
            1 => (random.part() * 2.0) as f32,
            _ => random.from_to(1, 4096) as f32 / 2048.0,
        };
        let gravity = match random.below(4) {
            0 => f64::from_bits(random.next()),
            1 => random.part(),
            _ => random.from_to(1, 1024) as f64 / 4096.0,
        };
        if !power.is_nan() && !gravity.is_nan() {
            out.push((power, gravity));
        }
    }
    out
}

/// The most ticks that an ending jump of the list takes, counted apart from
/// the original.
pub fn most_ticks() -> u64 {
    let ticks = |(power, gravity): (f32, f64)| {
        let mut velocity = f64::from(power);
        let mut count = 0;
        while velocity > 0.0 && gravity > 0.0 && count < 1 << 20 {
            velocity = (velocity - gravity) * 0.98;
            count += 1;
        }
        count
    };
    jumps()
        .into_iter()
        .filter(|&(power, gravity)| original::jump_apex(power, gravity) != Apex::Endless)
        .map(ticks)
        .max()
        .unwrap_or(0)
}
