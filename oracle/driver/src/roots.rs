//! The proved root on a bit pattern for each number: by both calls, against the
//! processor's root and against 01's own words about squares.

use mutants::chance::Chance;
use reading::{is_root, same_number};
use walkprint::raw;

use crate::counts::Counts;
use crate::numbers::root_of;
use crate::runner::{Makers, Mismatch};

/// A significand's bits, and the weight of the lowest bit of the exponent.
const DIGITS: u64 = LEAD - 1;
const LEAD: u64 = 1 << 52;

/// How many signs and exponents there are: with the infinities' and the NaNs'.
const SIGNS_AND_EXPONENTS: u64 = 4096;

pub fn one_pattern(_: &Makers, number: u64, counts: &mut Counts) -> Result<(), Mismatch> {
    let mut chance = Chance::new(number);
    let (kind, pattern) = pattern(number, &mut chance);
    let must = same_roots(f64::from_bits(pattern), &mut chance).map_err(|what| Mismatch {
        what: format!("{kind}, pattern {pattern:016x}: {what}"),
        scene: String::new(),
    })?;
    counts.add(kind, 1);
    counts.add(if must.is_some() { "roots" } else { "refused" }, 1);
    Ok(())
}

/// Five kinds in turn. Each goes through all its exponents, sizes or neighbours.
fn pattern(number: u64, chance: &mut Chance) -> (&'static str, u64) {
    let place = number / 5;
    match number % 5 {
        0 => ("of each sign and exponent", each_exponent(place, chance)),
        1 => ("subnormal", subnormal(place, chance)),
        2 => ("at squares", beside(square(place, chance), place, 1)),
        3 => ("half way", beside(half_way(place, chance), place, 2)),
        _ => ("of any bits", chance.word()),
    }
}

/// Every sign and exponent, with any digits, a few, or the first or last ones.
fn each_exponent(place: u64, chance: &mut Chance) -> u64 {
    let digits = match chance.below(4) {
        0 => chance.pick(&[0, 1, 2, DIGITS, DIGITS - 1, LEAD / 2, LEAD / 2 - 1]),
        1 => (chance.word() & DIGITS) >> chance.below(52),
        _ => chance.word() & DIGITS,
    };
    place % SIGNS_AND_EXPONENTS * LEAD + digits
}

/// Every size of a number without a leading digit, from 1 digit to 52.
fn subnormal(place: u64, chance: &mut Chance) -> u64 {
    let lead = 1 << (place % 52);
    lead + chance.word() % lead
}

/// The square of a whole number of at most 26 digits, which an f64 holds, times
/// every power of 4 from 2^-1074 to 2^972, with which it still is an f64.
fn square(place: u64, chance: &mut Chance) -> u64 {
    let root = ((chance.word() % (1 << 26)) >> chance.below(26)).max(1);
    let power = (place / 3 % 1024) as i32 - 537;
    ((root * root) as f64 * power_of_two(2 * power)).to_bits()
}

/// Near the square of a point half way between two f64, r and the next one: that
/// is r r + r times r's last digit, and very little more.
fn half_way(place: u64, chance: &mut Chance) -> u64 {
    let exponent = (place / 5 % 1023) as i32 - 511;
    let field = (exponent + 1023) as u64;
    let root = f64::from_bits(field * LEAD + (chance.word() & DIGITS));
    (root * root + root * power_of_two(exponent - 52)).to_bits()
}

/// 2^power by its bits, subnormal or not.
fn power_of_two(power: i32) -> f64 {
    match power {
        ..-1022 => f64::from_bits(1 << (power + 1074)),
        _ => f64::from_bits((power + 1023) as u64 * LEAD),
    }
}

/// The pattern itself, or up to so many f64 below or above it, in turn.
fn beside(pattern: u64, place: u64, reach: u64) -> u64 {
    (pattern + place % (2 * reach + 1)).saturating_sub(reach)
}

/// What `walkprint_root` answers, after it was compared; `walkprint_square_root`
/// must answer the same, and the processor's root where that one refuses.
fn same_roots(number: f64, chance: &mut Chance) -> Result<Option<f64>, String> {
    let root = root_of(number, chance)?;
    if !only_root(number, root) {
        return Err(format!("{root:?} is not the one root by 01's words"));
    }
    let (square_root, must) = (raw::square_root(number), number.sqrt());
    if !same_number(square_root, must) {
        return Err(format!("square root {square_root:e}, must be {must:e}"));
    }
    Ok(root)
}

/// 01's words take this answer and no other one near it.
fn only_root(number: f64, root: Option<f64>) -> bool {
    let others = match root {
        None => vec![Some(number.sqrt())],
        Some(root) => vec![
            None,
            Some(-root),
            Some(root.next_up()),
            Some(root.next_down()),
        ],
    };
    is_root(number, root) && others.into_iter().all(|other| !is_root(number, other))
}
