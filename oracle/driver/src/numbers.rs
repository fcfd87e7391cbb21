//! The proved jump against the original's, and the proved root against the
//! processor's: one of each a number.

use mutants::chance::Chance;
use original::{Apex, jump_apex};
use walkprint::raw;

use crate::counts::Counts;
use crate::room::Room;
use crate::runner::{Makers, Mismatch};

pub fn one_of_each(_: &Makers, number: u64, counts: &mut Counts) -> Result<(), Mismatch> {
    let mut chance = Chance::new(number);
    let result = jump(&mut chance, counts).and_then(|()| root(&mut chance, counts));
    result.map_err(|what| Mismatch {
        what,
        scene: String::new(),
    })
}

/// A room of 8 bytes or a few more, or too short.
fn room(chance: &mut Chance) -> (Room, bool) {
    let length = chance.pick(&[8, 8, 8, 9, 16, 7, 0]);
    (Room::new(length, chance), length >= 8)
}

/// Number and room must be these: `value` is written if it fits.
fn check(
    value: Option<f64>,
    refusal: u64,
    chance: &mut Chance,
    call: impl FnOnce(&mut [u8]) -> u64,
) -> Result<(), String> {
    let (mut room, fits) = room(chance);
    let bytes = value.map(|value| value.to_bits().to_le_bytes());
    let after = room.after(
        bytes
            .as_ref()
            .filter(|_| fits)
            .map_or(&[], |bytes| &bytes[..]),
    );
    let must = if value.is_some() { 0 } else { refusal };
    let number = call(room.lent());
    if number != must {
        return Err(format!("answered {number}, must be {must}"));
    }
    room.parts(&after).map_or(Ok(()), Err)
}

/// Powers and gravities as mobs have them, and any bits.
fn jump(chance: &mut Chance, counts: &mut Counts) -> Result<(), String> {
    let usual = chance.pick(&[0.1, 0.42, 1.0, 40.0, 1e9]) * (2.0 * chance.part() - 0.2);
    let power = match chance.below(4) {
        0 => f32::from_bits(chance.word() as u32),
        1 => chance.pick(&[
            f32::INFINITY,
            f32::MAX,
            f32::MIN_POSITIVE,
            0.0,
            -0.0,
            f32::NAN,
        ]),
        _ => usual as f32,
    };
    let gravity = match chance.below(4) {
        0 => f64::from_bits(chance.word()),
        1 => chance.pick(&[f64::INFINITY, 5e-324, 0.0, -0.0, f64::NAN, -1.0, f64::MAX]),
        _ => chance.pick(&[1e-3, 0.08, 1.0, 1e3]) * (chance.part() - 0.1),
    };
    let must = match jump_apex(power, gravity) {
        Apex::Height(height) => Some(height),
        Apex::Endless => None,
    };
    let call = |room: &mut [u8]| raw::jump_apex(power, gravity, room);
    check(must, 6, chance, call)
        .map_err(|parts| format!("jump of {power:e} under {gravity:e}: {parts}"))?;
    counts.add(
        if must.is_some() {
            "jumps"
        } else {
            "endless jumps"
        },
        1,
    );
    Ok(())
}

/// Numbers as distances have them, border values, any bits.
fn root(chance: &mut Chance, counts: &mut Counts) -> Result<(), String> {
    let square = chance.part() * 2f64.powi(chance.between(-40, 40));
    let number = match chance.below(4) {
        0 => f64::from_bits(chance.word()),
        1 => chance.pick(&[
            0.0,
            -0.0,
            f64::INFINITY,
            f64::NAN,
            -5e-324,
            5e-324,
            f64::MAX,
        ]),
        2 => (square * square).next_up(),
        _ => square,
    };
    let must = root_of(number, chance)?;
    counts.add(
        if must.is_some() {
            "roots"
        } else {
            "roots refused"
        },
        1,
    );
    Ok(())
}

/// "Both zeros keep their sign. Negative, infinite or NaN input is refused." It
/// answers what the proved root answered, too: the processor's root, or that
/// there is none.
pub fn root_of(number: f64, chance: &mut Chance) -> Result<Option<f64>, String> {
    let refused = !number.is_finite() || number < 0.0;
    let must = (!refused).then(|| number.sqrt());
    let call = |room: &mut [u8]| raw::root(number, room);
    check(must, 9, chance, call).map_err(|parts| format!("root of {number:e}: {parts}"))?;
    Ok(must)
}
