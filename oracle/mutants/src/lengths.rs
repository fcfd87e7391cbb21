//! Lists whose length is asked, most of which no search gives: records of numbers
//! of all sizes, walks like a search's, the same spoilt, and any bytes.

use reading::Variant::ReadAsWritten;
use reading::{E, Variant, length, same_number};
use scene::{NO_DOOR, WAYPOINT, Waypoint};

use crate::chance::Chance;

/// The most records of a list, before a walk is spoilt.
const MOST: usize = 40;

/// Makes the bytes of a list.
type Make = fn(&mut Chance) -> Vec<u8>;

/// What a list is made of, in turn.
const KINDS: [(&str, Make); 12] = [
    ("walks", |chance| bytes(&walk(chance))),
    ("of ordinary numbers", |chance| records(chance, ordinary)),
    ("of few digits", |chance| records(chance, few_digits)),
    ("of thirds", |chance| records(chance, thirds)),
    ("huge", |chance| {
        let most = chance.pick(&[500, 510, 511, 515, 1022]);
        records(chance, |chance| power(chance, most - 20, most))
    }),
    ("tiny", |chance| {
        let least = chance.pick(&[-500, -511, -537, -545, -1022]);
        records(chance, |chance| power(chance, least, least + 20))
    }),
    ("subnormal", |chance| records(chance, subnormal)),
    ("near 0", |chance| records(chance, near_zero)),
    ("with an infinity or a NaN", |chance| records(chance, rare)),
    ("of all sizes", |chance| records(chance, of_any_size)),
    ("spoilt walks", spoilt),
    ("of any bytes", |chance| {
        let length = WAYPOINT * count(chance);
        any_bytes(chance, length)
    }),
];

/// The list of a number, and what it is made of. In three of four there is a part
/// of a record at its end.
pub fn list(number: u64) -> (&'static str, Vec<u8>) {
    let mut chance = Chance::new(number);
    let (kind, make) = KINDS[(number % KINDS.len() as u64) as usize];
    let mut list = make(&mut chance);
    let part = match chance.below(4) {
        0 => 0,
        _ => chance.below(WAYPOINT),
    };
    list.extend(any_bytes(&mut chance, part));
    (kind, list)
}

/// How many lists, from number 0 on, a variant gives the reading's length before
/// it gives another.
pub fn noticed_after(edit: Variant) -> Option<u64> {
    let parts = |number: &u64| {
        let (_, list) = list(*number);
        !same_number(length(&list, ReadAsWritten), length(&list, edit))
    };
    (0..1000).find(parts)
}

/// How many records a list has: seldom so few that it has no edge, often few,
/// because the last digit of an edge shows best where few are summed.
fn count(chance: &mut Chance) -> usize {
    let more = chance.pick(&[2, 6, MOST - 1]);
    match chance.once_in(12) {
        true => chance.below(2),
        false => 2 + chance.below(more),
    }
}

fn bytes(points: &[Waypoint]) -> Vec<u8> {
    points.iter().flat_map(Waypoint::bytes).collect()
}

fn any_bytes(chance: &mut Chance, length: usize) -> Vec<u8> {
    let words = (0..length.div_ceil(8)).flat_map(|_| chance.word().to_le_bytes());
    words.take(length).collect()
}

/// Records of numbers of one kind. A lift is mostly at least 0; movement and door,
/// which no length reads, are now and then any words.
fn records(chance: &mut Chance, number: impl Fn(&mut Chance) -> f64) -> Vec<u8> {
    let count = count(chance);
    let mut record = || {
        let [x, y, z, lift] = [(); 4].map(|()| number(chance));
        Waypoint {
            feet: [x, y, z],
            lift: if chance.once_in(4) { lift } else { lift.abs() },
            movement: match chance.once_in(4) {
                true => chance.word(),
                false => chance.below(4) as u64,
            },
            door: match chance.once_in(4) {
                true => chance.word(),
                false => NO_DOOR,
            },
        }
    };
    let points: Vec<Waypoint> = (0..count).map(|_| record()).collect();
    bytes(&points)
}

fn sign(chance: &mut Chance) -> f64 {
    chance.pick(&[1.0, -1.0])
}

fn ordinary(chance: &mut Chance) -> f64 {
    sign(chance) * chance.part() * chance.pick(&[1.0, 10.0, 100.0, 1.0e4])
}

fn few_digits(chance: &mut Chance) -> f64 {
    f64::from(chance.between(-400, 400)) / chance.pick(&[1.0, 2.0, 8.0, 16.0, 10.0])
}

fn thirds(chance: &mut Chance) -> f64 {
    f64::from(chance.between(-300, 300)) / chance.pick(&[3.0, 7.0, 9.0, 30.0])
}

/// A number between two powers of 2. Squares are infinite from 2^512 on, subnormal
/// below 2^-511 and 0 below 2^-537.
fn power(chance: &mut Chance, least: i32, most: i32) -> f64 {
    sign(chance) * (1.0 + chance.part()) * 2f64.powi(chance.between(least, most))
}

fn subnormal(chance: &mut Chance) -> f64 {
    let digits = (chance.word() >> 12) >> chance.below(52);
    sign(chance) * f64::from_bits(digits)
}

fn near_zero(chance: &mut Chance) -> f64 {
    chance.pick(&[0.0, -0.0, 0.0, -0.0, 5e-324, -5e-324, E, -E, 0.5])
}

/// No number in one of 64 words; a NaN has any payload.
fn rare(chance: &mut Chance) -> f64 {
    let nan = f64::from_bits(chance.word() | 0x7ff << 52);
    match chance.below(64) {
        0 => chance.pick(&[f64::INFINITY, f64::NEG_INFINITY, nan]),
        _ => ordinary(chance),
    }
}

/// Any of these, but seldom so large that all else is lost.
fn of_any_size(chance: &mut Chance) -> f64 {
    match chance.below(64) {
        0 => power(chance, 400, 1022),
        1..16 => power(chance, -60, 60),
        16..24 => power(chance, -1022, -480),
        _ => {
            let others = [ordinary, few_digits, thirds, subnormal, near_zero, rare];
            chance.pick(&others)(chance)
        }
    }
}

/// From one column's middle to another's, up and down as a body goes, and at last
/// to a goal beside one, as a search's list.
fn walk(chance: &mut Chance) -> Vec<Waypoint> {
    let far = chance.pick(&[10, 10, 1000, 1 << 30]);
    let [x, y, z] = [(); 3].map(|()| f64::from(chance.between(-far, far)));
    let mut feet = [x + chance.part(), y + chance.part(), z + chance.part()];
    let jump = chance.pick(&[1.25, 1.252203352512, 1.1, 2.0]);
    let mut out = Vec::new();
    for place in 0..count(chance) {
        let before = feet;
        let middle = |x: f64, chance: &mut Chance| x.floor() + chance.pick(&[-0.5, 0.5, 0.5, 1.5]);
        if place > 0 {
            let y = feet[1] + rise(chance);
            feet = [middle(feet[0], chance), y, middle(feet[2], chance)];
        }
        out.push(moved(before, feet, jump));
    }
    if let Some(goal) = out.last_mut() {
        goal.feet[0] += chance.part() - 0.5;
        goal.feet[2] += chance.part() - 0.5;
    }
    out
}

/// Level, a little off it, a step, a jump, a drop.
fn rise(chance: &mut Chance) -> f64 {
    match chance.below(3) {
        0 => 0.0,
        1 => chance.pick(&[
            0.5,
            0.1,
            0.3,
            0.0625,
            1.0,
            E / 2.0,
            -E / 2.0,
            -0.5,
            -1.0,
            -0.1,
        ]),
        _ => chance.part() * chance.pick(&[0.5, 1.0, -1.0, -3.0]),
    }
}

/// 01's "Edge", for a step of 0.6.
fn moved(from: [f64; 3], feet: [f64; 3], jump: f64) -> Waypoint {
    let dy = feet[1] - from[1];
    let (movement, lift) = match dy {
        _ if dy > 0.6 => (2, jump),
        _ if dy > E => (1, dy),
        _ if dy < -E => (3, 0.0),
        _ => (0, dy.max(0.0)),
    };
    Waypoint {
        feet,
        lift,
        movement,
        door: NO_DOOR,
    }
}

/// A walk with one to three things wrong.
fn spoilt(chance: &mut Chance) -> Vec<u8> {
    let mut points = walk(chance);
    for _ in 0..1 + chance.below(3) {
        if !points.is_empty() {
            spoil(&mut points, chance);
        }
    }
    bytes(&points)
}

/// Any number in a field, a lift below 0, a record that is gone, doubled or
/// exchanged with another.
fn spoil(points: &mut Vec<Waypoint>, chance: &mut Chance) {
    let [place, other] = [(); 2].map(|()| chance.below(points.len()));
    let number = of_any_size(chance);
    match chance.below(6) {
        0 => points[place].feet[chance.below(3)] = number,
        1 => points[place].lift = number,
        2 => points[place].lift = -points[place].lift,
        3 => drop(points.remove(place)),
        4 => points.insert(place, points[place]),
        _ => points.swap(place, other),
    }
}
