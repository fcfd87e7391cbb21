//! The length of a list: of none, of each movement, and of lists that a search
//! found; whose lift counts, what is not read, and that the order of the sums shows
//! in the bits; NaNs, infinities and lifts below 0. The bits that are written out
//! here were worked out apart, by Python's floats.

use walkprint::{Movement, NO_DOOR, Point, Request, WalkBack, Waypoint, raw};

use super::world::{A, G, S, UP, World, back, found, record, then, through, walks};
use super::{BODY, REQUEST, WAYPOINT};

/// A point and the lift of the move to it.
type Stop = (Point, f64);

fn list(stops: &[Stop]) -> Vec<u8> {
    stops.iter().flat_map(|&(feet, lift)| record(feet, lift, 0)).collect()
}

/// The length by the call and by its raw call, in bits.
fn bits(list: &[u8]) -> u64 {
    let length = walkprint::length(list).to_bits();
    assert_eq!(raw::length(list).to_bits(), length);
    length
}

/// The stops of records.
fn stops(list: &[u8]) -> Vec<Stop> {
    let points = Waypoint::list(list, list.len() / WAYPOINT);
    points.iter().map(|waypoint| (waypoint.feet, waypoint.lift)).collect()
}

// ---- 02's sum, written out

fn across(from: Point, to: Point) -> f64 {
    let (dx, dz) = (to[0] - from[0], to[2] - from[2]);
    (dx * dx + dz * dz).sqrt()
}

fn settle(from: Point, to: Point, lift: f64) -> f64 {
    (to[1] - (from[1] + lift)).abs()
}

fn edge(from: Stop, to: Stop) -> f64 {
    (to.1 + across(from.0, to.0)) + settle(from.0, to.0, to.1)
}

/// The sum over the pairs of neighbours, each of which has such a length.
fn summed(stops: &[Stop], edge: fn(Stop, Stop) -> f64) -> f64 {
    stops.windows(2).fold(0.0, |sum, pair| sum + edge(pair[0], pair[1]))
}

// ---- lists of few records

/// No list, a partial record and one record, also of bytes that are NaNs.
#[test]
fn without_a_pair_it_is_zero() {
    for length in 0..2 * WAYPOINT {
        assert_eq!(bits(&vec![0xff; length]), 0);
    }
    assert_eq!(bits(&record(UP, 1.25, 2)), 0);
}

#[test]
fn each_movement_has_its_length() {
    // Two blocks along x.
    assert_eq!(bits(&walks(&[S, A, G])), 0x4000_0000_0000_0000);
    // 0.5 up, 1 across.
    assert_eq!(bits(&then(&[S], [1.5, 1.5, 0.5], 0.5, 1)), 0x3ff8_0000_0000_0000);
    // 1.25 up, 1 across, 0.25 down.
    assert_eq!(bits(&then(&[S], UP, 1.25, 2)), 0x4004_0000_0000_0000);
    // 1 across, 1 down.
    assert_eq!(bits(&then(&[UP], G, 0.0, 3)), 0x4000_0000_0000_0000);
    // A diagonal: the root of 2.
    assert_eq!(bits(&walks(&[S, [1.5, 1.0, 1.5]])), 0x3ff6_a09e_667f_3bcd);
    // On the spot, and back.
    assert_eq!(bits(&walks(&[S, S])), 0);
    assert_eq!(bits(&walks(&[S, A, S])), 0x4000_0000_0000_0000);
}

/// The start's lift is no edge's, and the last one's is not left out.
#[test]
fn the_lift_is_the_later_records() {
    // 0.5 up, 1 across, 0.5 down; 0.25 up, 1 across, 0.25 down.
    for first in [0.0, 4.0, -4.0, f64::INFINITY, f64::NAN] {
        assert_eq!(bits(&list(&[(S, first), (A, 0.5), (G, 0.25)])), 3.5f64.to_bits());
    }
    assert_eq!(bits(&list(&[(S, 0.5), (A, 0.25), (G, 0.0)])), 2.5f64.to_bits());
}

/// A partial record behind the list is not read: here its bytes are a NaN's.
#[test]
fn a_partial_record_is_not_read() {
    let mut longer = then(&[S], UP, 1.25, 2);
    for _ in 0..WAYPOINT {
        assert_eq!(bits(&longer), 2.5f64.to_bits());
        longer.push(0xff);
    }
    assert!(walkprint::length(&longer).is_nan());
}

#[test]
fn a_list_may_stand_at_any_address() {
    let list = list(&EACH_ORDER);
    for before in 0..17 {
        let moved = [vec![0xff; before], list.clone()].concat();
        assert_eq!(bits(&moved[before..]), EACH_ORDER_BITS);
    }
}

/// Nor are they judged.
#[test]
fn movements_and_doors_are_not_read() {
    for (movement, door) in [(0, 0), (1, 2), (3, 1 << 32), (4, NO_DOOR), (u64::MAX, u64::MAX)] {
        let stop = |&(feet, lift): &Stop| through(door, feet, lift, movement);
        let list: Vec<u8> = EACH_ORDER.iter().flat_map(stop).collect();
        assert_eq!(bits(&list), EACH_ORDER_BITS);
    }
}

// ---- the order

/// A jump of 1.2 onto a block that is 0.8 high.
const ONE_JUMP: [Stop; 2] = [(S, 0.0), ([1.5, 1.8, 0.5], 1.2)];
const ONE_JUMP_BITS: u64 = 0x4004_cccc_cccc_ccce;

/// Three edges at which every order below is rounded to something else.
const EACH_ORDER: [Stop; 4] = [([0.3, 0.3, 1.6], 0.9), ([0.6, 1.8, 0.3], 0.6), ([1.1, 0.4, 2.1], 0.1), ([1.4, 1.4, 2.2], 0.1)];
const EACH_ORDER_BITS: u64 = 0x401e_7964_bc89_a327;

/// Other orders of an edge's parts, and parts that are others.
const OTHER_EDGES: [fn(Stop, Stop) -> f64; 7] = [
    // Lift and (crossing and settle); (lift and settle) and crossing.
    |(from, _), (to, lift)| lift + (across(from, to) + settle(from, to, lift)),
    |(from, _), (to, lift)| (lift + settle(from, to, lift)) + across(from, to),
    // The settle by the difference in height, less the lift; or by the target, less the lift.
    |(from, _), (to, lift)| (lift + across(from, to)) + ((to[1] - from[1]) - lift).abs(),
    |(from, _), (to, lift)| (lift + across(from, to)) + ((to[1] - lift) - from[1]).abs(),
    // The lift of the record before; the whole difference in height for the settle; the straight line.
    |(from, lift), (to, _)| (lift + across(from, to)) + settle(from, to, lift),
    |(from, _), (to, lift)| (lift + across(from, to)) + settle(from, to, 0.0),
    |(from, _), (to, _)| {
        let [x, y, z] = [0, 1, 2].map(|axis| to[axis] - from[axis]);
        (x * x + y * y + z * z).sqrt()
    },
];

/// Squares that are not rounded before they are added, as a fused instruction
/// would have them.
const FUSED_EDGES: [fn(Stop, Stop) -> f64; 2] = [
    |(from, _), (to, lift)| {
        let (dx, dz) = (to[0] - from[0], to[2] - from[2]);
        (lift + dx.mul_add(dx, dz * dz).sqrt()) + settle(from, to, lift)
    },
    |(from, _), (to, lift)| {
        let (dx, dz) = (to[0] - from[0], to[2] - from[2]);
        (lift + dz.mul_add(dz, dx * dx).sqrt()) + settle(from, to, lift)
    },
];

#[test]
fn the_order_in_an_edge_shows() {
    assert_eq!(bits(&list(&ONE_JUMP)), ONE_JUMP_BITS);
    assert_eq!(bits(&list(&EACH_ORDER)), EACH_ORDER_BITS);
    assert_eq!(summed(&ONE_JUMP, edge).to_bits(), ONE_JUMP_BITS);
    assert_eq!(summed(&EACH_ORDER, edge).to_bits(), EACH_ORDER_BITS);
    for other in OTHER_EDGES {
        assert_ne!(summed(&ONE_JUMP, other).to_bits(), ONE_JUMP_BITS);
        assert_ne!(summed(&EACH_ORDER, other).to_bits(), EACH_ORDER_BITS);
    }
    for fused in FUSED_EDGES {
        assert_ne!(summed(&EACH_ORDER, fused).to_bits(), EACH_ORDER_BITS);
    }
}

/// The edges are added up whole, from the first to the last.
#[test]
fn the_order_of_the_sum_shows() {
    assert_eq!(bits(&list(&EACH_ORDER)), EACH_ORDER_BITS);
    let pairs: Vec<(Stop, Stop)> = EACH_ORDER.windows(2).map(|pair| (pair[0], pair[1])).collect();
    let from_the_end = pairs.iter().rev().fold(0.0, |sum, &(from, to)| sum + edge(from, to));
    let part_by_part = pairs.iter().fold(0.0, |sum, &(from, to)| {
        let (lift, across) = (to.1, across(from.0, to.0));
        sum + lift + across + settle(from.0, to.0, lift)
    });
    let total = |part: fn(Stop, Stop) -> f64| summed(&EACH_ORDER, part);
    let lifts = total(|_, (_, lift)| lift);
    let crossings = total(|(from, _), (to, _)| across(from, to));
    let settles = total(|(from, _), (to, lift)| settle(from, to, lift));
    for other in [from_the_end, part_by_part, lifts + crossings + settles] {
        assert_ne!(other.to_bits(), EACH_ORDER_BITS);
    }
}

// ---- lists that a search found

/// A slab, 0.3 high, and a block behind it, across the whole floor: the way has
/// every movement.
#[test]
fn the_length_of_a_found_list() {
    let floor = World::new(6).shaped([1.0, 0.3, 1.0]);
    let world = (-2..=2).fold(floor, |world, z| world.with([0, 1, z], 1, 2).stone([1, 1, z]));
    let request = Request { start: [-1.5, 1.0, 0.5], goal: [3.5, 1.0, 0.5], jump_height: 1.1, ..REQUEST };
    let [list, _] = found(&world, &request, &BODY);
    let at = |x, y, lift, movement| Waypoint { feet: [x, y, 0.5], lift, movement, door: None };
    let way = [
        at(-1.5, 1.0, 0.0, Movement::Walk),
        at(-0.5, 1.0, 0.0, Movement::Walk),
        at(0.5, 1.3, 1.3 - 1.0, Movement::Step),
        at(1.5, 2.0, 1.1, Movement::Jump),
        at(2.5, 1.0, 0.0, Movement::Drop),
        at(3.5, 1.0, 0.0, Movement::Walk),
    ];
    assert_eq!(Waypoint::list(&list, list.len() / WAYPOINT), way);
    assert_eq!(bits(&list), 0x401f_3333_3333_3334);
    assert_eq!(summed(&stops(&list), edge).to_bits(), bits(&list));
}

/// The search compares ways by straight lines: over a block they are 2.83 long,
/// and around it 4. But up, across and down again is 4.5.
#[test]
fn a_found_way_need_not_have_the_least_length() {
    let world = World::new(6).stone([1, 1, 0]);
    let request = Request { jump_height: 1.25, ..REQUEST };
    let [over, _] = found(&world, &request, &BODY);
    assert_eq!(stops(&over), [(S, 0.0), (UP, 1.25), (G, 0.0)]);
    assert_eq!(bits(&over), 4.5f64.to_bits());
    let around = walks(&[S, [0.5, 1.0, 1.5], [1.5, 1.0, 1.5], [2.5, 1.0, 1.5], G]);
    assert_eq!(back(&world, &request, &around), WalkBack::Yes);
    assert_eq!(bits(&around), 4.0f64.to_bits());
}

// ---- numbers that no route has

/// A list of two points with such a number in place of a coordinate or the lift:
/// of the earlier record, and of the later one.
fn with_number(number: f64) -> [[Vec<u8>; 4]; 2] {
    [0, 1].map(|at| {
        [0, 1, 2, 3].map(|word| {
            let mut list = walks(&[S, A]);
            list[WAYPOINT * at + 8 * word..][..8].copy_from_slice(&number.to_le_bytes());
            list
        })
    })
}

#[test]
fn a_nan_is_the_length_of_a_nan() {
    let [earlier, later] = with_number(f64::NAN);
    for list in earlier[..3].iter().chain(&later) {
        assert!(walkprint::length(list).is_nan());
        assert!(walkprint::length(&[list.clone(), walks(&[G])].concat()).is_nan());
    }
    assert_eq!(bits(&earlier[3]), 1.0f64.to_bits());
}

#[test]
fn an_infinity_is_infinitely_far() {
    for infinity in [f64::INFINITY, f64::NEG_INFINITY] {
        let [earlier, later] = with_number(infinity);
        for list in earlier[..3].iter().chain(&later[..3]) {
            assert_eq!(walkprint::length(list), f64::INFINITY);
        }
        assert_eq!(bits(&earlier[3]), 1.0f64.to_bits());
        // From a place that is no number to itself.
        for axis in 0..3 {
            let mut far = S;
            far[axis] = infinity;
            assert!(walkprint::length(&walks(&[far, far])).is_nan());
        }
    }
    // An infinite lift is not undone by the way down; to one of minus infinity infinity is added.
    assert_eq!(walkprint::length(&list(&[(S, 0.0), (A, f64::INFINITY)])), f64::INFINITY);
    assert!(walkprint::length(&list(&[(S, 0.0), (A, f64::NEG_INFINITY)])).is_nan());
}

/// A square can be too large for an f64, or too small.
#[test]
fn squares_are_f64s() {
    assert_eq!(walkprint::length(&walks(&[[0.0; 3], [1.0e200, 0.0, 0.0]])), f64::INFINITY);
    assert_eq!(walkprint::length(&walks(&[[0.0; 3], [0.0, 1.0e200, 0.0]])), 1.0e200);
    assert_eq!(bits(&walks(&[[0.0; 3], [1.0e-200, 0.0, 1.0e-200]])), 0);
    assert_eq!(walkprint::length(&walks(&[[0.0; 3], [0.0, 1.0e-200, 0.0]])), 1.0e-200);
}

/// Neither its size nor 0 is taken for it.
#[test]
fn a_lift_below_zero_is_taken_as_it_is() {
    let down = |lift, y| bits(&list(&[(S, 0.0), ([1.5, y, 0.5], lift)]));
    // -0.5 and 1 across and 0.5 to the ground.
    assert_eq!(down(-0.5, 0.0), 1.0f64.to_bits());
    // -3 and 1 across and 1 up: less than nothing.
    assert_eq!(down(-3.0, -1.0), (-1.0f64).to_bits());
    // No sign is left of a zero.
    assert_eq!(bits(&list(&[(S, 0.0), (S, -0.0)])), 0);
    assert_eq!(bits(&list(&[(S, 0.0), (S, -0.0), (S, -0.0)])), 0);
}
