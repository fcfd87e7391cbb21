//! The calls on the flat scene, with rooms and tables that are filled with a
//! pattern: exactly long, too long and one byte short, the index room of every
//! right and wrong size, every byte compared. Why a step is refused is in
//! `reasons`, which door is named in `doors`, how long a list is in `lengths`, and
//! the search a little each tick in `slices` and `states`.

mod doors;
mod lengths;
mod reasons;
mod slices;
mod states;
mod world;

use walkprint::{
    Answer, Body, Error, MOST_INDEX_BYTES, Movement, NO_DOOR, Outcome, PATH_FRONT_BYTES, PATH_INDEX_BYTES, PATH_NODE_BUDGET,
    PATH_NODES_BYTES, PATH_OUT_BYTES, Policy, Reason, Request, Rooms, SCENE_TABLES, Tables, WalkBack, Waypoint, Window,
    front_bytes, index_bytes, nodes_bytes, out_bytes, raw,
};

/// The bytes of a node and of a waypoint.
const NODE: usize = 64;
const WAYPOINT: usize = 48;

const WINDOW: Window = Window { origin: [-2, 0, -2], sizes: [7, 4, 5] };

const BODY: Body = Body { width: 0.625, height: 1.75, step_height: 0.5 };

const REQUEST: Request = Request {
    start: [0.5, 1.0, 0.5],
    goal: [2.5, 1.0, 0.5],
    max_range: 16.0,
    step_height: 0.5,
    jump_height: 0.0,
    max_drop: 3.0,
    node_budget: 64,
};

/// Of nodes, frontier, index and output: the index has two slots of 4 bytes for
/// each point of the budget, 128, a power of two.
const ROOMS: [usize; 4] = [NODE * 64, 24 * 64, 4 * 128, WAYPOINT * 65];

fn pattern(n: usize) -> Vec<u8> {
    (0..n).map(|i| (i * 37 + 11) as u8).collect()
}

fn floats(numbers: &[f64]) -> Vec<u8> {
    numbers.iter().flat_map(|n| n.to_le_bytes()).collect()
}

fn words(numbers: &[i32]) -> Vec<u8> {
    numbers.iter().flat_map(|n| n.to_le_bytes()).collect()
}

/// Cells, permissions, shapes and boxes: a floor of cubes, and air above it.
fn flat() -> [Vec<u8>; 4] {
    let solid = |i: u32| u32::from(i < 7 * 5);
    let cells = (0..7 * 4 * 5).flat_map(|i| [solid(i), solid(i)]);
    let shapes = [0u32, 0, 0, 1];
    let cube = [0.0f64, 0.0, 0.0, 1.0, 1.0, 1.0];
    [
        cells.flat_map(u32::to_le_bytes).collect(),
        vec![7, 7],
        shapes.iter().flat_map(|n| n.to_le_bytes()).collect(),
        cube.iter().flat_map(|n| n.to_le_bytes()).collect(),
    ]
}

fn tables(t: &[Vec<u8>; 4]) -> Tables<'_> {
    Tables { window: WINDOW, cells: &t[0], permissions: &t[1], shapes: &t[2], boxes: &t[3] }
}

/// The answer of a search in tables and rooms, and the four rooms after it.
fn search_in(t: &Tables, request: &Request, mut rooms: [Vec<u8>; 4]) -> (Result<Answer, Error>, [Vec<u8>; 4]) {
    let [nodes, front, index, out] = &mut rooms;
    let answer = walkprint::find_walk_path(t, request, &BODY, &mut Rooms { nodes, front, index, out });
    (answer, rooms)
}

/// The same, in rooms of these sizes that are filled with the pattern.
fn search(t: &[Vec<u8>; 4], request: &Request, sizes: [usize; 4]) -> (Result<Answer, Error>, [Vec<u8>; 4]) {
    search_in(&tables(t), request, sizes.map(pattern))
}

fn untouched(rooms: &[Vec<u8>; 4]) -> bool {
    rooms.iter().all(|room| *room == pattern(room.len()))
}

fn is_zero(room: &[u8]) -> bool {
    room.iter().all(|&byte| byte == 0)
}

/// The same sizes, but for an index room of so many bytes.
fn with_index(bytes: usize) -> [usize; 4] {
    let [nodes, front, _, out] = ROOMS;
    [nodes, front, bytes, out]
}

#[test]
fn found_writes_its_records_and_no_more() {
    let (_, exact) = search(&flat(), &REQUEST, ROOMS);
    for (longer, times) in [(0, 1), (1, 1), (7, 2), (100, 4), (0, 1024)] {
        let [a, b, c, d] = ROOMS;
        let sizes = [a + longer, b + longer, c * times, d + longer];
        let (answer, [nodes, front, index, out]) = search(&flat(), &REQUEST, sizes);
        assert_eq!(answer, Ok(Answer { outcome: Outcome::Found, count: 3, retained: 9, closed: 2 }));
        assert_eq!(nodes[..9 * NODE], exact[0][..9 * NODE]);
        assert_eq!(nodes[9 * NODE..], pattern(nodes.len())[9 * NODE..]);
        assert!(is_zero(&front));
        assert!(is_zero(&index));
        assert_eq!(out[..3 * WAYPOINT], exact[3][..3 * WAYPOINT]);
        assert_eq!(out[3 * WAYPOINT..], pattern(out.len())[3 * WAYPOINT..]);
        let list = Waypoint::list(&out, 3);
        let at = |x| Waypoint { feet: [x, 1.0, 0.5], lift: 0.0, movement: Movement::Walk, door: None };
        assert_eq!(list, [at(0.5), at(1.5), at(2.5)]);
    }
}

#[test]
fn a_room_one_byte_short_is_no_room() {
    for short in 0..4 {
        let mut sizes = ROOMS;
        sizes[short] -= 1;
        let (answer, rooms) = search(&flat(), &REQUEST, sizes);
        assert_eq!(answer, Err(Error::NoRoom));
        assert!(untouched(&rooms));
    }
}

/// For each budget every length of an index room, from 0 to behind the second
/// right one; the other rooms are long enough.
#[test]
fn an_index_room_of_a_wrong_size_is_no_room() {
    for budget in [0, 1, 2, 3, 4, 5, 7, 8, 9, 15, 16, 17] {
        let request = Request { node_budget: budget as u64, ..REQUEST };
        let right: Vec<usize> = (0..16).map(|k| 4 << k).filter(|bytes| bytes / 4 >= 2 * budget).collect();
        for bytes in 0..2 * right[0] + 9 {
            let (answer, rooms) = search(&flat(), &request, with_index(bytes));
            if !right.contains(&bytes) {
                assert_eq!(answer, Err(Error::NoRoom), "budget {budget}, {bytes} bytes");
                assert!(untouched(&rooms));
            } else if budget == 0 {
                assert_eq!(answer.unwrap().outcome, Outcome::BudgetExceeded);
                assert!(untouched(&rooms));
            } else {
                let outcome = if budget == 1 { Outcome::BudgetExceeded } else { Outcome::Found };
                assert_eq!(answer.unwrap().outcome, outcome);
                assert!(is_zero(&rooms[2]));
            }
        }
    }
    // One slot is enough at budget 0, and no bytes are not.
    let none = Request { node_budget: 0, ..REQUEST };
    assert_eq!(search(&flat(), &none, [0, 0, 4, WAYPOINT]).0.unwrap().outcome, Outcome::BudgetExceeded);
    assert_eq!(search(&flat(), &none, [0, 0, 0, WAYPOINT]).0, Err(Error::NoRoom));
    assert_eq!(search(&flat(), &none, [0, 0, 4, WAYPOINT - 1]).0, Err(Error::NoRoom));
    // Half as many slots, three times a power of two, and up to three bytes more.
    for slots in [64, 96, 192, 384, 768, 3 << 12] {
        assert_eq!(search(&flat(), &REQUEST, with_index(4 * slots)).0, Err(Error::NoRoom));
    }
    for slots in [128, 256, 1 << 13] {
        for more in 1..4 {
            let (answer, rooms) = search(&flat(), &REQUEST, with_index(4 * slots + more));
            assert_eq!(answer, Err(Error::NoRoom));
            assert!(untouched(&rooms));
        }
    }
}

#[test]
fn the_smallest_index_room() {
    let sizes = [(0, 4), (1, 8), (2, 16), (3, 32), (4, 32), (5, 64), (64, 512), (65, 1024), (512, 4096), (513, 8192)];
    for (budget, bytes) in sizes {
        assert_eq!(index_bytes(budget), bytes);
    }
    assert_eq!((PATH_INDEX_BYTES, index_bytes(2049)), (16384, 32768));
    for budget in [4096, 4097, 1 << 31, usize::MAX / 2, usize::MAX] {
        assert_eq!(index_bytes(budget), MOST_INDEX_BYTES);
    }
    for budget in [0, 1, 2, 3, 63, 64, 65, 1000, 2047, 2048, 2049, 4095, 4096] {
        let request = Request { node_budget: budget as u64, ..REQUEST };
        let answer = |bytes| search(&flat(), &request, [NODE * budget, 24 * budget, bytes, WAYPOINT * (budget + 1)]).0;
        assert!(answer(index_bytes(budget)).is_ok());
        assert!(answer(MOST_INDEX_BYTES).is_ok());
        assert_eq!(answer(index_bytes(budget) / 2), Err(Error::NoRoom));
    }
}

#[test]
fn the_shortest_rooms() {
    let sizes = |budget| [nodes_bytes(budget), front_bytes(budget), index_bytes(budget), out_bytes(budget)];
    assert_eq!(sizes(64), ROOMS);
    for budget in [0, 1, 2, 63, 4095, 4096] {
        assert_eq!(sizes(budget), [64 * budget, 24 * budget, index_bytes(budget), 48 * (budget + 1)]);
        let request = Request { node_budget: budget as u64, ..REQUEST };
        assert!(search(&flat(), &request, sizes(budget)).0.is_ok());
        for room in (0..4).filter(|&room| sizes(budget)[room] > 0) {
            let mut short = sizes(budget);
            short[room] -= 1;
            assert_eq!(search(&flat(), &request, short).0, Err(Error::NoRoom));
        }
    }
    for budget in [4097, 1 << 31, usize::MAX / 48, usize::MAX] {
        assert_eq!(sizes(budget), sizes(4096));
    }
}

/// An index room of a wrong size is judged where a short room is: behind 3, an
/// invalid request and 4, before the ends and budget 0.
#[test]
fn the_place_of_an_index_room_of_a_wrong_size() {
    let mut bad = flat();
    bad[0].pop();
    let endless = Request { max_range: f64::NAN, ..REQUEST };
    let (far, many) = (Request { max_range: 65.0, ..REQUEST }, Request { node_budget: 4097, ..REQUEST });
    let (away, none) = (Request { goal: [99.5, 1.0, 0.5], ..REQUEST }, Request { node_budget: 0, ..REQUEST });
    let unreachable = Ok(Answer { outcome: Outcome::Unreachable, count: 0, retained: 0, closed: 0 });
    for bytes in [0, 4 * 127, 4 * 128 - 1, 4 * 128 + 1, 4 * 192] {
        let judged = |t: &[Vec<u8>; 4], request: &Request| {
            let (answer, rooms) = search(t, request, with_index(bytes));
            assert!(untouched(&rooms));
            answer
        };
        assert_eq!(judged(&bad, &endless), Err(Error::BadWorld));
        assert_eq!(judged(&bad, &many), Err(Error::BadWorld));
        assert_eq!(judged(&bad, &REQUEST), Err(Error::BadWorld));
        assert_eq!(judged(&flat(), &Request { node_budget: 4097, ..endless }), unreachable);
        assert_eq!(judged(&flat(), &endless), unreachable);
        assert_eq!(judged(&flat(), &far), Err(Error::TooLarge));
        assert_eq!(judged(&flat(), &many), Err(Error::TooLarge));
        assert_eq!(judged(&flat(), &REQUEST), Err(Error::NoRoom));
        assert_eq!(judged(&flat(), &away), Err(Error::NoRoom));
        assert_eq!(judged(&flat(), &none), Err(Error::NoRoom));
    }
    // With a right one the ends are judged, and nothing is written.
    let (answer, rooms) = search(&flat(), &away, ROOMS);
    assert_eq!(answer, unreachable);
    assert!(untouched(&rooms));
}

/// Nodes, frontier and output are the same whatever the index held: free slots,
/// the start in every one, numbers that no node has.
#[test]
fn the_old_bytes_of_an_index_decide_nothing() {
    let t = flat();
    for request in [REQUEST, Request { node_budget: 5, ..REQUEST }, Request { goal: [2.5, 1.0, 1.5], ..REQUEST }] {
        let (expected, rooms) = search(&t, &request, ROOMS);
        let words = [[0; 4], [1, 0, 0, 0], [2, 0, 0, 0], [9, 0, 0, 0], [64, 0, 0, 0], [0, 0, 0, 1], [255; 4]];
        for word in words {
            let mut filled = ROOMS.map(pattern);
            filled[2] = word.repeat(128);
            let (answer, after) = search_in(&tables(&t), &request, filled);
            assert_eq!(answer, expected);
            assert_eq!(after, rooms);
            assert!(is_zero(&after[2]));
        }
    }
}

/// A search that ends without a list leaves its frontier and its index zero as
/// well: the goal is the top of a block that no step reaches.
#[test]
fn no_way() {
    let mut t = flat();
    // The cell (2, 1, 0), one above the floor, is a cube too.
    t[0].copy_within(0..8, 8 * (35 + 7 * 2 + 4));
    let (answer, [nodes, front, index, out]) = search(&t, &Request { goal: [2.5, 2.0, 0.5], ..REQUEST }, ROOMS);
    let answer = answer.unwrap();
    assert_eq!((answer.outcome, answer.count, answer.retained), (Outcome::Unreachable, 0, answer.closed));
    assert!(answer.retained > 9);
    assert_eq!(nodes[NODE * answer.retained..], pattern(nodes.len())[NODE * answer.retained..]);
    assert!(is_zero(&front));
    assert!(is_zero(&index));
    assert_eq!(out, pattern(ROOMS[3]));
}

/// A start at -0.0 is found again by the step to 0.0 in its own column, which is
/// the same point: nine points are retained, and it keeps its sign.
#[test]
fn both_zeros_are_one_point() {
    let t = flat();
    let lower = Tables { window: Window { origin: [-2, -1, -2], ..WINDOW }, ..tables(&t) };
    for zero in [0.0f64, -0.0] {
        let request = Request { start: [0.5, zero, 0.5], goal: [2.5, 0.0, 0.5], ..REQUEST };
        let (answer, [nodes, ..]) = search_in(&lower, &request, ROOMS.map(pattern));
        assert_eq!(answer, Ok(Answer { outcome: Outcome::Found, count: 3, retained: 9, closed: 2 }));
        assert_eq!(nodes[8..16], zero.to_le_bytes());
    }
}

#[test]
fn budgets() {
    let outcome = |node_budget| search(&flat(), &Request { node_budget, ..REQUEST }, ROOMS);
    let (answer, rooms) = outcome(0);
    assert_eq!(answer, Ok(Answer { outcome: Outcome::BudgetExceeded, count: 0, retained: 0, closed: 0 }));
    assert!(untouched(&rooms));
    let (answer, rooms) = outcome(1);
    assert_eq!(answer.unwrap().outcome, Outcome::BudgetExceeded);
    assert!(is_zero(&rooms[1]));
    assert!(is_zero(&rooms[2]));
    assert_eq!(rooms[3], pattern(ROOMS[3]));
    assert_eq!(outcome(2).0.unwrap().outcome, Outcome::Found);
    let (answer, rooms) = outcome(4097);
    assert_eq!(answer, Err(Error::TooLarge));
    assert!(untouched(&rooms));
}

#[test]
fn refusals_write_nothing() {
    let mut bad = flat();
    bad[0].pop();
    let (answer, rooms) = search(&bad, &REQUEST, ROOMS);
    assert_eq!(answer, Err(Error::BadWorld));
    assert!(untouched(&rooms));
    let (answer, rooms) = search(&flat(), &Request { max_range: f64::NAN, ..REQUEST }, ROOMS);
    assert_eq!(answer.unwrap().outcome, Outcome::Unreachable);
    assert!(untouched(&rooms));
}

#[test]
fn walk_back_takes_the_list_and_no_other() {
    let t = flat();
    let (_, [_, _, _, out]) = search(&t, &REQUEST, ROOMS);
    let back = |list: &[u8]| walkprint::walk_back(&tables(&t), &REQUEST, &BODY, list);
    assert_eq!(back(&out[..3 * WAYPOINT]), Ok(WalkBack::Yes));
    // Behind the list stands the pattern, whose movement is above 3.
    for n in [0, 3 * WAYPOINT - 1, 3 * WAYPOINT + 1, 4 * WAYPOINT] {
        assert_eq!(back(&out[..n]), Ok(WalkBack::No(Reason::BadList, None)));
    }
    for n in [WAYPOINT, 2 * WAYPOINT] {
        assert_eq!(back(&out[..n]), Ok(WalkBack::No(Reason::WrongEnd, None)));
    }
    // A lift is a record's fourth word.
    let mut lifted = out[..3 * WAYPOINT].to_vec();
    lifted[2 * WAYPOINT + 24..][..8].copy_from_slice(&0.25f64.to_le_bytes());
    assert_eq!(back(&lifted), Ok(WalkBack::No(Reason::WrongLabel, Some(2))));
}

const POLICY: Policy = Policy {
    avoid_water: true,
    avoid_damage_blocks: true,
    can_jump: false,
    jump_height: 1.25,
    can_pass_doors: true,
    can_open_doors: false,
    can_open_iron_doors: false,
    door_breaker: true,
};

/// Of a mob's nodes, frontier, index and output.
const MOB_ROOMS: [usize; 4] = [131072, 49152, 16384, 98352];

/// Rooms for a mob's search, with an index of so many bytes.
fn mob_rooms(index: usize) -> [usize; 4] {
    let [nodes, front, _, out] = MOB_ROOMS;
    [nodes, front, index, out]
}

/// The answer of a mob's search in tables, with a permission table of so many
/// bytes, that table after it, and the four rooms.
fn mob_in(
    t: &Tables,
    policy: &Policy,
    flags: &[u8],
    states: usize,
    sizes: [usize; 4],
) -> (Result<Answer, Error>, Vec<u8>, [Vec<u8>; 4]) {
    let (mut permissions, mut lent) = (pattern(states), sizes.map(pattern));
    let [nodes, front, index, out] = &mut lent;
    let mut rooms = Rooms { nodes, front, index, out };
    let ends = [REQUEST.start, REQUEST.goal];
    let answer = walkprint::find_path(policy, false, flags, t, &mut permissions, ends, &BODY, &mut rooms);
    (answer, permissions, lent)
}

/// The same in the flat tables, with an index of so many bytes.
fn mob(flags: &[u8], states: usize, index: usize) -> (Result<Answer, Error>, Vec<u8>, [Vec<u8>; 4]) {
    mob_in(&tables(&flat()), &POLICY, flags, states, mob_rooms(index))
}

#[test]
fn a_mob_fills_its_permissions() {
    let (answer, permissions, _) = mob(&[0, 0], 2, PATH_INDEX_BYTES);
    assert_eq!(answer.unwrap().outcome, Outcome::Found);
    assert_eq!(permissions, [7, 7]);
    // Air that is a door to break, and a floor that does damage: no end is standable.
    let (answer, permissions, rooms) = mob(&[8, 2], 2, PATH_INDEX_BYTES);
    assert_eq!(answer.unwrap().outcome, Outcome::Unreachable);
    assert_eq!(permissions, [3, 4]);
    assert!(untouched(&rooms));
    for states in [1, 3] {
        let (answer, permissions, rooms) = mob(&[0, 0], states, PATH_INDEX_BYTES);
        assert_eq!(answer, Err(Error::BadTable));
        assert_eq!(permissions, pattern(states));
        assert!(untouched(&rooms));
    }
}

/// A mob's rooms may be longer, and not a byte shorter.
#[test]
fn a_mob_has_its_rooms() {
    assert_eq!([PATH_NODES_BYTES, PATH_FRONT_BYTES, PATH_INDEX_BYTES, PATH_OUT_BYTES], MOB_ROOMS);
    let t = flat();
    let mob = |sizes| mob_in(&tables(&t), &POLICY, &[0, 0], 2, sizes);
    for longer in [0, 1, 100] {
        let [nodes, front, index, out] = MOB_ROOMS;
        let (answer, _, rooms) = mob([nodes + longer, front + longer, index, out + longer]);
        assert_eq!(answer.unwrap().outcome, Outcome::Found);
        assert!(is_zero(&rooms[1]));
    }
    for short in 0..4 {
        let mut sizes = MOB_ROOMS;
        sizes[short] -= 1;
        let (answer, permissions, rooms) = mob(sizes);
        assert_eq!((answer, permissions), (Err(Error::NoRoom), vec![7, 7]));
        assert!(untouched(&rooms));
    }
}

/// A mob's index: 4,096 slots, or twice as many and so on; else 5, behind 8 and
/// with the permissions filled.
#[test]
fn a_mob_has_an_index() {
    let (expected, _, before) = mob(&[0, 0], 2, PATH_INDEX_BYTES);
    for bytes in [4 * 4096, 4 * 8192, 4 * 65536] {
        let (answer, permissions, [nodes, front, index, out]) = mob(&[0, 0], 2, bytes);
        assert_eq!((answer, permissions), (expected, vec![7, 7]));
        assert_eq!([&nodes, &out], [&before[0], &before[3]]);
        assert!(is_zero(&front));
        assert_eq!(index.len(), bytes);
        assert!(is_zero(&index));
    }
    for bytes in [0, 4, 4 * 2048, 4 * 4095, 16383, 16385, 16386, 16387, 4 * 4097, 4 * 6144, 4 * 8191, 4 * 12288] {
        let (answer, permissions, rooms) = mob(&[0, 0], 2, bytes);
        assert_eq!((answer, permissions), (Err(Error::NoRoom), vec![7, 7]));
        assert!(untouched(&rooms));
        let (answer, permissions, rooms) = mob(&[0, 0], 3, bytes);
        assert_eq!((answer, permissions), (Err(Error::BadTable), pattern(3)));
        assert!(untouched(&rooms));
    }
}

#[test]
fn edges() {
    let t = flat();
    let edge = |from, to| walkprint::edge(&tables(&t), &REQUEST, &BODY, from, to);
    let from = [0.5, 1.0, 0.5];
    assert_eq!(edge(from, [1.5, 1.0, 0.5]), Ok(Ok(Movement::Walk)));
    assert_eq!(edge(from, [1.5, 2.0, 0.5]), Ok(Err(Reason::TooHigh)));
    // Neither end of an edge need be a number, or near. A height that is a number speaks first; a NaN is out of range.
    for far in [f64::NAN, f64::INFINITY, f64::NEG_INFINITY, 1.0e9, -1.0e9, 1.0e300, -1.0e300] {
        for axis in 0..3 {
            let mut point = from;
            point[axis] = far;
            let (there, back) = match axis {
                1 if far > 0.0 => (Reason::TooHigh, Reason::TooDeep),
                1 if far < 0.0 => (Reason::TooDeep, Reason::TooHigh),
                _ => (Reason::TargetOutOfRange, Reason::RaisedOutOfRange),
            };
            assert_eq!(edge(from, point), Ok(Err(there)));
            assert_eq!(edge(point, from), Ok(Err(back)));
        }
    }
    // However far down a step or a jump begins, its way ends with the window.
    let steep = Request { step_height: 1.0e300, jump_height: 1.0e9, ..REQUEST };
    for width in [0.625, 8.0, 1.0e-300] {
        for y in [-1.0, -1.0e9, -1.0e300] {
            for (x, step_height) in [(0.5, 0.5), (0.5, 1.0e300), (1.0, 0.5), (1.0, 1.0e300)] {
                let body = Body { width, step_height, ..BODY };
                let edge = walkprint::edge(&tables(&t), &steep, &body, [x, y, 0.5], [1.5, 1.0, 0.5]);
                assert!(edge.unwrap().is_err());
            }
        }
    }
}

/// Every movement: a floor with a block on it, from and to which one jumps,
/// steps and drops.
#[test]
fn an_edge_has_the_number_of_its_movement() {
    let mut t = flat();
    // The cell (1, 1, 0), one above the floor, is a cube too.
    let above = 8 * (35 + 7 * 2 + 3);
    t[0].copy_within(0..8, above);
    let (low, high) = ([0.5, 1.0, 0.5], [1.5, 2.0, 0.5]);
    let number = |request: &Request, body: &Body, from, to| walkprint::edge(&tables(&t), request, body, from, to);
    let jumper = Request { jump_height: 1.25, ..REQUEST };
    assert_eq!(number(&jumper, &BODY, low, high), Ok(Ok(Movement::Jump)));
    let stepper = Body { step_height: 1.0, ..BODY };
    assert_eq!(number(&Request { step_height: 1.0, ..REQUEST }, &stepper, low, high), Ok(Ok(Movement::Step)));
    assert_eq!(number(&REQUEST, &BODY, high, low), Ok(Ok(Movement::Drop)));
    assert_eq!(number(&REQUEST, &BODY, low, high), Ok(Err(Reason::TooHigh)));
}

#[test]
fn an_edge_is_judged() {
    let t = flat();
    let (from, to) = ([0.5, 1.0, 0.5], [1.5, 1.0, 0.5]);
    let edge = |t: &Tables, request: &Request, body: &Body| walkprint::edge(t, request, body, from, to);
    let large = Tables { window: Window { origin: [0; 3], sizes: [257, 0, 0] }, cells: &[], ..tables(&t) };
    let (wide, beyond) = (Body { width: 1.0e9, ..BODY }, Body { width: 1.0e300, ..BODY });
    let endless = Request { max_range: f64::INFINITY, ..REQUEST };
    // 3 comes first, then an invalid request, then 4; the budget is not read.
    assert_eq!(edge(&large, &endless, &wide), Err(Error::BadWorld));
    assert_eq!(edge(&tables(&t), &endless, &wide), Err(Error::InvalidRequest));
    assert_eq!(edge(&tables(&t), &REQUEST, &beyond), Err(Error::InvalidRequest));
    assert_eq!(edge(&tables(&t), &REQUEST, &wide), Err(Error::TooLarge));
    assert_eq!(edge(&tables(&t), &Request { node_budget: u64::MAX, ..REQUEST }, &BODY), Ok(Ok(Movement::Walk)));
}

/// The flat scene's records.
fn scene() -> Vec<u8> {
    let record = |kind: u8, n: u32, payload: &[u8]| {
        let mut out = vec![kind, 0, 0, 0];
        out.extend(n.to_le_bytes());
        out.extend(payload);
        out.resize(64, 0);
        out
    };
    [
        record(1, 64, &floats(&[0.5, 1.0, 0.5, 2.5, 1.0, 0.5, 16.0])),
        record(2, 0, &floats(&[0.5, 0.0, 3.0, 0.625, 1.75, 0.5])),
        record(3, 0, &words(&[-2, 0, -2, 7, 4, 5])),
        record(4, 1, &floats(&[0.0, 0.0, 0.0, 1.0, 1.0, 1.0])),
        record(5, 0, &[7]),
        record(5, 1, &[7]),
        record(6, 0, &words(&[-2, 0, -2, 4, 3, 2, 0, 0])),
        record(6, 0, &words(&[-2, 0, -2, 4, 0, 2, 1, 1])),
    ]
    .concat()
}

fn read(bytes: &[u8], sizes: [usize; 4]) -> (Result<walkprint::Scene, Error>, [Vec<u8>; 4]) {
    let mut t = sizes.map(pattern);
    let [cells, permissions, shapes, boxes] = &mut t;
    let answer = walkprint::read_scene(bytes, cells, permissions, shapes, boxes);
    (answer, t)
}

#[test]
fn a_scene_makes_its_tables_and_no_more() {
    let (answer, made) = read(&scene(), SCENE_TABLES.map(|n| n + 3));
    let scene = answer.unwrap();
    assert_eq!((scene.request, scene.body, scene.window), (REQUEST, BODY, WINDOW));
    assert_eq!(scene.in_use, flat().map(|t| t.len()));
    for (k, (table, flat)) in made.iter().zip(flat()).enumerate() {
        let n = scene.in_use[k];
        assert_eq!(table[..n], flat);
        assert_eq!(table[n..], pattern(table.len())[n..]);
    }
}

#[test]
fn bad_scenes() {
    for short in 0..4 {
        let mut sizes = SCENE_TABLES;
        sizes[short] -= 1;
        let (answer, t) = read(&scene(), sizes);
        assert_eq!(answer, Err(Error::NoRoom));
        assert!(t.iter().all(|table| *table == pattern(table.len())));
    }
    let bytes = scene();
    for (length, bad) in [(0, 0), (63, 0), (64, 1), (128, 2), (191, 2), (193, 3), (511, 7)] {
        assert_eq!(read(&bytes[..length], SCENE_TABLES).0, Err(Error::BadScene(bad)));
    }
    // After a bad last record the tables hold what the records before it made.
    let (_, before) = read(&bytes[..448], SCENE_TABLES);
    let (answer, after) = read(&bytes[..500], SCENE_TABLES);
    assert_eq!(answer, Err(Error::BadScene(7)));
    assert_eq!(after, before);
}

#[test]
fn numbers() {
    assert_eq!(walkprint::root(4.0), Ok(2.0));
    assert_eq!(walkprint::root(2.0).unwrap().to_bits(), 0x3ff6_a09e_667f_3bcd);
    assert_eq!(walkprint::root(-0.0).unwrap().to_bits(), (-0.0f64).to_bits());
    for x in [-1.0, f64::INFINITY, f64::NAN] {
        assert_eq!(walkprint::root(x), Err(Error::BadNumber));
    }
    assert_eq!(walkprint::square_root(f64::INFINITY), f64::INFINITY);
    assert!(walkprint::square_root(-1.0).is_nan());
    assert_eq!(walkprint::jump_apex(0.0, 0.08), Ok(0.0));
    assert!((walkprint::jump_apex(0.42, 0.08).unwrap() - 1.25).abs() < 0.01);
    assert_eq!(walkprint::jump_apex(f32::INFINITY, 0.08), Err(Error::EndlessJump));
}

/// One waypoint record, a Walk to the point of zeros with lift 0 and no door.
fn lone_record() -> Vec<u8> {
    [vec![0; WAYPOINT - 8], NO_DOOR.to_le_bytes().to_vec()].concat()
}

/// The numbers of a search, a walk-back of that record, an edge, and a search's
/// begin and continue that are handed records of so many bytes, over the flat
/// tables a layer lower, so that a request of zeros would be answered.
fn cut(window: usize, request: usize, body: usize) -> [u64; 5] {
    let t = flat();
    let [cells, permissions, shapes, boxes] = &t;
    let asked = raw::Asked {
        window: &words(&[-2, -1, -2, 7, 4, 5, 9, 9])[..window],
        tables: [cells, permissions, shapes, boxes],
        request: &[0; 96][..request],
        body: &floats(&[0.625, 1.75, 0.5, 9.0])[..body],
    };
    let (mut index, mut out, mut answer, mut progress) = (pattern(4), pattern(WAYPOINT), [0; 32], pattern(48));
    let lent = raw::Lent { nodes: &mut [], front: &mut [], index: &mut index, out: &mut out, answer: &mut answer };
    let search = raw::find_walk_path(&asked, lent);
    assert_eq!(answer, [search.to_le_bytes(), [0; 8], [0; 8], [0; 8]].concat()[..]);
    let begun = raw::begin_search(&asked, &mut [], &mut [], &out, &mut progress);
    let gone_on = raw::continue_search([1, 0, 1, 0], 1, &asked, &mut [], &mut [], &mut out, &mut progress);
    assert_eq!((index, out, progress), (pattern(4), pattern(WAYPOINT), pattern(48)));
    let back = raw::walk_back(&asked, &lone_record(), &mut []);
    [search, back, raw::edge(&asked, [0.0; 3], [0.0; 3]), begun, gone_on]
}

#[test]
fn a_record_that_is_cut_short_makes_an_invalid_request() {
    // Whole, and longer: budget 0, a route of one point, an edge from it to itself, and nothing to go on with.
    for (window, request, body) in [(24, 88, 24), (25, 95, 31), (32, 96, 32)] {
        assert_eq!(cut(window, request, body), [2, 0, 130, 2, 12]);
    }
    for short in 0..88 {
        assert_eq!(cut(24, short, 24), [1, 111, 1, 1, 1]);
    }
    for short in 0..24 {
        assert_eq!(cut(24, 88, short), [1, 111, 1, 1, 1]);
        // Without its last size the window is none for these cells: 3 comes first.
        assert_eq!(cut(short, 0, 0), [3; 5]);
    }
}

#[test]
fn a_window_of_no_bytes_is_empty() {
    let asked = raw::Asked { window: &[], tables: [&[]; 4], request: &[0; 88], body: &floats(&[0.625, 1.75, 0.5]) };
    assert_eq!(raw::walk_back(&asked, &lone_record(), &mut []), 111);
    assert_eq!(raw::edge(&asked, [0.0; 3], [0.0; 3]), 1);
}

/// A mob's search with ends of so many bytes: 8 first, then the permissions are
/// filled, then 3, then 1.
#[test]
fn ends_that_are_cut_short_make_an_invalid_request() {
    let t = flat();
    let window = words(&[-2, 0, -2, 7, 4, 5]);
    let body = floats(&[0.625, 1.75, 0.5]);
    let ends = floats(&[REQUEST.start, REQUEST.goal].concat());
    let mob = |flags: &[u8], [w, e, b]: [usize; 3]| {
        let asked = raw::Asked {
            window: &window[..w],
            tables: [&t[0], &[], &t[2], &t[3]],
            request: &ends[..e],
            body: &body[..b],
        };
        let (mut permissions, mut rooms) = ([9, 9], MOB_ROOMS.map(pattern));
        let [nodes, front, index, out] = &mut rooms;
        let lent = raw::Lent { nodes, front, index, out, answer: &mut [] };
        let number = raw::find_path(0, 0.0, flags, &asked, &mut permissions, lent);
        if number != 0 {
            assert!(untouched(&rooms));
        }
        (number, permissions)
    };
    assert_eq!(mob(&[0, 0], [24, 48, 24]), (0, [7, 7]));
    for short in 0..48 {
        assert_eq!(mob(&[0, 0], [24, short, 24]), (1, [7, 7]));
        assert_eq!(mob(&[0], [24, short, 24]), (8, [9, 9]));
    }
    for short in 0..24 {
        assert_eq!(mob(&[0, 0], [24, 48, short]), (1, [7, 7]));
        assert_eq!(mob(&[0, 0], [short, 48, 24]), (3, [7, 7]));
    }
}

const HEADER: &str = include_str!("../../../../include/walkprint.h");

/// The header has this crate's sizes.
#[test]
fn one_size() {
    let has = |name: &str, size: usize| {
        let text = format!("WALKPRINT_{name} = {size}");
        HEADER.split(&text).nth(1).is_some_and(|rest| !rest.starts_with(|c: char| c.is_ascii_digit()))
    };
    assert!(has("PATH_NODE_BUDGET", PATH_NODE_BUDGET));
    assert!(has("PATH_NODES_BYTES", PATH_NODES_BYTES));
    assert!(has("PATH_FRONT_BYTES", PATH_FRONT_BYTES));
    assert!(has("PATH_INDEX_BYTES", PATH_INDEX_BYTES));
    assert!(has("PATH_OUT_BYTES", PATH_OUT_BYTES));
    assert!(has("MOST_INDEX_BYTES", MOST_INDEX_BYTES));
    assert!(has("WORD", walkprint::WORD));
    assert!(HEADER.contains(&format!("#define WALKPRINT_NO_DOOR UINT64_C({NO_DOOR})")));
    assert_eq!(Waypoint::BYTES, WAYPOINT);
}

/// The header's number, this crate's own and the library's are one.
#[test]
fn one_version() {
    let part = |name: &str| -> u64 {
        let line = HEADER.lines().find_map(|line| line.strip_prefix(&format!("#define WALKPRINT_VERSION_{name} ")));
        line.expect("the header has it").parse().expect("a number")
    };
    let parts = ["MAJOR", "MINOR", "PATCH"].map(part);
    assert_eq!(parts.map(|n| n.to_string()).join("."), env!("CARGO_PKG_VERSION"));
    assert_eq!(walkprint::version(), parts[0] * 1_000_000 + parts[1] * 1_000 + parts[2]);
}
