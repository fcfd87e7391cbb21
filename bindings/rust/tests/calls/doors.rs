//! Which door a waypoint names, in the list and in the nodes, on small scenes:
//! the order of the cells, the doorway that is left, state 0, touching cells, a
//! mob's doors; and lists with a wrong door walked back.

use walkprint::{Body, Movement, NO_DOOR, Point, Policy, Reason, Request, WalkBack, Waypoint};

use super::world::{A, G, S, UP, World, at, back, found, no, record, through, walks};
use super::{BODY, MOB_ROOMS, NODE, POLICY, REQUEST, WAYPOINT, mob_in};

/// Air and stone; states 2 and 4 are doors, 3 is one that nobody stands on.
const STATES: [u8; 5] = [7, 7, 3, 1, 3];

fn flat() -> World {
    World::flat().permitting(&STATES)
}

/// A door between the start and the goal, two cells high.
fn doorway() -> World {
    flat().with([1, 1, 0], 2, 1).with([1, 2, 0], 2, 1)
}

/// The list that a search finds, and the records of the nodes.
fn found_by(world: &World, request: &Request, body: &Body) -> (Vec<Waypoint>, Vec<u8>) {
    let [list, nodes] = found(world, request, body);
    (Waypoint::list(&list, list.len() / WAYPOINT), nodes)
}

/// The waypoints of node records.
fn kept(nodes: &[u8]) -> Vec<Waypoint> {
    nodes.chunks_exact(NODE).flat_map(|node| Waypoint::list(&node[..WAYPOINT], 1)).collect()
}

fn doors(list: &[Waypoint]) -> Vec<Option<u64>> {
    list.iter().map(|waypoint| waypoint.door).collect()
}

/// The doors of the list that is found.
fn named(world: &World, request: &Request) -> Vec<Option<u64>> {
    doors(&found_by(world, request, &BODY).0)
}

fn to(goal: Point) -> Request {
    Request { goal, ..REQUEST }
}

// ---- which door

#[test]
fn a_door_is_named_in_the_list_and_in_the_nodes() {
    let (list, nodes) = found_by(&doorway(), &REQUEST, &BODY);
    assert_eq!(doors(&list), [None, Some(2), Some(2)]);
    // The start, its sides, its diagonals; a diagonal crosses the cells of both sides.
    assert_eq!(doors(&kept(&nodes)), [None, Some(2), None, None, None, Some(2), None, None, Some(2)]);
}

/// Each node has the door of the edge from its parent, so that the two are a
/// route. One of these is found through the door first, and then by a shorter way
/// beside it.
#[test]
fn a_node_with_a_new_parent_has_its_door() {
    let posts = [[2, 1, 2], [2, 2, 2], [3, 1, 1], [3, 2, 1]];
    let world = posts.into_iter().fold(flat().with([1, 1, 1], 2, 1), World::stone);
    let (_, nodes) = found_by(&world, &to([4.5, 1.0, 2.5]), &BODY);
    let points = kept(&nodes);
    for (node, point) in nodes.chunks_exact(NODE).zip(&points).skip(1) {
        let parent = u32::from_le_bytes(node[56..60].try_into().expect("four bytes"));
        let start = points[parent as usize].feet;
        let list = [record(start, 0.0, 0), node[..WAYPOINT].to_vec()].concat();
        assert_eq!(back(&world, &Request { start, ..to(point.feet) }, &list), WalkBack::Yes);
    }
}

#[test]
fn the_lower_half_comes_first() {
    for (low, high) in [(2, 3), (3, 2), (4, 2)] {
        let halves = flat().with([1, 1, 0], low, 1).with([1, 2, 0], high, 1);
        assert_eq!(named(&halves, &REQUEST), [None, Some(u64::from(low)), Some(u64::from(low))]);
    }
    let upper = flat().with([1, 2, 0], 3, 1);
    assert_eq!(named(&upper, &REQUEST), [None, Some(3), Some(3)]);
}

/// In a layer the least x comes first, and there the least z: over a diagonal
/// the cell beside the start in z before the one in x.
#[test]
fn x_comes_before_z() {
    let both = flat().with([1, 1, 0], 2, 1).with([0, 1, 1], 4, 1);
    assert_eq!(named(&both, &to([1.5, 1.0, 1.5])), [None, Some(4)]);
    let one_x = flat().with([1, 1, 1], 2, 1).with([1, 1, 0], 4, 1);
    assert_eq!(named(&one_x, &to([1.5, 1.0, 1.5])), [None, Some(4)]);
}

/// What is met on the way up comes before what is met on the way across, even
/// where that lies lower.
#[test]
fn the_lift_comes_first() {
    let world = World::new(6).permitting(&STATES).stone([1, 1, 0]).with([0, 3, 0], 2, 1).with([1, 2, 0], 4, 1);
    let jumper = Request { jump_height: 1.25, ..to(UP) };
    let (list, _) = found_by(&world, &jumper, &BODY);
    assert_eq!(list[1], Waypoint { feet: UP, lift: 1.25, movement: Movement::Jump, door: Some(2) });
}

/// A drop from a tower: nothing up, nothing across, and of the way down the
/// lowest.
#[test]
fn the_settle_comes_last() {
    let tower = World::new(8).permitting(&STATES).stone([0, 1, 0]).stone([0, 2, 0]).stone([0, 3, 0]);
    let world = tower.with([1, 1, 0], 2, 1).with([1, 2, 0], 3, 1);
    let request = Request { start: [0.5, 4.0, 0.5], ..to(A) };
    let (list, _) = found_by(&world, &request, &BODY);
    assert_eq!(list[1], Waypoint { feet: A, lift: 0.0, movement: Movement::Drop, door: Some(2) });
    // A door across comes before it.
    let (list, _) = found_by(&world.with([1, 4, 0], 4, 1), &request, &BODY);
    assert_eq!(list[1].door, Some(4));
}

/// It comes before a door ahead, also where that has the lesser x.
#[test]
fn a_doorway_that_is_left_is_named() {
    let two = flat().with([0, 1, 0], 4, 1).with([1, 1, 0], 2, 1).with([-1, 1, 0], 2, 1);
    assert_eq!(named(&two, &REQUEST), [None, Some(4), Some(2)]);
    assert_eq!(named(&two, &to([-0.5, 1.0, 0.5])), [None, Some(4)]);
}

#[test]
fn a_connector_has_a_door_and_the_start_has_none() {
    let door = flat().with([1, 1, 0], 4, 1);
    assert_eq!(named(&door, &to([2.0, 1.0, 0.5])), [None, Some(4)]);
    assert_eq!(named(&flat().with([0, 1, 0], 4, 1), &to(S)), [None]);
}

/// 0 is a door like any other.
#[test]
fn air_without_bit_4_is_a_door() {
    let (list, nodes) = found_by(&World::flat().permitting(&[3, 7]), &REQUEST, &BODY);
    assert_eq!(doors(&list), [None, Some(0), Some(0)]);
    assert_eq!(doors(&kept(&nodes))[1..], [Some(0); 8]);
}

/// A body as wide as its cell touches the cells beside it, and does not meet
/// them; and so it is of one as high as two.
#[test]
fn a_cell_that_is_touched_is_not_crossed() {
    let met = |cells: &[[i32; 3]], goal, body| {
        let world = cells.iter().fold(flat(), |world, &cell| world.with(cell, 2, 1));
        found_by(&world, &to(goal), &body).0[1].door
    };
    for (width, door) in [(1.0, None), (1.0 + f64::EPSILON, Some(2)), (1.25, Some(2))] {
        let body = Body { width, ..BODY };
        assert_eq!(met(&[[-1, 1, 0], [1, 1, 0], [1, 1, 1]], [0.5, 1.0, 1.5], body), door);
        assert_eq!(met(&[[0, 1, -1], [0, 1, 1], [1, 1, 1]], A, body), door);
    }
    for (height, door) in [(2.0, None), (2.0 + 2.0 * f64::EPSILON, Some(2)), (2.5, Some(2))] {
        assert_eq!(met(&[[0, 3, 0], [1, 3, 0]], A, Body { height, ..BODY }), door);
    }
}

/// What collides is no door, whatever stands there, and bits 1 and 2 say nothing
/// of it.
#[test]
fn a_door_lacks_bit_4() {
    for (byte, door) in [(1, Some(2)), (3, Some(2)), (5, None), (7, None), (0xfb, Some(2)), (0xff, None)] {
        let world = World::flat().permitting(&[7, 7, byte]).with([1, 1, 0], 2, 0);
        assert_eq!(named(&world, &REQUEST), [None, door, door]);
    }
}

/// A mob is told of the doors that it opens or breaks; one that opens doors and
/// breaks none also of those that stand open.
#[test]
fn the_doors_of_a_mob() {
    let (shut, open) = (8, 8 + 32);
    let opener = Policy { can_open_doors: true, door_breaker: false, ..POLICY };
    let passer = Policy { door_breaker: false, ..POLICY };
    let world = World::flat().with([1, 1, 0], 2, 0).with([1, 2, 0], 2, 0);
    let told = [(&POLICY, shut, 3), (&POLICY, open, 7), (&opener, shut, 3), (&opener, open, 3), (&passer, shut, 7)];
    for (policy, flags, byte) in told {
        let (answer, permissions, [_, _, _, out]) = mob_in(&world.tables(), policy, &[0, 0, flags], 3, MOB_ROOMS);
        assert_eq!((answer.unwrap().count, permissions), (3, vec![7, 7, byte]));
        let door = (byte == 3).then_some(2);
        assert_eq!(doors(&Waypoint::list(&out, 3)), [None, door, door]);
    }
}

// ---- lists with a wrong door

/// Doors that are not 2, nor 2 in their low half.
const NOT_TWO: [u64; 6] = [NO_DOOR, 0, 3, (1 << 32) + 2, (1 << 63) + 2, u64::MAX];

#[test]
fn a_pair_with_a_wrong_door() {
    let (world, walk) = (doorway(), |door, feet| through(door, feet, 0.0, 0));
    let list = |a, g| [walks(&[S]), walk(a, A), walk(g, G)].concat();
    assert_eq!(back(&world, &REQUEST, &list(2, 2)), WalkBack::Yes);
    for door in NOT_TWO {
        assert_eq!(back(&world, &REQUEST, &list(door, 2)), at(1, Reason::WrongLabel));
        assert_eq!(back(&world, &REQUEST, &list(2, door)), at(2, Reason::WrongLabel));
        assert_eq!(back(&world, &REQUEST, &list(door, door)), at(1, Reason::WrongLabel));
    }
    // Where there is no door, none is right, and so it is of a connector.
    for door in NOT_TWO.into_iter().filter(|&door| door != NO_DOOR) {
        assert_eq!(back(&flat(), &REQUEST, &[walks(&[S, A]), walk(door, G)].concat()), at(2, Reason::WrongLabel));
        let beside = [2.0, 1.0, 0.5];
        assert_eq!(back(&flat(), &to(beside), &[walks(&[S]), walk(door, beside)].concat()), at(1, Reason::WrongLabel));
    }
}

/// An edge's reason and the graph's come before a wrong door, and a wrong door
/// before a wrong end.
#[test]
fn the_place_of_a_wrong_door() {
    let last = |feet| [walks(&[S]), through(9, feet, 0.0, 0)].concat();
    assert_eq!(back(&flat(), &REQUEST, &last(UP)), at(1, Reason::TooHigh));
    assert_eq!(back(&flat(), &REQUEST, &last(G)), at(1, Reason::NotAStep));
    assert_eq!(back(&flat(), &REQUEST, &last(A)), at(1, Reason::WrongLabel));
    assert_eq!(back(&flat(), &REQUEST, &walks(&[S, A])), no(Reason::WrongEnd));
}

/// The start has no door, also in a doorway.
#[test]
fn a_start_with_a_door() {
    let inside = flat().with([0, 1, 0], 4, 1);
    assert_eq!(back(&inside, &to(S), &record(S, 0.0, 0)), WalkBack::Yes);
    for door in [0, 2, 4, (1 << 32) + NO_DOOR, u64::MAX] {
        assert_eq!(back(&inside, &to(S), &through(door, S, 0.0, 0)), no(Reason::WrongStart));
        assert_eq!(back(&flat(), &REQUEST, &[through(door, S, 0.0, 0), walks(&[A, G])].concat()), no(Reason::WrongStart));
    }
}

/// Records without the door are a bad list.
#[test]
fn a_list_of_shorter_records() {
    let cut: Vec<u8> = walks(&[S, A, G]).chunks_exact(WAYPOINT).flat_map(|record| record[..40].to_vec()).collect();
    assert_eq!(back(&flat(), &REQUEST, &cut), no(Reason::BadList));
}
