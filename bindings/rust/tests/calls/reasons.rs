//! Why a step is refused: each reason of an edge and of a list on a small
//! scene, in the order in which they are judged; the place that goes with a
//! pair's reason, in slices of every length; and the words of every number.

use walkprint::{Body, Error, Movement, Point, Reason, Request, WORD, WalkBack, raw, word};

use super::world::{A, G, S, UP, World, at, back, no, record, then, walked, walks};
use super::{BODY, HEADER, REQUEST, pattern};

const JUMPER: Request = Request { jump_height: 1.25, ..REQUEST };

// ---- edges

fn edge(world: &World, request: &Request, from: Point, to: Point) -> Result<Movement, Reason> {
    walkprint::edge(&world.tables(), request, &BODY, from, to).expect("no refusal")
}

/// The first reason of each edge. Most of these fail at something later too.
#[test]
fn an_edge_has_its_first_reason() {
    let flat = World::flat();
    assert_eq!(edge(&flat, &REQUEST, S, A), Ok(Movement::Walk));
    // No ground there either.
    assert_eq!(edge(&flat, &REQUEST, S, UP), Err(Reason::TooHigh));
    // Nor is it in range.
    assert_eq!(edge(&flat, &REQUEST, S, [0.5, -20.0, 0.5]), Err(Reason::TooDeep));
    assert_eq!(edge(&flat, &REQUEST, S, [0.5, 20.0, 0.5]), Err(Reason::TooHigh));
    // Behind the window.
    assert_eq!(edge(&flat, &REQUEST, S, [17.5, 1.0, 0.5]), Err(Reason::TargetOutOfRange));
    // The jump rises to 2.25; on the block it would stand well.
    let near = Request { max_range: 1.0, ..JUMPER };
    assert_eq!(edge(&World::wall(), &near, S, UP), Err(Reason::RaisedOutOfRange));
    assert_eq!(edge(&World::wall(), &Request { max_range: 1.25, ..JUMPER }, S, UP), Ok(Movement::Jump));
    // Inside the block.
    assert_eq!(edge(&World::wall(), &REQUEST, S, A), Err(Reason::TargetNotStandable));
    // The roof is in the way across too.
    assert_eq!(edge(&World::low_roof(), &JUMPER, S, UP), Err(Reason::LiftBlocked));
    assert_eq!(edge(&World::wall(), &REQUEST, S, G), Err(Reason::CrossingBlocked));
    assert_eq!(edge(&World::ledge(), &REQUEST, [0.5, 4.0, 0.5], A), Err(Reason::SettleBlocked));
    assert_eq!(edge(&World::gap(), &REQUEST, S, G), Err(Reason::Unsupported));
}

/// A NaN is no height that is too much, and in no range.
#[test]
fn an_edge_of_a_nan() {
    let (flat, nan) = (World::flat(), f64::NAN);
    assert_eq!(edge(&flat, &REQUEST, S, [nan, 1.0, 0.5]), Err(Reason::TargetOutOfRange));
    assert_eq!(edge(&flat, &REQUEST, S, [nan, 2.0, 0.5]), Err(Reason::TooHigh));
    assert_eq!(edge(&flat, &REQUEST, S, [nan, -9.0, 0.5]), Err(Reason::TooDeep));
    assert_eq!(edge(&flat, &REQUEST, S, [1.5, nan, 0.5]), Err(Reason::TargetOutOfRange));
    assert_eq!(edge(&flat, &REQUEST, [nan, 1.0, 0.5], A), Err(Reason::RaisedOutOfRange));
    assert_eq!(edge(&flat, &REQUEST, [0.5, nan, 0.5], A), Err(Reason::RaisedOutOfRange));
    assert_eq!(edge(&flat, &REQUEST, [nan, 1.0, 0.5], [nan, 1.0, 0.5]), Err(Reason::TargetOutOfRange));
}

// ---- lists that are walked back

#[test]
fn a_route_is_yes() {
    let flat = World::flat();
    assert_eq!(back(&flat, &REQUEST, &walks(&[S, A, G])), WalkBack::Yes);
    assert_eq!(back(&flat, &Request { goal: S, ..REQUEST }, &walks(&[S])), WalkBack::Yes);
    // The sign of a zero is not told, and the budget is not read.
    let zeros = [record(S, -0.0, 0), record(A, -0.0, 0), record(G, 0.0, 0)].concat();
    assert_eq!(back(&flat, &Request { node_budget: u64::MAX, ..REQUEST }, &zeros), WalkBack::Yes);
    // A connector, which ends beside a centre.
    let beside = [2.0, 1.0, 0.5];
    assert_eq!(back(&flat, &Request { goal: beside, ..REQUEST }, &walks(&[S, beside])), WalkBack::Yes);
}

/// What is judged before the pairs, each with all that comes behind it wrong as
/// well.
#[test]
fn a_list_has_its_first_reason() {
    let flat = World::flat();
    let thin = Body { width: 0.0, ..BODY };
    let wide = Request { max_range: 64.5, ..REQUEST };
    let (none, wrong) = (Vec::new(), walks(&[A, UP]));
    assert_eq!(walked(&World::bad(), &wide, &thin, &none), Err(Error::BadWorld));
    assert_eq!(walked(&flat, &wide, &thin, &none), Ok(no(Reason::InvalidRequest)));
    assert_eq!(walked(&flat, &wide, &BODY, &none), Err(Error::TooLarge));

    let lost = Request { start: [0.5, 1.5, 0.5], goal: [17.5, 1.0, 0.5], ..REQUEST };
    assert_eq!(back(&flat, &lost, &none), no(Reason::BadList));
    assert_eq!(back(&flat, &lost, &wrong), no(Reason::GoalOutOfRange));
    assert_eq!(back(&flat, &Request { goal: UP, ..lost }, &wrong), no(Reason::StartNotStandable));
    assert_eq!(back(&flat, &Request { goal: UP, ..REQUEST }, &wrong), no(Reason::GoalNotStandable));
    assert_eq!(back(&flat, &REQUEST, &wrong), no(Reason::WrongStart));
    assert_eq!(back(&flat, &REQUEST, &walks(&[S, UP])), at(1, Reason::TooHigh));
    assert_eq!(back(&flat, &REQUEST, &walks(&[S, A])), no(Reason::WrongEnd));
}

#[test]
fn a_bad_list() {
    let flat = World::flat();
    let bad = |list: &[u8]| assert_eq!(back(&flat, &REQUEST, list), no(Reason::BadList));
    let route = walks(&[S, A, G]);
    for length in (0..144).filter(|length| length % 48 != 0) {
        bad(&route[..length]);
    }
    bad(&[]);
    // A movement above 3 in any record: the start's, the last one, and one behind a pair that fails.
    for movement in [4, 256, 1 << 32, u64::MAX] {
        bad(&[record(S, 0.0, movement), walks(&[A, G])].concat());
        bad(&then(&[S, A], G, 0.0, movement));
        bad(&then(&[S, UP], A, 0.0, movement));
    }
    // A NaN is none of these.
    assert_eq!(back(&flat, &REQUEST, &then(&[S, A], G, f64::NAN, 0)), at(2, Reason::WrongLabel));
    assert_eq!(back(&flat, &REQUEST, &walks(&[S, [f64::NAN, 1.0, 0.5]])), at(1, Reason::TargetOutOfRange));
}

/// The first record has no pair's reason, and so no place.
#[test]
fn a_wrong_start() {
    let flat = World::flat();
    let begun = |first: Vec<u8>| back(&flat, &REQUEST, &[first, walks(&[A, G])].concat());
    assert_eq!(begun(record(S, 0.0, 1)), no(Reason::WrongStart));
    assert_eq!(begun(record(S, 0.25, 0)), no(Reason::WrongStart));
    assert_eq!(begun(record(S, f64::NAN, 0)), no(Reason::WrongStart));
    assert_eq!(begun(record([0.5, 1.0, 0.5 + f64::EPSILON], 0.0, 0)), no(Reason::WrongStart));
    assert_eq!(begun(record(S, -0.0, 0)), WalkBack::Yes);
}

/// Each reason of an edge, told of a list's first pair.
#[test]
fn a_pair_without_an_edge() {
    let (wall, jump) = (World::wall(), then(&[S], UP, 1.25, 2));
    let list = |to: Point| walks(&[S, to]);
    assert_eq!(back(&World::flat(), &REQUEST, &list(UP)), at(1, Reason::TooHigh));
    assert_eq!(back(&World::flat(), &REQUEST, &list([0.5, -20.0, 0.5])), at(1, Reason::TooDeep));
    assert_eq!(back(&World::flat(), &REQUEST, &list([17.5, 1.0, 0.5])), at(1, Reason::TargetOutOfRange));
    let near = Request { goal: [0.5, 1.0, 1.5], max_range: 1.0, ..JUMPER };
    assert_eq!(back(&wall, &near, &jump), at(1, Reason::RaisedOutOfRange));
    assert_eq!(back(&wall, &REQUEST, &list(A)), at(1, Reason::TargetNotStandable));
    assert_eq!(back(&World::low_roof(), &JUMPER, &jump), at(1, Reason::LiftBlocked));
    assert_eq!(back(&wall, &REQUEST, &list(G)), at(1, Reason::CrossingBlocked));
    let high = Request { start: [0.5, 4.0, 0.5], ..REQUEST };
    assert_eq!(back(&World::ledge(), &high, &then(&[high.start], A, 0.0, 3)), at(1, Reason::SettleBlocked));
    assert_eq!(back(&World::gap(), &REQUEST, &list(G)), at(1, Reason::Unsupported));
}

/// Edges that are no graph steps.
#[test]
fn a_pair_that_is_no_graph_step() {
    let flat = World::flat();
    let step = |list: &[Point]| back(&flat, &REQUEST, &walks(list));
    // Two columns away; beside a centre; within E of a top, but not the top.
    assert_eq!(step(&[S, G]), at(1, Reason::NotAStep));
    assert_eq!(step(&[S, [1.25, 1.0, 0.5], G]), at(1, Reason::NotAStep));
    assert_eq!(back(&flat, &REQUEST, &then(&[S], [1.5, 1.0 + 5.0e-8, 0.5], 5.0e-8, 0)), at(1, Reason::NotAStep));
    // A diagonal past a side without a floor.
    let (hole, diagonal) = (World::flat().air([1, 0, 0]), [1.5, 1.0, 1.5]);
    assert_eq!(back(&flat, &REQUEST, &walks(&[S, diagonal, G])), WalkBack::Yes);
    assert_eq!(back(&hole, &REQUEST, &walks(&[S, diagonal, G])), at(1, Reason::NotAStep));
    // A connector is one at the last pair alone, and to the goal alone.
    let beside = Request { goal: [2.0, 1.0, 0.5], ..REQUEST };
    assert_eq!(back(&flat, &beside, &walks(&[S, beside.goal, beside.goal])), at(1, Reason::NotAStep));
    assert_eq!(back(&flat, &beside, &walks(&[S, [1.9, 1.0, 0.5]])), at(1, Reason::NotAStep));
}

#[test]
fn a_pair_with_a_wrong_movement_or_lift() {
    let flat = World::flat();
    for (lift, movement) in [(0.0, 1), (0.0, 2), (0.0, 3), (1.0e-9, 0), (0.25, 0), (f64::INFINITY, 0)] {
        let list = [then(&[S], A, lift, movement), walks(&[G])].concat();
        assert_eq!(back(&flat, &REQUEST, &list), at(1, Reason::WrongLabel));
        assert_eq!(back(&flat, &REQUEST, &then(&[S, A], G, lift, movement)), at(2, Reason::WrongLabel));
        // So it is of a connector.
        let beside = Request { goal: [2.0, 1.0, 0.5], ..REQUEST };
        assert_eq!(back(&flat, &beside, &then(&[S], beside.goal, lift, movement)), at(1, Reason::WrongLabel));
    }
}

/// Of several pairs the first tells, and its place counts from 0.
#[test]
fn the_place_of_a_pair() {
    let flat = World::flat();
    for place in [1, 2, 3, 4, 99, 255, 256, 300] {
        let to_and_fro = (0..place).map(|k| if k % 2 == 0 { S } else { A });
        let list: Vec<Point> = to_and_fro.chain([[0.5, 9.0, 0.5], G, [17.5, 1.0, 0.5]]).collect();
        assert_eq!(back(&flat, &REQUEST, &walks(&list)), at(place, Reason::TooHigh));
    }
}

#[test]
fn a_wrong_end() {
    let flat = World::flat();
    for list in [&[S][..], &[S, A], &[S, A, S], &[S, A, G, A]] {
        assert_eq!(back(&flat, &REQUEST, &walks(list)), no(Reason::WrongEnd));
    }
}

// ---- numbers and words

/// Every number that has words.
const WORDS: [(u64, &str); 34] = [
    (0, "found"),
    (1, "unreachable"),
    (2, "budget exceeded"),
    (3, "bad world"),
    (4, "too large"),
    (5, "no room"),
    (6, "endless jump"),
    (7, "bad scene"),
    (8, "bad table"),
    (9, "bad number"),
    (12, "bad progress"),
    (100, "still searching"),
    (101, "too high"),
    (102, "too deep"),
    (103, "target out of range"),
    (104, "raised point out of range"),
    (105, "target not standable"),
    (106, "lift blocked"),
    (107, "crossing blocked"),
    (108, "settle blocked"),
    (109, "segment unsupported"),
    (111, "invalid request"),
    (112, "bad list"),
    (113, "goal out of range"),
    (114, "start not standable"),
    (115, "goal not standable"),
    (116, "wrong start"),
    (117, "not a graph step"),
    (118, "wrong movement or lift"),
    (119, "wrong end"),
    (130, "walk"),
    (131, "step"),
    (132, "jump"),
    (133, "drop"),
];

#[test]
fn words() {
    for (number, words) in WORDS {
        assert_eq!(word(number), words);
        assert!(words.len() <= WORD);
        for length in 0..=WORD + 8 {
            let (mut lent, mut must) = (pattern(length), pattern(length));
            if words.len() <= length {
                must[..words.len()].copy_from_slice(words.as_bytes());
            }
            assert_eq!(raw::word(number, &mut lent), words.len() as u64);
            assert_eq!(lent, must);
        }
    }
}

#[test]
fn numbers_without_words() {
    let wide = WORDS.iter().flat_map(|(number, _)| [8, 16, 32, 63].map(|k| number + (1 << k)));
    let numbers = (0..4096).chain(wide).chain([u64::MAX, 1 << 63]);
    for number in numbers.filter(|number| WORDS.iter().all(|(known, _)| known != number)) {
        let mut lent = pattern(WORD);
        assert_eq!((raw::word(number, &mut lent), raw::word(number, &mut [])), (0, 0));
        assert_eq!(lent, pattern(WORD));
        assert_eq!(word(number), "");
    }
}

#[test]
fn a_reason_has_its_number_and_words() {
    let told: Vec<(u64, String)> = Reason::ALL.iter().map(|reason| (reason.number(), reason.to_string())).collect();
    let must: Vec<(u64, String)> = WORDS[12..30].iter().map(|&(number, words)| (number, words.to_string())).collect();
    assert_eq!(told, must);
    for number in 0..300 {
        let reason = Reason::numbered(number);
        assert_eq!(reason.is_some(), must.iter().any(|(known, _)| *known == number));
        assert!(reason.is_none_or(|reason| reason.number() == number));
    }
    let pairs: Vec<u64> = Reason::ALL.iter().filter(|reason| reason.is_of_a_pair()).map(|reason| reason.number()).collect();
    assert_eq!(pairs, [101, 102, 103, 104, 105, 106, 107, 108, 109, 117, 118]);
    let moves = [Movement::Walk, Movement::Step, Movement::Jump, Movement::Drop].map(|movement| movement.to_string());
    assert_eq!(moves, ["walk", "step", "jump", "drop"]);
    assert_eq!(walkprint::Outcome::BudgetExceeded.to_string(), "budget exceeded");
}

/// The header has this crate's reasons by name and number, and each number of
/// our own once.
#[test]
fn numbers_of_the_header() {
    let part = HEADER.split("---- Numbers given back").nth(1).expect("the header has it");
    let part = part.split("/* ----").next().expect("it ends");
    let told = |line: &str| -> Option<(String, u64)> {
        let (name, rest) = line.trim().strip_prefix("WALKPRINT_")?.split_once(" = ")?;
        let digits: String = rest.chars().take_while(char::is_ascii_digit).collect();
        Some((name.to_string(), digits.parse().ok()?))
    };
    let own: Vec<(String, u64)> = part.lines().filter_map(told).filter(|(_, number)| *number >= 100).collect();
    // NotAStep as NOT_A_STEP
    let shouted = |name: String| -> String {
        let apart = name.chars().flat_map(|c| [c.is_uppercase().then_some('_'), Some(c.to_ascii_uppercase())]);
        apart.flatten().skip(1).collect()
    };
    let reasons = Reason::ALL.iter().map(|reason| (shouted(format!("{reason:?}")), reason.number()));
    let moves = ["WALK", "STEP", "JUMP", "DROP"].iter().zip(130..).map(|(name, number)| (format!("EDGE_{name}"), number));
    let searching = [("STILL_SEARCHING".to_string(), 100)].into_iter();
    assert_eq!(own, searching.chain(reasons).chain(moves).collect::<Vec<_>>());
}
