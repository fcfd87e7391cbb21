//! Rooms and counts that another hand changed: what continue refuses by 12, clause
//! by clause, what it takes, and what it makes of it. Each state is that of the flat
//! scene after one expansion (the start closed, its eight neighbours waiting), with
//! something changed in it.

use walkprint::Request;

use super::slices::{BAD_PROGRESS, FourCounts, Lent, SEARCHING, begun};
use super::world::World;
use super::{NODE, REQUEST, WAYPOINT, is_zero};

/// Where the fields of a node record stand, and those of a frontier record.
const X: usize = 0;
const Y: usize = 8;
const Z: usize = 16;
const LIFT: usize = 24;
const MOVEMENT: usize = 32;
const DOOR: usize = 40;
const COST: usize = 48;
const PARENT: usize = 56;
const CLOSED: usize = 60;
const ESTIMATE: usize = 0;
const ORDER: usize = 8;
const WAITING: usize = 16;

/// A frontier record's bytes.
const FRONT: usize = 24;

/// What continue is handed.
struct State {
    request: Request,
    counts: FourCounts,
    expansions: u64,
    lent: Lent,
}

impl State {
    fn new() -> Self {
        let mut lent = begun(&World::flat(), &REQUEST);
        assert_eq!(lent.advance(&World::flat(), &REQUEST, 1), SEARCHING);
        Self { request: REQUEST, counts: lent.counts(), expansions: 1, lent }
    }

    fn asked(mut self, change: impl FnOnce(&mut Request)) -> Self {
        change(&mut self.request);
        self
    }

    fn by(self, expansions: u64) -> Self {
        Self { expansions, ..self }
    }

    fn counted(mut self, count: usize, n: u64) -> Self {
        self.counts[count] = n;
        self
    }

    fn node<const N: usize>(mut self, k: usize, field: usize, bytes: [u8; N]) -> Self {
        self.lent.nodes[NODE * k + field..][..N].copy_from_slice(&bytes);
        self
    }

    fn number(self, k: usize, field: usize, number: f64) -> Self {
        self.node(k, field, number.to_le_bytes())
    }

    fn parent(self, k: usize, parent: u32) -> Self {
        self.node(k, PARENT, parent.to_le_bytes())
    }

    fn mark(self, k: usize, closed: u32) -> Self {
        self.node(k, CLOSED, closed.to_le_bytes())
    }

    /// A word of a frontier record.
    fn front(mut self, k: usize, field: usize, word: u64) -> Self {
        self.lent.front[FRONT * k + field..][..8].copy_from_slice(&word.to_le_bytes());
        self
    }

    fn estimate(self, k: usize, estimate: f64) -> Self {
        self.front(k, ESTIMATE, estimate.to_bits())
    }

    /// All zero, as that of a closed node.
    fn idle(self, k: usize) -> Self {
        [ESTIMATE, ORDER, WAITING].into_iter().fold(self, |state, field| state.front(k, field, 0))
    }

    fn close(self, k: usize) -> Self {
        self.mark(k, 1).idle(k)
    }

    fn none_waits(mut self) -> Self {
        self.lent.front.fill(0);
        self
    }

    /// A frontier of so many bytes, zero past the budget.
    fn longer_front(mut self, bytes: usize) -> Self {
        self.lent.front.resize(bytes, 0);
        self
    }

    fn advance(&mut self) -> u64 {
        self.lent.advance_by(self.counts, &World::flat(), &self.request, self.expansions)
    }
}

/// A change, and what it is.
type Change = (&'static str, fn(State) -> State);

/// The state with each of these changes is taken, or is 12 and nothing is written.
fn told(taken: bool, changes: &[Change]) {
    for (what, change) in changes {
        let mut state = change(State::new());
        let before = state.lent.clone();
        let number = state.advance();
        assert_eq!(number != BAD_PROGRESS, taken, "{what}");
        assert_eq!(state.lent != before, taken, "{what}");
    }
}

// ---- clause by clause

#[test]
fn expansions_and_counts() {
    let taken: [Change; 8] = [
        ("as it was", |s| s),
        ("expansions 4,096", |s| s.by(4096)),
        ("budget 9", |s| s.asked(|r| r.node_budget = 9)),
        ("closed 0", |s| s.counted(1, 0)),
        ("closed as retained", |s| s.counted(1, 9)),
        ("pushed 0", |s| s.counted(2, 0)),
        ("pushed 2^32 - 1", |s| s.counted(2, (1 << 32) - 1)),
        ("dropped 2^32 - 1", |s| s.counted(3, (1 << 32) - 1)),
    ];
    told(true, &taken);
    let refused: [Change; 15] = [
        ("expansions 0", |s| s.by(0)),
        ("expansions 4,097", |s| s.by(4097)),
        ("expansions 2^32 + 1", |s| s.by((1 << 32) + 1)),
        ("expansions 2^64 - 1", |s| s.by(u64::MAX)),
        ("retained 0", |s| s.counted(0, 0)),
        ("retained 8, and node 8 waits", |s| s.counted(0, 8)),
        ("retained 10, and old bytes as node 9", |s| s.counted(0, 10)),
        ("retained 65 of budget 64", |s| s.counted(0, 65)),
        ("retained 2^32 + 9", |s| s.counted(0, (1 << 32) + 9)),
        ("retained 2^63", |s| s.counted(0, 1 << 63)),
        ("budget 8", |s| s.asked(|r| r.node_budget = 8)),
        ("closed above retained", |s| s.counted(1, 10)),
        ("pushed 2^32", |s| s.counted(2, 1 << 32)),
        ("dropped 2^32", |s| s.counted(3, 1 << 32)),
        ("dropped 2^64 - 1", |s| s.counted(3, u64::MAX)),
    ];
    told(false, &refused);
}

#[test]
fn points_costs_and_movements() {
    let taken: [Change; 7] = [
        ("a point at the end of the range", |s| s.number(5, X, 16.5)),
        ("the point of another node", |s| s.number(5, Z, -0.5)),
        ("a lift of NaN", |s| s.number(5, LIFT, f64::NAN)),
        ("any door", |s| s.node(5, DOOR, [0xff; 8])),
        ("a cost below 0", |s| s.number(5, COST, -1.0)),
        ("a large cost", |s| s.number(5, COST, 1.7e308)),
        ("movement 3", |s| s.node(5, MOVEMENT, 3u64.to_le_bytes())),
    ];
    told(true, &taken);
    let refused: [Change; 11] = [
        ("x past the range", |s| s.number(5, X, 16.51)),
        ("y past the range", |s| s.number(5, Y, 17.01)),
        ("z past the range", |s| s.number(5, Z, -15.51)),
        ("the start past the range", |s| s.number(0, X, 17.0)),
        ("a range that nodes lie past", |s| s.asked(|r| r.max_range = 0.5)),
        ("x a NaN", |s| s.number(5, X, f64::NAN)),
        ("y an infinity", |s| s.number(5, Y, f64::INFINITY)),
        ("a cost of NaN", |s| s.number(5, COST, f64::NAN)),
        ("an infinite cost", |s| s.number(8, COST, f64::NEG_INFINITY)),
        ("movement 4", |s| s.node(5, MOVEMENT, 4u64.to_le_bytes())),
        ("movement 2^32", |s| s.node(5, MOVEMENT, (1u64 << 32).to_le_bytes())),
    ];
    told(false, &refused);
}

#[test]
fn marks() {
    let taken: [Change; 3] = [
        ("open and not waiting, the entry else kept", |s| s.front(5, WAITING, 0)),
        ("closed, and nobody's parent", |s| s.close(5)),
        ("the waiting word 2 past the retained nodes", |s| s.front(20, WAITING, 2)),
    ];
    told(true, &taken);
    let refused: [Change; 5] = [
        ("the closed word 2", |s| s.idle(5).mark(5, 2)),
        ("the closed word 2^31", |s| s.idle(8).mark(8, 1 << 31)),
        ("the waiting word 2", |s| s.front(5, WAITING, 2)),
        ("the waiting word 2^32 + 1", |s| s.front(5, WAITING, (1 << 32) + 1)),
        ("waiting and closed", |s| s.mark(5, 1)),
    ];
    told(false, &refused);
}

#[test]
fn parents() {
    let taken: [Change; 3] = [
        ("a longer chain", |s| s.close(3).parent(4, 3)),
        ("a parent of a higher number", |s| s.close(4).parent(3, 4)),
        ("a chain through six nodes", |s| (2..8).fold(s, |s, k| s.close(k).parent(k - 1, k as u32))),
    ];
    told(true, &taken);
    let refused: [Change; 10] = [
        ("itself, and open", |s| s.parent(3, 3)),
        ("itself, and closed", |s| s.close(3).parent(3, 3)),
        ("each the other's", |s| s.close(3).close(4).parent(3, 4).parent(4, 3)),
        ("a cycle that another leads to", |s| s.close(3).close(4).parent(3, 4).parent(4, 3).parent(5, 3)),
        ("the start's is itself", |s| s.parent(0, 0)),
        ("the start's is another", |s| s.close(3).parent(0, 3)),
        ("none, but for the start", |s| s.parent(5, u32::MAX)),
        ("one that is not retained", |s| s.parent(5, 9)),
        ("one that is open", |s| s.parent(5, 4)),
        ("the start, which is open", |s| s.mark(0, 0)),
    ];
    told(false, &refused);
}

#[test]
fn the_frontier() {
    let taken: [Change; 5] = [
        ("an estimate below 0", |s| s.estimate(5, -5.0)),
        ("an estimate of NaN that does not wait", |s| s.estimate(5, f64::NAN).front(5, WAITING, 0)),
        ("any push order", |s| s.front(5, ORDER, u64::MAX)),
        ("equal estimates and push orders", |s| (1..9).fold(s, |s, k| s.estimate(k, 9.0).front(k, ORDER, 1))),
        ("a partial record that would wait", |s| {
            let mut state = s.longer_front(FRONT * 71).front(70, WAITING, 1);
            state.lent.front.pop();
            state
        }),
    ];
    told(true, &taken);
    let refused: [Change; 6] = [
        ("nothing waits", State::none_waits),
        ("an estimate of NaN", |s| s.estimate(5, f64::NAN)),
        ("an infinite estimate", |s| s.estimate(5, f64::NEG_INFINITY)),
        ("past the retained nodes, a record waits", |s| s.front(20, WAITING, 1)),
        ("past the budget, a record waits", |s| s.longer_front(FRONT * 71).front(70, WAITING, 1)),
        ("only a record past the retained nodes waits", |s| s.none_waits().front(20, WAITING, 1)),
    ];
    told(false, &refused);
}

// ---- what is made of them

/// The nodes that are closed.
fn closed(state: &State) -> Vec<usize> {
    (0..state.lent.counts()[0] as usize).filter(|k| state.lent.nodes[NODE * k + CLOSED] == 1).collect()
}

#[test]
fn the_lowest_estimate_goes_first_and_then_the_lowest_order_and_node() {
    // Left alone, node 1 finds the goal.
    let mut alone = State::new();
    assert_eq!((alone.advance(), closed(&alone)), (0, vec![0, 1]));
    let mut ahead = State::new().estimate(3, -5.0);
    assert_eq!((ahead.advance(), closed(&ahead)), (SEARCHING, vec![0, 3]));
    // Nodes 6 to 8 tie, at 0.0 and -0.0, which are one number.
    for (orders, next) in [([7, 7, 7], 6), ([7, 6, 7], 7), ([7, 7, 6], 8), ([8, 7, 7], 7)] {
        let tied = [(6, 0.0, orders[0]), (7, 0.0, orders[1]), (8, -0.0, orders[2])];
        let mut tied = tied.into_iter().fold(State::new(), |s, (k, zero, order)| s.estimate(k, zero).front(k, ORDER, order));
        tied.advance();
        assert_eq!(closed(&tied), [0, next]);
    }
}

/// The counts are taken as they are given, and added to.
#[test]
fn counts_are_not_held_against_the_records() {
    let mut state = State { counts: [9, 9, (1 << 32) - 1, 5], ..State::new() };
    assert_eq!(state.advance(), 0);
    assert_eq!(state.lent.told(), [0, 3, 9, 10, (1 << 32) - 1, 5]);
    assert!(is_zero(&state.lent.front));
}

/// The goal is not judged again, neither far away nor in the air; and a dropped count,
/// though nothing was dropped, makes the end 2.
#[test]
fn the_ends_are_not_judged_again() {
    for (goal, dropped, end) in [([1.0e6, 1.0, 0.5], 0, 1), ([2.5, 9.0, 0.5], 0, 1), ([1.0e6, 1.0, 0.5], 5, 2)] {
        let mut state = State::new().asked(|r| r.goal = goal).counted(3, dropped).by(4096);
        assert_eq!(state.advance(), end);
        assert_eq!(state.lent.counts()[..2], [35, 35]);
    }
}

/// An open node that does not wait is left out, and woken by a cheaper way to it.
#[test]
fn a_node_that_does_not_wait() {
    let asleep = || State::new().asked(|r| r.goal = [2.5, 9.0, 0.5]).idle(8).by(4096);
    for (cost, woken) in [(1.0, false), (9.0, true)] {
        let mut state = asleep().number(8, COST, cost);
        assert_eq!(state.advance(), 1);
        assert_eq!(closed(&state).contains(&8), woken);
    }
}

/// A cheaper way to a node that waits with a lower estimate: it gets the new parent,
/// its entry stays, and the push is counted all the same.
#[test]
fn a_push_that_changes_nothing_is_counted() {
    let high = State::new().asked(|r| r.goal = [2.5, 9.0, 0.5]);
    let mut state = high.estimate(1, -2.0).number(8, COST, 9.0).estimate(8, -1.0);
    let entry = state.lent.front[FRONT * 8..][..FRONT].to_vec();
    assert_eq!(state.advance(), SEARCHING);
    // Three points are new.
    assert_eq!(state.lent.counts(), [12, 2, 9 + 3 + 1, 0]);
    assert_eq!(state.lent.front[FRONT * 8..][..FRONT], entry);
    assert_eq!(state.lent.nodes[NODE * 8 + COST..][..12], [&2.0f64.to_le_bytes()[..], &1u32.to_le_bytes()].concat());
}

/// Of two nodes at one point the first answers for it: it gets the cheaper way.
#[test]
fn two_nodes_at_one_point() {
    let both = State::new().number(5, Z, -0.5).number(5, COST, 9.0).number(8, COST, 9.0);
    let mut state = both.asked(|r| r.goal = [2.5, 9.0, 0.5]).estimate(1, -2.0);
    assert_eq!(state.advance(), SEARCHING);
    let cost = |k: usize| state.lent.nodes[NODE * k + COST..][..8].to_vec();
    assert_eq!([cost(5), cost(8)], [2.0f64, 9.0].map(|cost| cost.to_le_bytes().to_vec()));
}

/// A waiting node at the goal ends the search, with the way back over its parents.
#[test]
fn a_node_at_the_goal_is_the_end() {
    let [x, y, z] = REQUEST.goal;
    let mut state = State::new().number(7, X, x).number(7, Y, y).number(7, Z, z).estimate(7, 0.0).close(4).parent(7, 4);
    assert_eq!((state.advance(), state.lent.told()[1]), (0, 3));
    for (place, node) in [0, 4, 7].into_iter().enumerate() {
        assert_eq!(state.lent.out[WAYPOINT * place..][..24], state.lent.nodes[NODE * node..][..24]);
    }
}
