//! What must come of a call: 01's "Search order" over the original, with the
//! doors of 02's No. 5.

use scene::{Answer, NO_DOOR, NODE, Outcome, WAYPOINT, u64_at};

use crate::call::Call;
use crate::sizes::{Sizes, no_room};

/// The place of the door in a waypoint's record and in a node's.
const DOOR: usize = 40;

/// How far a call comes, whatever its rooms.
pub enum Judged {
    /// Before the rooms are looked at: number 1, 3 or 4.
    Ends(u64),
    /// The original's answer, which stands if the rooms are large enough.
    Answered(Answer),
}

/// "3; `valid_request` (else 1); 4"; what follows 5 is the original's own
/// order.
pub fn judge(call: &Call) -> Judged {
    if scene::bad_world(&call.tables) {
        return Judged::Ends(3);
    }
    let scene = call.scene();
    if !original::valid_request(&scene) {
        return Judged::Ends(1);
    }
    if scene::too_large(&call.request, &call.body) {
        return Judged::Ends(4);
    }
    Judged::Answered(original::find_walk_path(&scene))
}

/// What a question of a world, which keeps no nodes, is refused by: "3;
/// `valid_request` (else 1); 4, the budget not read".
pub fn refused(call: &Call) -> Option<u64> {
    let mut unread = call.clone();
    unread.request.node_budget = 0;
    if scene::bad_world(&unread.tables) {
        return Some(3);
    }
    if !original::valid_request(&unread.scene()) {
        return Some(1);
    }
    scene::too_large(&unread.request, &unread.body).then_some(4)
}

/// What a call must answer, and what it must write.
#[derive(Clone, PartialEq)]
pub struct Expected {
    pub number: u64,
    /// Whether the search began.
    pub began: bool,
    /// The list and the retained nodes, in records.
    pub list: Vec<u8>,
    pub nodes: Vec<u8>,
    pub closed: u64,
}

impl Expected {
    /// Nothing but a number.
    fn number(number: u64) -> Self {
        Self {
            number,
            began: false,
            list: Vec::new(),
            nodes: Vec::new(),
            closed: 0,
        }
    }

    /// Outcome, count, retained, closed.
    pub fn answer(&self) -> [u64; 4] {
        let [count, retained] = [self.list.len() / WAYPOINT, self.nodes.len() / NODE];
        [self.number, count as u64, retained as u64, self.closed]
    }

    /// The words of the retained points.
    pub fn points(&self) -> Vec<[u64; 3]> {
        let point = |node: &[u8]| [0, 8, 16].map(|at| u64_at(node, at));
        self.nodes.chunks(NODE).map(point).collect()
    }

    /// The doors of the list and of the nodes that are not none.
    pub fn doors(&self) -> [Vec<u64>; 2] {
        [(&self.list, WAYPOINT), (&self.nodes, NODE)].map(|(records, size)| {
            let doors = records.chunks(size).map(|record| u64_at(record, DOOR));
            doors.filter(|&door| door != NO_DOOR).collect()
        })
    }

    /// Whether the last edge of the list, which leads to the goal, has a door.
    pub fn connector_door(&self) -> bool {
        let last = self.list.chunks(WAYPOINT).last();
        last.is_some_and(|point| u64_at(point, DOOR) != NO_DOOR)
    }
}

/// "5" judged between, for rooms of so many bytes.
pub fn expected(judged: &Judged, budget: u64, sizes: Sizes) -> Expected {
    let answer = match judged {
        Judged::Ends(number) => return Expected::number(*number),
        Judged::Answered(answer) => answer,
    };
    if no_room(sizes, budget) {
        return Expected::number(5);
    }
    let found = answer.outcome == Outcome::Found;
    let list = if found { &answer.list[..] } else { &[] };
    Expected {
        number: answer.outcome as u64,
        began: !answer.nodes.is_empty(),
        list: list.iter().flat_map(|point| point.bytes()).collect(),
        nodes: answer.nodes.iter().flat_map(|node| node.bytes()).collect(),
        closed: answer.closed,
    }
}
