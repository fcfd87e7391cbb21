//! What 01 judges before a search: the order of its checks, `valid_request`,
//! number 3, the limits and the rooms.

use scene::{Answer, NODE, Outcome, Refusal, Scene, Verdict, WAITING, WAYPOINT};

use crate::Variant::{self, *};
use crate::boxes::Point;
use crate::graph::{Graph, same_point};
use crate::index;
use crate::search::Search;

/// Bytes of the rooms that a caller lends.
#[derive(Debug, Clone, Copy, PartialEq, Eq)]
pub struct Rooms {
    pub nodes: u64,
    pub frontier: u64,
    pub index: u64,
    pub output: u64,
}

impl Rooms {
    /// "Node or frontier room under node_budget records, output under
    /// node_budget + 1" are too small, and so is an index room under "twice the
    /// budget" (02, No. 7): these are just large enough.
    pub fn least(node_budget: u64) -> Self {
        Self {
            nodes: NODE as u64 * node_budget,
            frontier: WAITING as u64 * node_budget,
            index: index::least_bytes(node_budget) as u64,
            output: WAYPOINT as u64 * (node_budget + 1),
        }
    }

    /// Rooms for a budget, of which one is a byte too short, with its name.
    pub fn short(node_budget: u64) -> [(&'static str, Self); 3] {
        let least = Self::least(node_budget);
        [
            (
                "node room",
                Self {
                    nodes: least.nodes.saturating_sub(1),
                    ..least
                },
            ),
            (
                "frontier room",
                Self {
                    frontier: least.frontier.saturating_sub(1),
                    ..least
                },
            ),
            (
                "output",
                Self {
                    output: least.output - 1,
                    ..least
                },
            ),
        ]
    }

    /// "5", of an index room also where it is longer and of a wrong size.
    fn no_room(&self, node_budget: u64, edit: Variant) -> bool {
        self.no_records(node_budget, edit) || index::wrong_size(self.index as usize, node_budget)
    }

    /// "5" of the rooms of records. "Rooms are counted in the new sizes" (02,
    /// No. 5).
    pub(crate) fn no_records(&self, node_budget: u64, edit: Variant) -> bool {
        let node = match edit {
            RoomOfOldNodes => 56,
            _ => NODE as u64,
        };
        let waypoint = match edit {
            RoomOfOldWaypoints => 40,
            _ => WAYPOINT as u64,
        };
        self.nodes / node < node_budget
            || self.frontier / (WAITING as u64) < node_budget
            || self.output / waypoint < node_budget + 1
    }
}

/// The answer to a scene whose caller lends enough room.
pub fn search(scene: &Scene, edit: Variant) -> Verdict {
    search_in(
        scene,
        &Rooms::least(scene.request.node_budget.min(4096)),
        edit,
    )
}

/// "Search order: 3; `valid_request` (else 1); 4; 5; goal in range, start
/// standable, goal standable (else 1); budget 0 (2); search."
pub fn search_in(scene: &Scene, rooms: &Rooms, edit: Variant) -> Verdict {
    let no_room = || rooms.no_room(scene.request.node_budget, edit);
    match refused(scene, &no_room, edit) {
        Some(1) => return Ok(Answer::unbegun(Outcome::Unreachable)),
        Some(number) => return Err(Refusal { number, record: 0 }),
        None => {}
    }
    if let Some(outcome) = unbegun(scene, edit) {
        return Ok(Answer::unbegun(outcome));
    }
    Ok(Search::begin(Graph { scene, edit }).run())
}

/// "3; `valid_request` (else 1); 4; 5": the first of these numbers that a call
/// draws, if it does.
pub(crate) fn refused(scene: &Scene, no_room: &dyn Fn() -> bool, edit: Variant) -> Option<u32> {
    let order = match edit {
        LimitsBeforeRequest => [3, 4, 1, 5],
        _ => [3, 1, 4, 5],
    };
    let draws = |number: &u32| draws(*number, scene, no_room, edit);
    order.into_iter().find(draws)
}

/// Whether a call draws 3, 1, 4 or 5.
pub(crate) fn draws(number: u32, scene: &Scene, no_room: &dyn Fn() -> bool, edit: Variant) -> bool {
    match number {
        3 => bad_world(scene),
        1 => !valid_request(scene, edit),
        4 => too_large(scene, edit),
        _ => no_room(),
    }
}

/// "Goal in range, start standable, goal standable (else 1); budget 0 (2)": the
/// outcome of a search that does not begin.
pub(crate) fn unbegun(scene: &Scene, edit: Variant) -> Option<Outcome> {
    let request = &scene.request;
    if edit == BudgetZeroFirst && request.node_budget == 0 {
        return Some(Outcome::BudgetExceeded);
    }
    let graph = Graph { scene, edit };
    if !(edit == GoalRangeUnread || graph.in_range(request.goal))
        || !(edit == StartUnread || graph.standable(request.start))
        || !(edit == GoalUnread || graph.standable(request.goal))
    {
        return Some(Outcome::Unreachable);
    }
    let at_goal = same_point(request.start, request.goal, edit);
    if request.node_budget == 0 && !(edit == StartAtGoalBeforeBudget && at_goal) {
        return Some(match edit {
            BudgetZeroUnreachable => Outcome::Unreachable,
            _ => Outcome::BudgetExceeded,
        });
    }
    None
}

/// Number 3 for tables that are numbers: "a size above 256, cell table not 8
/// bytes a cell, .. count above 16, first + count above the boxes, a box off
/// its rule".
pub fn bad_world(scene: &Scene) -> bool {
    let tables = &scene.tables;
    let sizes = tables.window.sizes.map(u64::from);
    let boxes = tables.boxes.len() as u64;
    sizes.iter().any(|&size| size > 256)
        || tables.cells.len() as u64 != sizes.iter().product::<u64>()
        || tables
            .shapes
            .iter()
            .any(|&(first, count)| count > 16 || u64::from(first) + u64::from(count) > boxes)
        || tables.boxes.iter().any(|numbers| {
            // "Finite, min ≤ max, each from -16 to 16."
            !numbers.iter().all(|n| (-16.0..=16.0).contains(n))
                || !(0..3).all(|axis| numbers[axis] <= numbers[axis + 3])
        })
}

/// "`valid_request`: all numbers finite; width and height above 0; range, both
/// steps, jump and drop at least 0; every start and goal coordinate smaller in
/// size than 2147483647 - (max_range + width + height + 4), itself above 0."
pub fn valid_request(scene: &Scene, edit: Variant) -> bool {
    let (request, body) = (&scene.request, &scene.body);
    let above_zero = |n: f64, unread: Variant| n.is_finite() && (edit == unread || n > 0.0);
    let at_least_zero = |n: f64, sign_unread: Variant, finity_unread: Variant| {
        (n.is_finite() || edit == finity_unread && n == f64::INFINITY)
            && (edit == sign_unread || n >= 0.0)
    };
    let ends = [request.start, request.goal].concat();
    if !ends.iter().all(|n| n.is_finite())
        || !above_zero(body.width, WidthSignUnread)
        || !above_zero(body.height, HeightSignUnread)
        || !(request.max_range.is_finite() && (edit == RangeSignUnread || request.max_range >= 0.0))
        || !at_least_zero(request.step_height, StepSignUnread, StepFinityUnread)
        || !at_least_zero(body.step_height, BodyStepSignUnread, BodyStepFinityUnread)
        || !at_least_zero(request.jump_height, JumpSignUnread, JumpFinityUnread)
        || !at_least_zero(request.max_drop, DropSignUnread, DropFinityUnread)
    {
        return false;
    }
    let margin = match edit {
        MarginWithoutFour => request.max_range + body.width + body.height,
        MarginFromFour => 4.0 + body.height + body.width + request.max_range,
        _ => request.max_range + body.width + body.height + 4.0,
    };
    let limit = 2147483647.0 - margin;
    let small = |n: f64| match edit {
        LimitIncluded => n.abs() <= limit,
        SizeWithSign => n < limit,
        _ => n.abs() < limit,
    };
    let near = |[x, y, z]: Point| small(x) && small(y) && (edit == SizeOfZUnread || small(z));
    limit > 0.0
        && (edit == StartSizeUnread || near(request.start))
        && (edit == GoalSizeUnread || near(request.goal))
}

/// Number 4: "max_range > 64, width > 8, height > 16 or node_budget > 4,096".
pub fn too_large(scene: &Scene, edit: Variant) -> bool {
    let (request, body) = (&scene.request, &scene.body);
    request.max_range > 64.0
        || body.width > 8.0
        || body.height > 16.0
        || request.node_budget > 4096
        || edit == RangeOf64TooLarge && request.max_range == 64.0
        || edit == WidthOf8TooLarge && body.width == 8.0
        || edit == HeightOf16TooLarge && body.height == 16.0
}
