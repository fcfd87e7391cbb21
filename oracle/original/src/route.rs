//! 01's Route, over the original's checks and with doors (02, No. 5), and the
//! walk-back's answer with its first reason (No. 3).

use scene::{NO_DOOR, Scene, WAYPOINT, Walked, Waypoint, YES};

use crate::search::{Checks, valid_request};

/// The numbers of the walk-back's own reasons, in 02's order.
const INVALID_REQUEST: u64 = 111;
const BAD_LIST: u64 = 112;
const GOAL_OUT_OF_RANGE: u64 = 113;
const START_NOT_STANDABLE: u64 = 114;
const GOAL_NOT_STANDABLE: u64 = 115;
const WRONG_START: u64 = 116;
const NOT_A_STEP: u64 = 117;
const WRONG_LABEL: u64 = 118;
const WRONG_END: u64 = 119;

/// What the walk-back answers to a list in 48-byte records.
pub fn walk_back(scene: &Scene, list: &[u8]) -> Walked {
    Walks::new(scene).walk_back(list)
}

/// The walk-back on a scene, for any number of lists.
pub struct Walks<'a> {
    scene: &'a Scene,
    checks: Checks<'a>,
    /// What is told whatever the list.
    refused: Option<u64>,
}

impl<'a> Walks<'a> {
    pub fn new(scene: &'a Scene) -> Self {
        Self {
            scene,
            checks: Checks::new(scene),
            refused: refused(scene),
        }
    }

    /// What no list changes; a bad list; the ends; then pair by pair; the end.
    pub fn walk_back(&mut self, list: &[u8]) -> Walked {
        if let Some(number) = self.refused {
            return Walked::told(number);
        }
        let records = list.chunks_exact(WAYPOINT);
        let points: Vec<Waypoint> = records.map(Waypoint::from_bytes).collect();
        let whole = list.len().is_multiple_of(WAYPOINT) && points.iter().all(|at| at.movement <= 3);
        let (Some(first), Some(last), true) = (points.first(), points.last(), whole) else {
            return Walked::told(BAD_LIST);
        };
        if let Some(number) = self.ends(first) {
            return Walked::told(number);
        }
        for place in 1..points.len() {
            let at_end = place + 1 == points.len();
            if let Some(number) = self.pair(points[place - 1].feet, &points[place], at_end) {
                return Walked::at(number, place);
            }
        }
        let there = same_point(last.feet, self.scene.request.goal);
        Walked::told(if there { YES } else { WRONG_END })
    }

    /// Why a list that begins so is no route, whatever follows.
    fn ends(&mut self, first: &Waypoint) -> Option<u64> {
        let [start, goal] = [self.scene.request.start, self.scene.request.goal];
        if !self.checks.in_range(goal) {
            return Some(GOAL_OUT_OF_RANGE);
        }
        if !self.checks.standable(start) {
            return Some(START_NOT_STANDABLE);
        }
        if !self.checks.standable(goal) {
            return Some(GOAL_NOT_STANDABLE);
        }
        let walks = first.movement == 0 && first.lift == 0.0 && first.door == NO_DOOR;
        let begins = same_point(first.feet, start) && walks;
        (!begins).then_some(WRONG_START)
    }

    /// Why a pair is none of the graph's. One that is has no reason; of another
    /// the edge's comes first, and where it has an edge, that edge's movement,
    /// lift and door tell whether they alone are wrong.
    fn pair(&mut self, from: [f64; 3], next: &Waypoint, at_end: bool) -> Option<u64> {
        if self.joins(from, next, at_end) {
            return None;
        }
        Some(match self.checks.edge_check(from, next.feet) {
            Err(number) => number,
            Ok(own) if self.joins(from, &own, at_end) => WRONG_LABEL,
            Ok(_) => NOT_A_STEP,
        })
    }

    /// Whether a graph step leads from a point to the list's next, or at the end
    /// of the list the connector.
    fn joins(&mut self, from: [f64; 3], next: &Waypoint, at_end: bool) -> bool {
        let is_next = |point: &Waypoint| same_waypoint(point, next);
        let step = self.checks.steps(from).iter().any(is_next);
        step || (at_end && self.checks.connector(from).as_ref().is_some_and(is_next))
    }
}

/// "3; `valid_request` ..; 4, the budget not read."
fn refused(scene: &Scene) -> Option<u64> {
    if scene::bad_world(&scene.tables.raw()) {
        return Some(3);
    }
    if !valid_request(scene) {
        return Some(INVALID_REQUEST);
    }
    let unread = scene::Request {
        node_budget: 0,
        ..scene.request
    };
    scene::too_large(&unread, &scene.body).then_some(4)
}

/// "Equal bits, with -0.0 as 0."
fn same_point(a: [f64; 3], b: [f64; 3]) -> bool {
    let key = |n: f64| if n == 0.0 { 0 } else { n.to_bits() };
    a.map(key) == b.map(key)
}

/// Whether an edge's answer is the list's next point; lifts compare as
/// numbers.
fn same_waypoint(a: &Waypoint, b: &Waypoint) -> bool {
    let labels = a.movement == b.movement && a.lift == b.lift && a.door == b.door;
    same_point(a.feet, b.feet) && labels
}
