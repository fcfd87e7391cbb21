//! 02's No. 3, the walk-back's first reason: "invalid request, bad list (judged
//! after 4), goal out of range, start not standable, goal not standable, wrong
//! start; then for each pair in order the edge's reason, not a graph step (nor,
//! at the last pair, a connector), wrong movement or lift; then wrong end. With
//! a pair's reason goes its later point's place."

use scene::{NO_DOOR, Request, Scene, Tables, WAYPOINT, Walked, Waypoint, YES};

use crate::Variant::{self, *};
use crate::boxes::Point;
use crate::graph::{E, Graph, same_point};
use crate::reason::Reason::{self, *};
use crate::request::{bad_world, too_large, valid_request};

/// What the walk-back answers to a list in 48-byte records.
pub fn walk_back(scene: &Scene, list: &[u8], edit: Variant) -> Walked {
    let graph = Graph { scene, edit };
    let walk = Walk::new(graph, list);
    for judged in order(edit) {
        if walk.fails(judged) {
            return walk.told(judged);
        }
    }
    match walk.first_pair() {
        Some((reason, place)) => Walked::at(reason as u64, place),
        None if !walk.begins() => walk.told(Judged::Why(WrongStart)),
        None if walk.ends() => Walked::told(YES),
        None if edit == ToldPlaceOfTheEnd => Walked::at(WrongEnd as u64, walk.points.len() - 1),
        None => walk.told(Judged::Why(WrongEnd)),
    }
}

/// What is judged before the pairs: 3, 4, or a reason.
#[derive(Debug, Clone, Copy, PartialEq, Eq)]
enum Judged {
    World,
    Limits,
    Why(Reason),
}

/// "3; `valid_request` ..; 4 ..", and 02's reasons in their places.
fn order(edit: Variant) -> Vec<Judged> {
    let mut order = vec![
        Judged::World,
        Judged::Why(InvalidRequest),
        Judged::Limits,
        Judged::Why(BadList),
        Judged::Why(GoalOutOfRange),
        Judged::Why(StartNotStandable),
        Judged::Why(GoalNotStandable),
        Judged::Why(WrongStart),
    ];
    match edit {
        ToldLimitsBeforeRequest => order.swap(1, 2),
        ToldListBeforeLimits => order.swap(2, 3),
        ToldListBeforeRequest => order[1..4].rotate_right(1),
        ToldListAfterGoalRange => order.swap(3, 4),
        ToldListAfterEnds => order[3..7].rotate_left(1),
        ToldListAfterStart => order[3..8].rotate_left(1),
        ToldStartBeforeGoalRange => order.swap(4, 5),
        ToldGoalBeforeStart => order.swap(5, 6),
        ToldWrongStartBeforeGoal => order.swap(6, 7),
        ToldPairsBeforeStart => order.truncate(7),
        ToldEndBeforePairs => order.push(Judged::Why(WrongEnd)),
        _ => {}
    }
    order
}

/// -0.0 as 0: a list's points are read by that rule.
fn canonical(feet: Point) -> Point {
    feet.map(|n| if n == 0.0 { 0.0 } else { n })
}

/// A list on a graph.
struct Walk<'a> {
    graph: Graph<'a>,
    /// The whole records.
    points: Vec<Waypoint>,
    /// Whether bytes are left behind them.
    partial: bool,
}

impl<'a> Walk<'a> {
    fn new(graph: Graph<'a>, list: &[u8]) -> Self {
        let movement = |word: u64| match graph.edit {
            ToldMovementHalfRead => word & 0xffff_ffff,
            _ => word,
        };
        let feet = |feet: Point| match graph.edit {
            ToldZeroSignCounts => feet,
            _ => canonical(feet),
        };
        let waypoint = |record: &[u8]| {
            let read = Waypoint::from_bytes(record);
            Waypoint {
                feet: feet(read.feet),
                movement: movement(read.movement),
                ..read
            }
        };
        let records = list.chunks_exact(WAYPOINT);
        Self {
            partial: !records.remainder().is_empty(),
            points: records.map(waypoint).collect(),
            graph,
        }
    }

    fn is(&self, edit: Variant) -> bool {
        self.graph.is(edit)
    }

    fn same(&self, a: Point, b: Point) -> bool {
        let edit = match self.graph.edit {
            ToldZeroSignCounts => ZeroSignCounts,
            _ => ReadAsWritten,
        };
        same_point(a, b, edit)
    }

    fn told(&self, judged: Judged) -> Walked {
        Walked::told(match judged {
            Judged::World => 3,
            Judged::Limits => 4,
            Judged::Why(reason) => reason.told(self.graph.edit) as u64,
        })
    }

    fn fails(&self, judged: Judged) -> bool {
        let scene = self.graph.scene;
        let request = &scene.request;
        match judged {
            Judged::World => bad_world(scene),
            Judged::Limits => self.too_large(),
            Judged::Why(InvalidRequest) => !valid_request(scene, ReadAsWritten),
            Judged::Why(BadList) => self.bad_list(),
            Judged::Why(GoalOutOfRange) => !self.graph.in_range(request.goal),
            Judged::Why(StartNotStandable) => !self.graph.standable(request.start),
            Judged::Why(GoalNotStandable) => !self.graph.standable(request.goal),
            Judged::Why(WrongStart) => !self.begins(),
            Judged::Why(_) => !self.ends(),
        }
    }

    /// "4, the budget not read."
    fn too_large(&self) -> bool {
        let Scene { request, body, .. } = *self.graph.scene;
        let unread = Scene {
            request: Request {
                node_budget: 0,
                ..request
            },
            body,
            tables: Tables::default(),
        };
        too_large(&unread, ReadAsWritten)
    }

    /// "An empty list, a partial record or a movement above 3."
    fn bad_list(&self) -> bool {
        let looked = match self.graph.edit {
            ToldMovementAtItsPair => 0..0,
            ToldMovementOfTheStart => 1.min(self.points.len())..self.points.len(),
            _ => 0..self.points.len(),
        };
        let empty = self.points.is_empty() && !self.is(ToldEmptyIsWrongStart);
        empty
            || self.partial && !self.is(ToldPartialUnread)
            || self.points[looked].iter().any(|point| point.movement > 3)
    }

    /// "The start first (Walk, lift 0)", and "the start has none" (02, No. 5).
    fn begins(&self) -> bool {
        let start = self.graph.scene.request.start;
        self.points.first().is_some_and(|first| {
            let lift = match self.graph.edit {
                ToldStartLiftByBits => first.lift.to_bits() == 0,
                ToldStartLiftUnread => true,
                _ => first.lift == 0.0,
            };
            let walks = first.movement == 0 || self.is(ToldStartMovementUnread);
            let doorless = self.same_door(first.door, NO_DOOR) || self.is(ToldStartDoorUnread);
            self.same(first.feet, start) && walks && lift && doorless
        })
    }

    /// "The last point equal to the goal."
    fn ends(&self) -> bool {
        let goal = self.graph.scene.request.goal;
        self.is(ToldEndUnread)
            || self
                .points
                .last()
                .is_some_and(|last| self.same(last.feet, goal))
    }

    /// "For each pair in order": the first that has a reason, with its later
    /// point's place.
    fn first_pair(&self) -> Option<(Reason, usize)> {
        let mut places = 1..self.points.len();
        let all = |place: usize| Some((self.pair(place)?, place));
        let (reason, place) = match self.graph.edit {
            ToldLastPair => places.rev().find_map(all),
            ToldPairsByReason => {
                let edge = |place: usize| Some((self.edge(place).err()?, place));
                places
                    .clone()
                    .find_map(edge)
                    .or_else(|| places.find_map(all))
            }
            _ => places.find_map(all),
        }?;
        let place = match self.graph.edit {
            ToldPlaceOneMore => place + 1,
            ToldPlaceOneLess => place - 1,
            _ => place,
        };
        Some((reason, place))
    }

    /// "The edge's reason, not a graph step (nor, at the last pair, a
    /// connector), wrong movement or lift."
    fn pair(&self, place: usize) -> Option<Reason> {
        let why = |reason: Reason| reason.told(self.graph.edit);
        let stepless = || (!self.stepped(place)).then(|| why(NotAStep));
        let early = match self.graph.edit {
            ToldStepBeforeEdge => stepless(),
            _ => None,
        };
        if early.is_some() {
            return early;
        }
        let edge = match self.edge(place) {
            Ok(edge) => edge,
            Err(reason) => return Some(reason),
        };
        let mislabelled = || (!self.labelled(place, &edge)).then(|| why(WrongLabel));
        match self.graph.edit {
            ToldLabelBeforeStep => mislabelled().or_else(stepless),
            _ => stepless().or_else(mislabelled),
        }
    }

    /// The edge of a pair.
    fn edge(&self, place: usize) -> Result<Waypoint, Reason> {
        let (from, to) = (self.points[place - 1].feet, self.points[place].feet);
        match self.graph.edit {
            ToldEdgeBackwards => self.graph.edge_check(to, from),
            ToldEdgeFromStart => self.graph.edge_check(self.points[0].feet, to),
            _ => self.graph.edge_check(from, to),
        }
    }

    /// A graph step leads from the one to the other, or "at the last pair, a
    /// connector".
    fn stepped(&self, place: usize) -> bool {
        let (from, to) = (self.points[place - 1].feet, self.points[place].feet);
        let leads = |step: &Waypoint| {
            let door = step.door == self.points[place].door || !self.is(ToldDoorNotAStep);
            self.same(step.feet, to) && door
        };
        let last = place + 1 == self.points.len() || self.is(ToldConnectorAnywhere);
        let near = (0..3).all(|axis| axis == 1 || (from[axis] - to[axis]).abs() <= 1.5);
        self.graph.steps(from, &|_| false).iter().any(leads)
            || match self.graph.edit {
                ToldConnectorNever => false,
                ToldConnectorToAnyPoint => last && near,
                _ => last && self.graph.connector(from).as_ref().is_some_and(leads),
            }
    }

    /// It carries its edge's movement and lift, which "compare as numbers", and
    /// its door: "a route must carry the right door too (else No. 3's wrong
    /// movement or lift)".
    fn labelled(&self, place: usize, edge: &Waypoint) -> bool {
        let point = &self.points[place];
        let lift = match self.graph.edit {
            ToldLiftUnread => true,
            ToldLiftByBits => point.lift.to_bits() == edge.lift.to_bits(),
            ToldLiftWithinE => (point.lift - edge.lift).abs() <= E,
            _ => point.lift == edge.lift,
        };
        let movement = point.movement == edge.movement || self.is(ToldMovementUnread);
        let door = self.same_door(point.door, edge.door) || self.is(ToldDoorUnread);
        movement && lift && door
    }

    fn same_door(&self, a: u64, b: u64) -> bool {
        match self.graph.edit {
            ToldDoorHalfRead => a as u32 == b as u32,
            _ => a == b,
        }
    }
}
