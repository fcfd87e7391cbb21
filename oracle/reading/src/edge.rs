//! 01's "Edge".

use scene::Waypoint;

use crate::Variant::*;
use crate::boxes::{Area, Point, X, Y, Z, minus};
use crate::doors::Corridor;
use crate::graph::{E, Graph};
use crate::reason::Reason::{self, *};

const WALK: u64 = 0;
const STEP: u64 = 1;
const JUMP: u64 = 2;
const DROP: u64 = 3;

impl Graph<'_> {
    /// "Step = the smaller step height."
    pub(crate) fn step(&self) -> f64 {
        let (asked, own) = (self.scene.request.step_height, self.scene.body.step_height);
        match self.edit {
            StepOfRequestOnly => asked,
            StepOfBodyOnly => own,
            _ => asked.min(own),
        }
    }

    /// The movement and lift for a difference in y, if there is one. What is no
    /// number neither rises nor falls.
    fn movement(&self, dy: f64) -> Result<(u64, f64), Reason> {
        let rises = match self.edit {
            RiseWithoutE => dy > 0.0,
            RiseAtE => dy >= E,
            _ => dy > E,
        };
        let falls = match self.edit {
            FallWithoutE => dy < 0.0,
            FallAtE => dy <= -E,
            _ => dy < -E,
        };
        if rises || dy.is_nan() && self.is(ToldNanTooHigh) {
            return self.climb(dy).ok_or(TooHigh);
        }
        if falls || dy.is_nan() && self.is(ToldNanTooDeep) {
            return self.fall(-dy).ok_or(TooDeep);
        }
        // "Otherwise Walk, lift the larger of dy and 0."
        let lift = match self.edit {
            WalkLiftZero => 0.0,
            WalkLiftDy => dy,
            WalkLiftKeepsZeroSign if dy == 0.0 => dy,
            _ if dy > 0.0 => dy,
            _ => 0.0,
        };
        Ok((WALK, lift))
    }

    /// "Step with lift dy if dy ≤ step + E, else Jump with lift jump_height if
    /// dy ≤ jump_height + E, else none."
    fn climb(&self, dy: f64) -> Option<(u64, f64)> {
        let (step, jump) = (self.step(), self.scene.request.jump_height);
        let as_step = match self.edit {
            StepWithoutE => dy <= step,
            StepAtEOut => dy < step + E,
            StepEOnTheRise => dy - E <= step,
            _ => dy <= step + E,
        };
        let as_jump = match self.edit {
            JumpWithoutE => dy <= jump,
            JumpAtEOut => dy < jump + E,
            JumpEOnTheRise => dy - E <= jump,
            _ => dy <= jump + E,
        };
        let (step_lift, jump_lift) = match self.edit {
            StepLiftedByStep => (step, jump),
            JumpLiftedByDy => (dy, dy),
            _ => (dy, jump),
        };
        if as_step && !(self.is(JumpBeforeStep) && as_jump) {
            return Some((STEP, step_lift));
        }
        as_jump.then_some((JUMP, jump_lift))
    }

    /// "Drop, lift 0, if at most max_drop + E, else none."
    fn fall(&self, depth: f64) -> Option<(u64, f64)> {
        let most = self.scene.request.max_drop;
        let as_drop = match self.edit {
            DropWithoutE => depth <= most,
            DropAtEOut => depth < most + E,
            DropEOnTheFall => depth - E <= most,
            _ => depth <= most + E,
        };
        let lift = match self.edit {
            DropLiftedByFall => depth,
            _ => 0.0,
        };
        as_drop.then_some((DROP, lift))
    }

    /// "Edge": the target with its movement and lift, if the body gets there.
    pub fn edge(&self, from: Point, to: Point) -> Option<Waypoint> {
        self.edge_check(from, to).ok()
    }

    /// "The edge check should answer its first reason" (02, No. 3).
    pub fn edge_check(&self, from: Point, to: Point) -> Result<Waypoint, Reason> {
        let moving = self.movement(to[Y] - from[Y]);
        let (movement, lift) = moving.unwrap_or((WALK, 0.0));
        let raised = self.raised(from, to, movement, lift);
        let corridor = self.corridor(from, to, movement, lift);
        let [rising, crossing, settling] = corridor;
        // "Then target and raised point in range, target standable, the lift,
        // crossing and settle areas clear, the segment supported."
        let passes = |reason: &Reason| match reason {
            TargetOutOfRange => self.is(TargetRangeUnread) || self.in_range(to),
            RaisedOutOfRange => self.is(RaisedRangeUnread) || self.in_range(raised),
            TargetNotStandable => self.is(TargetStandableUnread) || self.standable(to),
            LiftBlocked => self.is(LiftUnread) || self.clear(rising),
            CrossingBlocked => self.is(CrossingUnread) || self.clear(crossing),
            SettleBlocked => self.is(SettleUnread) || self.clear(settling),
            Unsupported => self.is(SegmentUnread) || self.supported(from, to),
            height => moving != Err(*height),
        };
        let mut reasons = Reason::of_edges(self.edit).into_iter();
        match reasons.find(|reason| !passes(reason)) {
            Some(reason) => Err(reason.told(self.edit)),
            None => Ok(Waypoint {
                feet: to,
                lift,
                movement,
                door: self.corridor_door(from, &corridor),
            }),
        }
    }

    /// The point from which an edge crosses.
    fn raised(&self, from: Point, to: Point, movement: u64, lift: f64) -> Point {
        let y = match self.edit {
            StepRaisedToTarget if movement == STEP => to[Y],
            _ => from[Y] + lift,
        };
        [from[X], y, from[Z]]
    }

    /// "The lift, crossing and settle areas."
    pub(crate) fn corridor(&self, from: Point, to: Point, movement: u64, lift: f64) -> Corridor {
        let raised = self.raised(from, to, movement, lift);
        let across = [to[X], raised[Y], to[Z]];
        [
            self.lift_area(from, raised, lift),
            self.crossing_area(from, raised, across),
            self.sweep(across, to),
        ]
    }

    /// The body at `from`, grown towards `to` by their difference.
    fn sweep(&self, from: Point, to: Point) -> Area {
        let body = self.body_at(from);
        match self.edit {
            // From one body to the other, instead of the body and a difference.
            SweepBetweenBodies => {
                let other = self.body_at(to);
                Area {
                    min: [X, Y, Z].map(|axis| body.min[axis].min(other.min[axis])),
                    max: [X, Y, Z].map(|axis| body.max[axis].max(other.max[axis])),
                }
            }
            _ => body.expand_towards(minus(to, from)),
        }
    }

    /// The body at `from`, grown upwards by the lift itself.
    fn lift_area(&self, from: Point, raised: Point, lift: f64) -> Area {
        match self.edit {
            LiftByDifference | SweepBetweenBodies => self.sweep(from, raised),
            _ => self.body_at(from).expand_towards([0.0, lift, 0.0]),
        }
    }

    fn crossing_area(&self, from: Point, raised: Point, across: Point) -> Area {
        match self.edit {
            CrossingAtFeet => self.sweep(from, [across[X], from[Y], across[Z]]),
            _ => self.sweep(raised, across),
        }
    }
}
