//! 02's No. 3, "Say why a step is refused": the reasons of the edge check and of
//! the walk-back, in its order.

use crate::Variant::{self, *};

/// Each with its number of our own.
#[derive(Debug, Clone, Copy, PartialEq, Eq)]
pub enum Reason {
    TooHigh = 101,
    TooDeep,
    TargetOutOfRange,
    RaisedOutOfRange,
    TargetNotStandable,
    LiftBlocked,
    CrossingBlocked,
    SettleBlocked,
    Unsupported,
    InvalidRequest = 111,
    BadList,
    GoalOutOfRange,
    StartNotStandable,
    GoalNotStandable,
    WrongStart,
    NotAStep,
    WrongLabel,
    WrongEnd,
}

use Reason::*;

/// "Too high, too deep, target out of range, raised point out of range, target
/// not standable, lift blocked, crossing blocked, settle blocked, segment
/// unsupported, in 01's order."
const OF_EDGES: [Reason; 9] = [
    TooHigh,
    TooDeep,
    TargetOutOfRange,
    RaisedOutOfRange,
    TargetNotStandable,
    LiftBlocked,
    CrossingBlocked,
    SettleBlocked,
    Unsupported,
];

impl Reason {
    /// An edge's reasons in the order in which they are judged.
    pub(crate) fn of_edges(edit: Variant) -> [Reason; 9] {
        let mut order = OF_EDGES;
        let first = match edit {
            ToldRangeBeforeHeight => {
                // Before both: too high and too deep are one check.
                order[..3].rotate_right(1);
                return order;
            }
            ToldRaisedBeforeTarget => 2,
            ToldStandingBeforeRaised => 3,
            ToldLiftBeforeStanding => 4,
            ToldCrossingBeforeLift => 5,
            ToldSettleBeforeCrossing => 6,
            ToldSegmentBeforeSettle => 7,
            _ => return order,
        };
        order.swap(first, first + 1);
        order
    }

    /// The reason that is told for this one: itself, unless a variant exchanges
    /// it with the one beside it.
    pub(crate) fn told(self, edit: Variant) -> Reason {
        let (a, b) = match edit {
            ToldHighForDeep => (TooHigh, TooDeep),
            ToldDeepForTarget => (TooDeep, TargetOutOfRange),
            ToldTargetForRaised => (TargetOutOfRange, RaisedOutOfRange),
            ToldRaisedForStanding => (RaisedOutOfRange, TargetNotStandable),
            ToldStandingForLift => (TargetNotStandable, LiftBlocked),
            ToldLiftForCrossing => (LiftBlocked, CrossingBlocked),
            ToldCrossingForSettle => (CrossingBlocked, SettleBlocked),
            ToldSettleForSegment => (SettleBlocked, Unsupported),
            ToldRequestForList => (InvalidRequest, BadList),
            ToldListForGoalRange => (BadList, GoalOutOfRange),
            ToldGoalRangeForStart => (GoalOutOfRange, StartNotStandable),
            ToldStartForGoal => (StartNotStandable, GoalNotStandable),
            ToldGoalForWrongStart => (GoalNotStandable, WrongStart),
            ToldWrongStartForStep => (WrongStart, NotAStep),
            ToldStepForLabel => (NotAStep, WrongLabel),
            ToldLabelForEnd => (WrongLabel, WrongEnd),
            _ => return self,
        };
        match self {
            _ if self == a => b,
            _ if self == b => a,
            _ => self,
        }
    }
}
