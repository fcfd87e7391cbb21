//! Why a step is refused, and the words of the interface's numbers.

use std::fmt::{self, Display, Formatter};

use crate::{EDGE, Movement, raw};

/// Why there is no edge, or why a list is no route. The numbers are the
/// interface's, in the order in which the reasons are judged: the first that is
/// so is told. Its `Display` is its words, as `crossing blocked`.
#[derive(Clone, Copy, Debug, PartialEq, Eq, Hash)]
pub enum Reason {
    /// The target is higher than a step or a jump reaches.
    TooHigh = 101,
    /// The target is lower than the body may drop.
    TooDeep = 102,
    /// The target is further than the range from the request's start, in x, in y
    /// or in z.
    TargetOutOfRange = 103,
    /// So is the point that the body crosses from: its own, raised by the lift.
    RaisedOutOfRange = 104,
    /// The body has no room at the target, or no ground.
    TargetNotStandable = 105,
    /// Something is in the way up.
    LiftBlocked = 106,
    /// Something is in the way across, at the raised height.
    CrossingBlocked = 107,
    /// Something is in the way from there to the target.
    SettleBlocked = 108,
    /// No ground carries the body all the way.
    Unsupported = 109,
    /// Of a list: the request is not valid.
    InvalidRequest = 111,
    /// It is empty, has a partial record, or has a movement above 3.
    BadList = 112,
    GoalOutOfRange = 113,
    StartNotStandable = 114,
    GoalNotStandable = 115,
    /// Its first record is not the start, Walk, with lift 0 and no door.
    WrongStart = 116,
    /// Of a pair: there is an edge, but it is no graph step nor, at the last
    /// pair, a connector.
    NotAStep = 117,
    /// Of a pair: the movement, the lift or the door is not its edge's.
    WrongLabel = 118,
    /// Its last point is not the goal.
    WrongEnd = 119,
}

impl Reason {
    /// All of them, in the order of their numbers.
    pub const ALL: [Self; 18] = [
        Self::TooHigh,
        Self::TooDeep,
        Self::TargetOutOfRange,
        Self::RaisedOutOfRange,
        Self::TargetNotStandable,
        Self::LiftBlocked,
        Self::CrossingBlocked,
        Self::SettleBlocked,
        Self::Unsupported,
        Self::InvalidRequest,
        Self::BadList,
        Self::GoalOutOfRange,
        Self::StartNotStandable,
        Self::GoalNotStandable,
        Self::WrongStart,
        Self::NotAStep,
        Self::WrongLabel,
        Self::WrongEnd,
    ];

    /// The interface's number.
    pub fn number(self) -> u64 {
        self as u64
    }

    /// The reason with a number of the interface.
    pub fn numbered(number: u64) -> Option<Self> {
        Self::ALL.into_iter().find(|reason| reason.number() == number)
    }

    /// Whether it is told of one pair of a list, whose later point's place then
    /// goes with it.
    pub fn is_of_a_pair(self) -> bool {
        matches!(self.number(), 101..=109 | 117 | 118)
    }
}

impl Display for Reason {
    fn fmt(&self, f: &mut Formatter<'_>) -> fmt::Result {
        f.write_str(&word(self.number()))
    }
}

impl std::error::Error for Reason {}

/// What a walk-back answers.
#[derive(Clone, Copy, Debug, PartialEq, Eq)]
pub enum WalkBack {
    /// The list is a route.
    Yes,
    /// It is none: the first reason, and with a pair's reason the place of the
    /// pair's later point, counted from 0 in the list.
    No(Reason, Option<usize>),
}

impl Display for WalkBack {
    /// `a route`, or as `no route: too high at point 2`.
    fn fmt(&self, f: &mut Formatter<'_>) -> fmt::Result {
        match self {
            Self::Yes => f.write_str("a route"),
            Self::No(reason, None) => write!(f, "no route: {reason}"),
            Self::No(reason, Some(place)) => write!(f, "no route: {reason} at point {place}"),
        }
    }
}

/// No number's words are longer than so many bytes.
pub const WORD: usize = 32;

/// A number of the interface in words, in lower case; empty for one that has
/// none. Those of 0 to 9 are 01's names: as an answer of the walk-back 0 is yes,
/// and of an edge 1 is an invalid request.
pub fn word(number: u64) -> String {
    let mut bytes = [0; WORD];
    let length = raw::word(number, &mut bytes) as usize;
    bytes[..length].iter().map(|&byte| char::from(byte)).collect()
}

impl Display for Movement {
    /// `walk`, `step`, `jump` or `drop`.
    fn fmt(&self, f: &mut Formatter<'_>) -> fmt::Result {
        f.write_str(&word(EDGE + *self as u64))
    }
}
