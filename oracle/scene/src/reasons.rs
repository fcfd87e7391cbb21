//! What the edge check and the walk-back answer by 02's No. 3: numbers of our
//! own, each with its words.

/// The walk-back's number for a route.
pub const YES: u64 = 0;

/// What the walk-back answers: 0 for a route, 3, 4, or the number of its first
/// reason; with a pair's reason the place of the pair's later point, counted
/// from 0 in the list.
#[derive(Debug, Clone, Copy, PartialEq, Eq)]
pub struct Walked {
    pub number: u64,
    pub place: Option<u64>,
}

impl Walked {
    /// A number that no place goes with.
    pub fn told(number: u64) -> Self {
        Self {
            number,
            place: None,
        }
    }

    /// The reason of the pair whose later point has this place.
    pub fn at(number: u64, place: usize) -> Self {
        Self {
            number,
            place: Some(place as u64),
        }
    }
}

/// The words of a number that the edge check or the walk-back answers.
pub fn words(number: u64) -> &'static str {
    match number {
        YES => "a route",
        3 => "bad world",
        4 => "too large",
        101 => "too high",
        102 => "too deep",
        103 => "target out of range",
        104 => "raised point out of range",
        105 => "target not standable",
        106 => "lift blocked",
        107 => "crossing blocked",
        108 => "settle blocked",
        109 => "segment unsupported",
        1 | 111 => "invalid request",
        112 => "bad list",
        113 => "goal out of range",
        114 => "start not standable",
        115 => "goal not standable",
        116 => "wrong start",
        117 => "not a graph step",
        118 => "wrong movement or lift",
        119 => "wrong end",
        130 => "walk",
        131 => "step",
        132 => "jump",
        133 => "drop",
        _ => "a number of neither call",
    }
}
