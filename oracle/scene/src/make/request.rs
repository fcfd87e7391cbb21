//! The request and the body.

use super::{Draft, E, nudge};
use crate::random::Random;
use crate::record::Record;

impl Draft {
    pub(super) fn request(&mut self) -> Record {
        let start = self.point();
        let goal = match self.random.below(20) {
            0 => start,
            // In line with the start, so that estimates tie.
            1..=5 => self.in_line(start),
            _ => self.point(),
        };
        let max_range = self.range(start, goal);
        let random = &mut self.random;
        let budget = match self.kind {
            "budgets" => random.below(24),
            "mazes" | "open" => random.one_of(&[20, 64, 128, 256, 512]),
            _ if random.once_in(4) => random.below(40),
            _ => 512,
        };
        if self.kind == "invalid" && random.once_in(2) {
            return self.invalid_request(start, goal, max_range);
        }
        Record::Request {
            start,
            goal,
            max_range,
            budget: budget as u32,
        }
    }

    /// Mostly 16; among borders also exactly as far as the goal, or a bit less
    /// or more.
    fn range(&mut self, start: [f64; 3], goal: [f64; 3]) -> f64 {
        let random = &mut self.random;
        let usual = match random.below(6) {
            0 => random.one_of(&[0.0, 1.0, 2.0, 4.0, 64.0, 1.5]),
            _ => 16.0,
        };
        if self.kind != "borders" || random.once_in(2) {
            return usual;
        }
        let far = (0..3)
            .map(|axis| (goal[axis] - start[axis]).abs())
            .fold(0.0, f64::max);
        let near = (far + random.one_of(&[0.0, -E, -2.0 * E, -1.5 * E, E])).max(0.0);
        nudge(near, random.from_to(-2, 2)).max(0.0)
    }

    fn invalid_request(&mut self, start: [f64; 3], goal: [f64; 3], range: f64) -> Record {
        let random = &mut self.random;
        let (mut start, mut goal, mut max_range) = (start, goal, range);
        let axis = random.below(3) as usize;
        match random.below(4) {
            0 => start[axis] = odd(random),
            1 => goal[axis] = odd(random),
            2 => max_range = odd(random),
            _ => max_range = random.one_of(&[64.0, 64.0f64.next_up(), 65.0, -0.0]),
        }
        Record::Request {
            start,
            goal,
            max_range,
            budget: random.one_of(&[0, 1, 64, 512]),
        }
    }

    pub(super) fn body(&mut self) -> Record {
        let random = &mut self.random;
        let steps = [0.5, 0.5, 0.5625, 0.6, 1.0, 0.0];
        let usual = random.one_of(&[
            (0.625, 1.75),
            (0.6, 1.8),
            (0.6, 0.6),
            (0.9, 0.9),
            (0.9, 1.4),
            (0.375, 0.5),
        ]);
        let (width, height) = match self.kind {
            "bodies" => (
                random.one_of(&[0.001, 0.1, 0.5, 1.0, 1.0 + E, 1.4, 2.0, 3.0, 8.0, 1e-12]),
                random.one_of(&[0.001, 0.1, 0.5, 1.0, 2.0, 2.7, 4.0, 16.0]),
            ),
            _ => usual,
        };
        let mut numbers = [
            random.one_of(&steps),
            random.one_of(&[0.0, 1.0, 1.25, 1.252203352512, 2.0, 0.5]),
            random.one_of(&[3.0, 3.0, 1.0, 0.5, 0.0, 8.0]),
            width,
            height,
            random.one_of(&steps),
        ];
        self.unsettle(&mut numbers);
        Record::Body { numbers }
    }

    /// What a kind changes in step, jump, drop, width, height, body step.
    fn unsettle(&mut self, numbers: &mut [f64; 6]) {
        let random = &mut self.random;
        match self.kind {
            "borders" | "ties" => {
                for number in &mut numbers[..3] {
                    if random.once_in(3) {
                        *number = (*number + random.one_of(&[E, -E, 2.0 * E])).max(0.0);
                        *number = nudge(*number, random.from_to(-2, 2)).max(0.0);
                    }
                }
            }
            "zeros" if random.once_in(2) => numbers[random.below(3) as usize] = -0.0,
            "invalid" if random.once_in(2) => {
                numbers[random.below(6) as usize] = odd(random);
            }
            _ => {}
        }
    }
}

/// A number that a request or a body seldom has.
fn odd(random: &mut Random) -> f64 {
    random.one_of(&[
        f64::NAN,
        f64::INFINITY,
        f64::NEG_INFINITY,
        -1.0,
        -1.0e-300,
        -0.0,
        0.0,
        1.0e300,
        8.0,
        8.0f64.next_up(),
        16.0f64.next_up(),
        2147483647.0,
        2147483600.0,
        -2147483600.0,
        5.0e-324,
    ])
}
