//! Both searches of one world, and the rounds in which they take turns.

use std::hint::black_box;

use original::Navigator;
use scene::{Answer, Scene};

use crate::clock::{Time, timed};
use crate::proved::Proved;

/// One of the four things that a round times.
#[derive(Clone, Copy)]
pub enum Turn {
    /// The proved search in rooms as its last search left them.
    Kept,
    /// The proved search, all four rooms zeroed first, within the time.
    Cleared,
    /// The original in scratch and output as its last search left them, which
    /// it empties itself.
    Used,
    /// The original in new scratch and output, which it has to grow.
    New,
}

const TURNS: [Turn; 4] = [Turn::Kept, Turn::Used, Turn::Cleared, Turn::New];

/// Both searches of one world.
pub struct Pair {
    scene: Scene,
    proved: Proved,
    original: Navigator,
    /// The original's first one, with doors, which every other must be like.
    pub answer: Answer,
}

impl Pair {
    pub fn new(scene: Scene) -> Self {
        let mut original = Navigator::new(&scene);
        Self {
            proved: Proved::new(&scene),
            answer: original.answer(&scene),
            original,
            scene,
        }
    }

    /// The time of a turn, or none if its answer is wrong.
    pub fn take(&mut self, turn: Turn) -> Option<Time> {
        let (right, time) = match turn {
            Turn::Kept => {
                let (number, time) = timed(|| black_box(self.proved.run()));
                (self.proved.left(number, &self.answer), time)
            }
            Turn::Cleared => {
                let (number, time) = timed(|| {
                    self.proved.clear();
                    black_box(self.proved.run())
                });
                (self.proved.left(number, &self.answer), time)
            }
            Turn::Used => {
                let (outcome, time) = timed(|| black_box(self.original.run()));
                (outcome == self.answer.outcome, time)
            }
            Turn::New => {
                let mut original = Navigator::new(&self.scene);
                let (outcome, time) = timed(|| black_box(original.run()));
                (outcome == self.answer.outcome, time)
            }
        };
        right.then_some(time)
    }

    /// Whether both answer the same: the proved search in rooms without a trace
    /// of an earlier one, the original once more.
    fn agree(&mut self) -> bool {
        self.proved.spoil();
        let number = self.proved.run();
        let again = self.original.answer(&self.scene);
        self.proved.left(number, &self.answer) && again.same_bits(&self.answer)
    }

    /// So many rounds of all four turns; none if an answer is wrong.
    pub fn rounds(&mut self, rounds: usize) -> Option<[Vec<Time>; 4]> {
        let mut times = [const { Vec::new() }; 4];
        if !self.agree() {
            return None;
        }
        for _ in 0..rounds {
            for (turn, times) in TURNS.into_iter().zip(&mut times) {
                times.push(self.take(turn)?);
            }
        }
        self.agree().then_some(times)
    }
}
