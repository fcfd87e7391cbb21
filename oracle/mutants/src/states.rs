//! States of searches under way, and calls of begin and of continue on them.

use reading::Variant::{ReadAsWritten, TickBeginEndsUnread};
use reading::{BAD_PROGRESS, Counts, Lent, PROGRESS, Rooms, SEARCHING, Tick, tick};
use scene::{FrontierRecord, NODE, NodeRecord, Scene, WAITING};

use crate::chance::Chance;

/// The most expansions that a continue makes.
pub const MOST: u64 = 4096;

/// Answers a call: its number, and what was lent to it as it is then.
pub type Answers<'a> = dyn FnMut(&Scene, Tick, Lent) -> Result<(u64, Lent), String> + 'a;

/// As the reading answers.
pub fn read(scene: &Scene, asked: Tick, mut lent: Lent) -> (u64, Lent) {
    let number = tick(scene, asked, &mut lent, ReadAsWritten);
    (number, lent)
}

/// How the expansions of a search are divided into calls.
#[derive(Debug, Clone, Copy, PartialEq, Eq)]
pub enum Lots {
    Ones,
    Few,
    Many,
    Whole,
}

pub const LOTS: [Lots; 4] = [Lots::Ones, Lots::Few, Lots::Many, Lots::Whole];

impl Lots {
    /// The expansions of the next call.
    pub fn next(self, chance: &mut Chance) -> u64 {
        let below = match self {
            Lots::Ones => 1,
            Lots::Few => 16,
            Lots::Many => MOST as usize,
            Lots::Whole => return MOST,
        };
        1 + chance.below(below) as u64
    }
}

/// What a search that was divided came to.
pub struct Ended {
    /// What the last call answered; begin, where the search did not begin.
    pub number: u64,
    /// What was lent, as the last call left it.
    pub lent: Lent,
    /// How many calls of continue it took.
    pub calls: u64,
}

/// Begins a search in these rooms, whose progress record fits, and continues it
/// until it ends, "after at most budget closings". One call more must draw 12.
pub fn divided(
    scene: &Scene,
    lots: Lots,
    lent: Lent,
    chance: &mut Chance,
    answers: &mut Answers,
) -> Result<Ended, String> {
    let (mut number, mut lent) = answers(scene, Tick::Begin, lent)?;
    let mut calls = 0;
    while number == SEARCHING {
        if calls > scene.request.node_budget {
            return Err("it does not end".to_string());
        }
        let counts = Counts::told(&lent.progress);
        let asked = Tick::Continue(counts, lots.next(chance));
        (number, lent) = answers(scene, asked, lent)?;
        calls += 1;
    }
    if calls > 0 {
        let counts = Counts::told(&lent.progress);
        let asked = Tick::Continue(counts, lots.next(chance));
        let (again, after) = answers(scene, asked, lent.clone())?;
        if again != BAD_PROGRESS || after != lent {
            return Err(format!("one call more answered {again}"));
        }
    }
    Ok(Ended {
        number,
        lent,
        calls,
    })
}

/// The bytes that a budget needs of nodes, frontier and output. A budget that is
/// refused needs no more than the largest that is not.
pub fn needed(budget: u64) -> [usize; 3] {
    let least = Rooms::least(budget.min(MOST));
    [least.nodes, least.frontier, least.output].map(|size| size as usize)
}

/// Rooms for a budget, each so many bytes longer than it must be, full of any
/// bytes.
pub fn rooms(budget: u64, extra: [usize; 3], progress: usize, chance: &mut Chance) -> Lent {
    let [nodes, front, out] = needed(budget);
    let mut room = |length: usize| {
        let words = (0..length.div_ceil(8)).flat_map(|_| chance.word().to_le_bytes());
        words.take(length).collect()
    };
    Lent {
        nodes: room(nodes + extra[0]),
        front: room(front + extra[1]),
        out: room(out + extra[2]),
        progress: room(progress),
    }
}

/// Makes rooms longer where a budget needs that.
pub fn grow(lent: &mut Lent, budget: u64) {
    let rooms = [&mut lent.nodes, &mut lent.front, &mut lent.out];
    for (room, length) in rooms.into_iter().zip(needed(budget)) {
        room.resize(length.max(room.len()), 0);
    }
}

/// A call of continue in the making.
#[derive(Clone, PartialEq)]
pub struct State {
    pub scene: Scene,
    pub counts: Counts,
    pub expansions: u64,
    pub lent: Lent,
    /// How many nodes there are, whatever the counts say then.
    pub nodes: usize,
}

impl State {
    /// The state of a scene's search after some of its expansions, sooner late than
    /// early, if it begins. One in four may begin with bad ends too, which continue
    /// does not judge again.
    pub fn middle(scene: &Scene, chance: &mut Chance) -> Option<Self> {
        let extra = [chance.below(200), chance.below(120), chance.below(120)];
        let mut lent = rooms(scene.request.node_budget, extra, PROGRESS, chance);
        let begin = chance.pick(&[
            ReadAsWritten,
            ReadAsWritten,
            ReadAsWritten,
            TickBeginEndsUnread,
        ]);
        if tick(scene, Tick::Begin, &mut lent, begin) != SEARCHING {
            return None;
        }
        let whole = reading::search(scene, ReadAsWritten).ok()?;
        let most = whole.closed.max(1) as usize;
        let before = chance.below(most).max(chance.below(most)) as u64;
        if before > 0 {
            let asked = Tick::Continue(Counts::told(&lent.progress), before);
            tick(scene, asked, &mut lent, ReadAsWritten);
        }
        let counts = Counts::told(&lent.progress);
        Some(Self {
            scene: scene.clone(),
            counts,
            expansions: chance.pick(&[1, 1, 2, 3, 7, 16, 300, MOST]),
            lent,
            nodes: counts.retained as usize,
        })
    }

    pub fn asked(&self) -> Tick {
        Tick::Continue(self.counts, self.expansions)
    }

    pub fn budget(&self) -> usize {
        self.scene.request.node_budget.min(MOST) as usize
    }

    pub fn node(&self, k: usize) -> NodeRecord {
        NodeRecord::from_bytes(&self.lent.nodes[NODE * k..])
    }

    /// Changes the record of a node.
    pub fn with_node(&mut self, k: usize, change: impl FnOnce(&mut NodeRecord)) {
        let mut node = self.node(k);
        change(&mut node);
        self.lent.nodes[NODE * k..][..NODE].copy_from_slice(&node.bytes());
    }

    pub fn entry(&self, k: usize) -> FrontierRecord {
        FrontierRecord::from_bytes(&self.lent.front[WAITING * k..])
    }

    /// Changes the frontier record of a node, or one behind them.
    pub fn with_entry(&mut self, k: usize, change: impl FnOnce(&mut FrontierRecord)) {
        let mut entry = self.entry(k);
        change(&mut entry);
        self.lent.front[WAITING * k..][..WAITING].copy_from_slice(&entry.bytes());
    }

    /// Any node, the first more often than another.
    pub fn any(&self, chance: &mut Chance) -> usize {
        match chance.once_in(5) {
            true => 0,
            false => chance.below(self.nodes),
        }
    }

    /// One of the nodes for which this holds.
    pub fn one(&self, chance: &mut Chance, holds: impl Fn(&Self, usize) -> bool) -> Option<usize> {
        let all: Vec<usize> = (0..self.nodes).filter(|&k| holds(self, k)).collect();
        (!all.is_empty()).then(|| chance.pick(&all))
    }

    pub fn closed(&self, k: usize) -> bool {
        self.node(k).closed == 1
    }

    pub fn open(&self, k: usize) -> bool {
        self.node(k).closed == 0
    }

    pub fn waits(&self, k: usize) -> bool {
        self.entry(k).waits()
    }
}
