//! 02's No. 10, "Search a little each tick": begin and continue, on the bytes
//! that a caller lends. Of what is lent to them `progress` is the interface's
//! own: six words, the number, the count of the list and the four counts.

use scene::{
    FrontierRecord, NODE, NodeRecord, Outcome, Scene, WAITING, WAYPOINT, Waypoint, u64_at,
};

use crate::Variant::{self, *};
use crate::graph::{Graph, same_point};
use crate::progress::{COUNT_END, broken};
use crate::request::{Rooms, draws, refused, unbegun};
use crate::search::{End, Search, State};

/// "Still searching", a number of our own.
pub const SEARCHING: u64 = 100;

/// 02's BadProgress.
pub const BAD_PROGRESS: u64 = 12;

/// Bytes of a progress record.
pub const PROGRESS: usize = 48;

/// "The counts (retained, closed, pushed, dropped) pass by value."
#[derive(Debug, Default, Clone, Copy, PartialEq, Eq)]
pub struct Counts {
    pub retained: u64,
    pub closed: u64,
    pub pushed: u64,
    pub dropped: u64,
}

impl Counts {
    /// Those that a call gave back.
    pub fn told(progress: &[u8]) -> Self {
        let [retained, closed, pushed, dropped] = [16, 24, 32, 40].map(|at| u64_at(progress, at));
        Self {
            retained,
            closed,
            pushed,
            dropped,
        }
    }

    fn of(state: &State) -> Self {
        Self {
            retained: state.nodes.len() as u64,
            closed: state.closed,
            pushed: state.pushed,
            dropped: state.dropped,
        }
    }
}

/// A call: begin, or continue with these counts and so many expansions.
#[derive(Debug, Clone, Copy, PartialEq, Eq)]
pub enum Tick {
    Begin,
    Continue(Counts, u64),
}

/// What a caller lends to a call. Begin is lent the output for its length alone.
#[derive(Debug, Clone, PartialEq, Eq)]
pub struct Lent {
    pub nodes: Vec<u8>,
    pub front: Vec<u8>,
    pub out: Vec<u8>,
    pub progress: Vec<u8>,
}

impl Lent {
    /// 5, which knows of no index here.
    fn no_room(&self, budget: u64, edit: Variant) -> bool {
        let rooms = Rooms {
            nodes: self.nodes.len() as u64,
            frontier: self.front.len() as u64,
            index: 0,
            output: self.out.len() as u64,
        };
        rooms.no_records(budget, edit)
    }

    /// What the rooms hold of the retained nodes, for rooms that have so many.
    fn state(&self, counts: Counts) -> State {
        let retained = counts.retained as usize;
        let nodes = self.nodes.chunks_exact(NODE).map(NodeRecord::from_bytes);
        let front = self.front.chunks_exact(WAITING);
        let front = front.map(FrontierRecord::from_bytes);
        State {
            nodes: nodes.take(retained).collect(),
            front: front.take(retained).collect(),
            closed: counts.closed,
            pushed: counts.pushed,
            dropped: counts.dropped,
        }
    }

    fn put_nodes(&mut self, state: &State) {
        put(&mut self.nodes, state.nodes.iter().map(NodeRecord::bytes));
    }

    /// The frontier records of the retained nodes; the bytes behind them stay.
    fn put_front(&mut self, state: &State, edit: Variant) {
        let entry = |entry: &FrontierRecord| match edit {
            TickStaleZeroed if !entry.waits() => FrontierRecord::IDLE.bytes(),
            _ => entry.bytes(),
        };
        put(&mut self.front, state.front.iter().map(entry));
        if edit == TickFrontierPastZeroed {
            self.front[WAITING * state.front.len()..].fill(0);
        }
    }

    /// Writes a progress record where it fits.
    fn put_progress(&mut self, number: u64, count: usize, counts: Counts, edit: Variant) {
        let numbers = [
            number,
            count as u64,
            counts.retained,
            counts.closed,
            counts.pushed,
            counts.dropped,
        ];
        let record = numbers.map(u64::to_le_bytes).concat();
        let fits = self.progress.len().min(PROGRESS);
        if fits == PROGRESS || edit == TickProgressCut {
            self.progress[..fits].copy_from_slice(&record[..fits]);
        }
    }

    /// "Nothing written."
    fn refuse(&mut self, number: u32, counts: Counts, edit: Variant) -> u64 {
        if edit == TickProgressOnRefusal {
            self.put_progress(number.into(), 0, counts, edit);
        }
        number.into()
    }
}

/// Puts records at the front of a room.
fn put<const N: usize>(room: &mut [u8], records: impl Iterator<Item = [u8; N]>) {
    for (place, record) in room.as_chunks_mut().0.iter_mut().zip(records) {
        *place = record;
    }
}

/// What a call answers; what it writes is in `lent` then.
pub fn tick(scene: &Scene, tick: Tick, lent: &mut Lent, edit: Variant) -> u64 {
    match tick {
        Tick::Begin => begin(scene, lent, edit),
        Tick::Continue(counts, expansions) => go_on(scene, counts, expansions, lent, edit),
    }
}

/// "Begin makes 01's checks, zeroes the frontier room and retains the start."
fn begin(scene: &Scene, lent: &mut Lent, edit: Variant) -> u64 {
    if let Some(number) = not_begun(scene, lent, edit) {
        return lent.refuse(number, Counts::default(), edit);
    }
    let budget = scene.request.node_budget as usize;
    let zeroed = match edit {
        TickBeginFrontierKept => 0,
        TickBeginFrontierToBudget => WAITING * budget,
        _ => lent.front.len(),
    };
    let state = Search::begin(Graph { scene, edit }).state;
    lent.front[..zeroed].fill(0);
    lent.put_nodes(&state);
    lent.put_front(&state, edit);
    let at_goal = same_point(scene.request.start, scene.request.goal, edit);
    let (number, count) = match edit {
        TickBeginFinds if at_goal => (Outcome::Found as u64, 1),
        _ => (SEARCHING, 0),
    };
    lent.put_progress(number, count, Counts::of(&state), edit);
    number
}

/// The number that begin answers where the search does not begin.
fn not_begun(scene: &Scene, lent: &Lent, edit: Variant) -> Option<u32> {
    let budget = scene.request.node_budget;
    let no_room = || match edit {
        TickBeginOutputUnread => {
            let mut lent = lent.clone();
            lent.out.resize(WAYPOINT * (budget as usize + 1), 0);
            lent.no_room(budget, edit)
        }
        _ => lent.no_room(budget, edit),
    };
    let ends = || match edit {
        TickBeginEndsUnread if budget > 0 => None,
        _ => unbegun(scene, edit).map(|outcome| outcome as u32),
    };
    refused(scene, &no_room, edit).or_else(ends)
}

/// "Continue judges 3, `valid_request` (1), 4, 5, then 12 .., nothing written."
fn go_on(scene: &Scene, counts: Counts, expansions: u64, lent: &mut Lent, edit: Variant) -> u64 {
    let judged = |number: &u32| match number {
        2 => scene.request.node_budget == 0,
        12 => !broken(scene, counts, expansions, lent, edit).is_empty(),
        number => draws(
            *number,
            scene,
            &|| lent.no_room(scene.request.node_budget, edit),
            edit,
        ),
    };
    if let Some(number) = order(edit).into_iter().find(judged) {
        return lent.refuse(number, counts, edit);
    }
    if edit == TickEndsAgain
        && let Some(outcome) = unbegun(scene, edit)
    {
        return lent.refuse(outcome as u32, counts, edit);
    }
    let mut state = lent.state(counts);
    if edit == TickDropsOfTheCall {
        state.dropped = 0;
    }
    let mut search = Search::of(Graph { scene, edit }, state);
    match turns(&mut search, expansions, edit) {
        Err(number) => lent.refuse(number, counts, edit),
        Ok(end) => leave(search.state, end, counts, scene, lent, edit),
    }
}

fn order(edit: Variant) -> Vec<u32> {
    match edit {
        TickProgressBeforeRooms => vec![3, 1, 4, 12, 5],
        TickProgressBeforeLimits => vec![3, 1, 12, 4, 5],
        TickProgressBeforeRequest => vec![3, 12, 1, 4, 5],
        TickProgressFirst => vec![12, 3, 1, 4, 5],
        TickRoomsBeforeLimits => vec![3, 1, 5, 4, 12],
        TickLimitsBeforeRequest => vec![3, 4, 1, 5, 12],
        TickRequestBeforeWorld => vec![1, 3, 4, 5, 12],
        TickBudgetZeroAgain => vec![3, 1, 4, 5, 2, 12],
        _ => vec![3, 1, 4, 5, 12],
    }
}

/// So many expansions. "The outcome is answered by the call whose expansion finds
/// the goal or leaves nothing waiting." The number of a variant that refuses.
fn turns(search: &mut Search, expansions: u64, edit: Variant) -> Result<Option<End>, u32> {
    let expansions = match edit {
        TickOneExpansionMore => expansions + 1,
        TickOneExpansionFewer => expansions - 1,
        TickOneExpansion => expansions.min(1),
        TickExpansionsHalfRead => u64::from(expansions as u32),
        _ => expansions,
    };
    for _ in 0..expansions {
        let overrun = search.state.pushed >= COUNT_END || search.state.dropped >= COUNT_END;
        if edit == TickJudgedEachExpansion && overrun {
            return Err(BAD_PROGRESS as u32);
        }
        let end = match edit {
            TickOutcomeLate if search.some_waits() => search.expansion(),
            _ => search.expansion().or_else(|| search.rest()),
        };
        if end.is_some() {
            return Ok(end);
        }
    }
    Ok(None)
}

/// What a call that was not refused writes and answers.
fn leave(
    state: State,
    end: Option<End>,
    given: Counts,
    scene: &Scene,
    lent: &mut Lent,
    edit: Variant,
) -> u64 {
    let mut counts = Counts::of(&state);
    match edit {
        TickDropsOfTheCall => counts.dropped += given.dropped,
        TickClosedByMarks => {
            let closed = state.nodes.iter().filter(|node| node.closed == 1);
            counts.closed = closed.count() as u64;
        }
        TickFinderUncounted if matches!(end, Some((Outcome::Found, _))) => counts.closed -= 1,
        _ => {}
    }
    lent.put_nodes(&state);
    lent.put_front(&state, edit);
    let (number, list) = match end {
        None => (SEARCHING, Vec::new()),
        Some((outcome, list)) => {
            zero_at_the_end(outcome, &state, scene, lent, edit);
            put(&mut lent.out, list.iter().map(Waypoint::bytes));
            (outcome as u64, list)
        }
    };
    lent.put_progress(number, list.len(), counts, edit);
    number
}

/// "The frontier room is zeroed when it ends": all that was lent.
fn zero_at_the_end(outcome: Outcome, state: &State, scene: &Scene, lent: &mut Lent, edit: Variant) {
    let zeroed = match edit {
        TickFrontierKept => 0,
        TickFrontierKeptWhereFound if outcome == Outcome::Found => 0,
        TickFrontierZeroedToRetained => WAITING * state.front.len(),
        TickFrontierZeroedToBudget => WAITING * scene.request.node_budget as usize,
        _ => lent.front.len(),
    };
    lent.front[..zeroed].fill(0);
}
