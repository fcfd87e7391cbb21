//! A search that is made a little each tick.

use crate::{
    Answer, Body, Error, Outcome, Request, Tables, Waypoint, answered, front_bytes, in_bytes, nodes_bytes, out_bytes, raw,
    records,
};

/// The number of a search that has not ended.
const STILL_SEARCHING: u64 = 100;

/// How far a search in slices has come.
#[derive(Clone, Copy, Debug, PartialEq, Eq)]
pub struct Counts {
    /// The points that it keeps in mind; the budget bounds them.
    pub retained: usize,
    /// Those of them that it has looked around from.
    pub closed: usize,
    /// How often a point was made to wait.
    pub pushed: usize,
    /// How often a new point was met that no longer fitted, the same one each time.
    pub dropped: usize,
}

/// What a slice of a search comes to.
#[derive(Clone, Copy, Debug, PartialEq, Eq)]
pub enum Tick {
    /// Nothing is decided yet.
    Searching(Counts),
    /// The search is over, as `find_walk_path` would have ended.
    Ended(Answer),
}

/// A search that is made a little each tick, so that it does not hold up the
/// server: `begin` it once, then `advance` it by some expansions at a time until it
/// has ended. An expansion is one node closed, with its connector and its columns.
///
/// However the expansions are divided, it ends as `find_walk_path` does: with the
/// same outcome, list, counts and node records, after at most `node_budget`
/// expansions. For that nothing may change between two calls, and nothing can: the
/// rooms and the counts are its own, request and body are copies, and the tables
/// stay borrowed as long as it lives. (To search in tables that it does not borrow,
/// or in rooms of your own, there are `raw::begin_search` and
/// `raw::continue_search`.)
///
/// It has 136 bytes for each point of the budget. Each `advance` judges all that the
/// search has come to so far before it goes on; the header's "The search, a little
/// each tick" says what that costs, and how many expansions are sensible.
#[derive(Clone, Debug)]
pub struct Search<'a> {
    tables: Tables<'a>,
    request: Request,
    body: Body,
    nodes: Vec<u8>,
    front: Vec<u8>,
    out: Vec<u8>,
    /// The header's `walkprint_progress`, as the last call left it.
    progress: [u8; 48],
}

impl<'a> Search<'a> {
    /// Begins a search; nothing is looked for yet.
    ///
    /// There are two errors, one inside the other, as `edge` has them. The outer one
    /// is a refusal. The inner one is the answer of a search that need not begin:
    /// `Unreachable` where the request is not valid or an end is no good, and
    /// `BudgetExceeded` where the budget is 0.
    pub fn begin(tables: &Tables<'a>, request: &Request, body: &Body) -> Result<Result<Self, Outcome>, Error> {
        let budget = usize::try_from(request.node_budget).unwrap_or(usize::MAX);
        let [mut nodes, mut front, out] = [nodes_bytes(budget), front_bytes(budget), out_bytes(budget)].map(|n| vec![0; n]);
        let mut progress = [0; 48];
        let number = in_bytes(tables, &request.bytes(), body, |asked| {
            raw::begin_search(asked, &mut nodes, &mut front, &out, &mut progress)
        });
        if number != STILL_SEARCHING {
            return answered(number, &progress).map(|answer| Err(answer.outcome));
        }
        Ok(Ok(Self { tables: *tables, request: *request, body: *body, nodes, front, out, progress }))
    }

    /// Goes on by so many expansions, 1 to 4,096, or by fewer where the search ends
    /// before. The one refusal is `BadProgress`: for any other number, and for a
    /// search that has ended. It changes nothing, so that no search is lost by it.
    pub fn advance(&mut self, expansions: u64) -> Result<Tick, Error> {
        let Self { tables, request, body, nodes, front, out, progress } = self;
        let counts = [2, 3, 4, 5].map(|k| records::word(progress, k));
        let number = in_bytes(tables, &request.bytes(), body, |asked| {
            raw::continue_search(counts, expansions, asked, nodes, front, out, progress)
        });
        if number == STILL_SEARCHING {
            return Ok(Tick::Searching(self.counts()));
        }
        // 1 is the end: the request was valid when the search began.
        answered(number, progress).map(Tick::Ended)
    }

    /// How far it has come; after its end, how far it came.
    pub fn counts(&self) -> Counts {
        let [retained, closed, pushed, dropped] = [2, 3, 4, 5].map(|k| records::word(&self.progress, k) as usize);
        Counts { retained, closed, pushed, dropped }
    }

    /// The waypoints of the list; none unless it was found.
    pub fn list(&self) -> Vec<Waypoint> {
        Waypoint::list(&self.out, self.count())
    }

    /// The records of the list, as `walk_back` and `length` take them.
    pub fn list_records(&self) -> &[u8] {
        &self.out[..Waypoint::BYTES * self.count()]
    }

    /// The records of the retained nodes, 64 bytes each, in discovery order.
    pub fn node_records(&self) -> &[u8] {
        &self.nodes[..nodes_bytes(self.counts().retained)]
    }

    fn count(&self) -> usize {
        records::word(&self.progress, 1) as usize
    }
}
