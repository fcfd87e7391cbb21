//! 02's No. 10, number 12: "for expansions outside 1 to 4,096, a search already
//! ended, or a state unless" each of these clauses holds. A search that ended has
//! a frontier in which no node waits, and nothing else tells it.

use scene::{FrontierRecord, NO_PARENT, NODE, NodeRecord, Scene, WAITING};

use crate::Variant::{self, *};
use crate::graph::{Graph, same_point};
use crate::ticks::{Counts, Lent};

/// "Pushed and dropped below 2^32."
pub(crate) const COUNT_END: u64 = 1 << 32;

/// What the clauses speak of.
struct Progress<'a> {
    graph: Graph<'a>,
    counts: Counts,
    expansions: u64,
    /// How many records the rooms have. Where 5 was judged they have the budget's.
    records: u64,
    /// The retained nodes; none where their number is a bad one.
    nodes: Vec<NodeRecord>,
    /// Every whole record of the lent frontier room; a part of one is none.
    front: Vec<FrontierRecord>,
}

/// Whether a clause holds.
type Clause = fn(&Progress) -> bool;

/// The clauses of the counts, and those of the nodes.
const OF_COUNTS: [(&str, Clause); 5] = [
    ("expansions", |p| p.expansions()),
    ("retained", |p| p.retained()),
    ("closed", |p| p.closed()),
    ("pushed", |p| p.pushed()),
    ("dropped", |p| p.dropped()),
];
const OF_NODES: [(&str, Clause); 13] = [
    ("points in range", |p| p.points_in_range()),
    ("finite costs", |p| p.finite_costs()),
    ("movements", |p| p.movements()),
    ("closed marks", |p| p.closed_marks()),
    ("waiting marks", |p| p.waiting_marks()),
    ("node 0 without a parent", |p| p.start_without_parent()),
    ("parents retained", |p| p.parents_retained()),
    ("parents closed", |p| p.parents_closed()),
    ("chains end", |p| p.chains_end()),
    ("some node waits", |p| p.some_node_waits()),
    ("waiting nodes retained", |p| p.waiting_retained()),
    ("waiting nodes open", |p| p.waiting_open()),
    ("finite estimates", |p| p.finite_estimates()),
];

/// The names of the clauses that do not hold; 12 is drawn where there is one.
/// Those of the nodes are asked only where their number is a good one.
pub fn broken(
    scene: &Scene,
    counts: Counts,
    expansions: u64,
    lent: &Lent,
    edit: Variant,
) -> Vec<&'static str> {
    let progress = Progress::of(scene, counts, expansions, lent, edit);
    let nodes: &[_] = if progress.retained() { &OF_NODES } else { &[] };
    let clauses = OF_COUNTS.iter().chain(nodes);
    let broken = clauses.filter(|(_, holds)| !holds(&progress));
    broken.map(|(name, _)| *name).collect()
}

impl<'a> Progress<'a> {
    fn of(scene: &'a Scene, counts: Counts, expansions: u64, lent: &Lent, edit: Variant) -> Self {
        let records = (lent.nodes.len() / NODE).min(lent.front.len() / WAITING);
        let mut out = Self {
            graph: Graph { scene, edit },
            counts,
            expansions,
            records: records as u64,
            nodes: Vec::new(),
            front: Vec::new(),
        };
        if out.retained() {
            let nodes = lent.nodes.chunks_exact(NODE).take(counts.retained as usize);
            out.nodes = nodes.map(NodeRecord::from_bytes).collect();
            out.front = front_records(&lent.front, edit);
        }
        out
    }

    fn is(&self, edit: Variant) -> bool {
        self.graph.edit == edit
    }

    /// "Expansions outside 1 to 4,096."
    fn expansions(&self) -> bool {
        let read = match self.graph.edit {
            TickExpansionsHalfRead => u64::from(self.expansions as u32),
            _ => self.expansions,
        };
        let least = if self.is(TickNoExpansion) { 0 } else { 1 };
        let most = if self.is(Tick4097Expansions) {
            4097
        } else {
            4096
        };
        (least..=most).contains(&read)
    }

    /// "Retained is 1 to budget."
    fn retained(&self) -> bool {
        let budget = self.graph.scene.request.node_budget;
        let most = match self.graph.edit {
            TickRetainedOneMore => budget.saturating_add(1),
            _ => budget,
        };
        (1..=most.min(self.records)).contains(&self.counts.retained)
    }

    /// "Closed at most that": the count alone, whatever is marked.
    fn closed(&self) -> bool {
        let closed = self.counts.closed;
        match self.graph.edit {
            TickClosedToBudget => closed <= self.graph.scene.request.node_budget,
            TickCountForMarks if self.retained() => {
                let marked = self.nodes.iter().filter(|node| node.closed == 1);
                closed == marked.count() as u64
            }
            _ => closed <= self.counts.retained,
        }
    }

    /// "Pushed .. below 2^32."
    fn pushed(&self) -> bool {
        self.counts.pushed < COUNT_END + u64::from(self.is(TickPushedAtTheEnd))
    }

    /// "Dropped below 2^32."
    fn dropped(&self) -> bool {
        self.counts.dropped < COUNT_END + u64::from(self.is(TickDroppedAtTheEnd))
    }

    /// "Each retained point in range."
    fn points_in_range(&self) -> bool {
        let edit = self.graph.edit;
        let start = self.graph.scene.request.start;
        let read = match edit {
            TickRangeUnread => &[],
            TickStartRangeUnread => &self.nodes[1..],
            _ => &self.nodes[..],
        };
        let feet = |k: usize| self.nodes[k].point.feet;
        let twice = |k: usize| (0..k).any(|at| same_point(feet(at), feet(k), edit));
        let demanded = match edit {
            TickPointsDiffer => !(0..self.nodes.len()).any(twice),
            TickFirstIsTheStart => same_point(feet(0), start, edit),
            _ => true,
        };
        demanded && read.iter().all(|node| self.graph.in_range(node.point.feet))
    }

    /// "With finite cost", below 0 too.
    fn finite_costs(&self) -> bool {
        let finite = |node: &NodeRecord| match self.graph.edit {
            TickInfiniteCost => !node.cost.is_nan(),
            TickNanCost => !node.cost.is_infinite(),
            TickNegativeCost => node.cost.is_finite() && node.cost >= 0.0,
            _ => node.cost.is_finite(),
        };
        self.nodes.iter().all(finite)
    }

    /// "Movement at most 3", as a whole u64.
    fn movements(&self) -> bool {
        let small = |node: &NodeRecord| match self.graph.edit {
            TickMovementHalfRead => node.point.movement as u32 <= 3,
            TickMovementOf4 => node.point.movement <= 4,
            TickMovementUnread => true,
            _ => node.point.movement <= 3,
        };
        self.nodes.iter().all(small)
    }

    /// "Marks 0 or 1": of a retained point the closed word of its node record.
    fn closed_marks(&self) -> bool {
        let most = if self.is(TickClosedMarkOf2) { 2 } else { 1 };
        self.nodes.iter().all(|node| node.closed <= most)
    }

    /// "Marks 0 or 1": and the waiting word of its frontier record. The other
    /// words of one that does not wait are not asked.
    fn waiting_marks(&self) -> bool {
        let good = |entry: &FrontierRecord| match self.graph.edit {
            TickWaitingMarkUnread => true,
            TickWaitingMarkHalfRead => entry.waiting as u32 <= 1,
            TickStaleRefused => entry.waits() || entry.bytes() == FrontierRecord::IDLE.bytes(),
            _ => entry.waiting <= 1,
        };
        self.front[..self.nodes.len()].iter().all(good)
    }

    /// Only node 0 has no parent.
    fn start_without_parent(&self) -> bool {
        self.is(TickStartWithParent) || self.nodes[0].parent == NO_PARENT
    }

    /// The nodes but the first, each with its parent's number.
    fn children(&self) -> impl Iterator<Item = (usize, usize)> {
        let orphans = self.is(TickOrphan);
        let nodes = self.nodes.iter().enumerate().skip(1);
        nodes
            .filter(move |(_, node)| !orphans || node.parent != NO_PARENT)
            .map(|(k, node)| (k, node.parent as usize))
    }

    /// "Each parent is retained", be its number lower or higher.
    fn parents_retained(&self) -> bool {
        let lower = self.is(TickParentLower);
        let retained = |(k, parent)| parent < self.nodes.len() && (!lower || parent < k);
        self.children().all(retained)
    }

    /// "And closed."
    fn parents_closed(&self) -> bool {
        let closed = |(_, parent): (usize, usize)| {
            let parent = self.nodes.get(parent);
            parent.is_none_or(|parent| parent.closed == 1)
        };
        self.is(TickParentOpen) || self.children().all(closed)
    }

    /// "Each parent chain ends at node 0." One that leaves the retained nodes is
    /// judged above; of n nodes a chain that ends has fewer than n parents.
    fn chains_end(&self) -> bool {
        let count = self.nodes.len();
        let ends = |k: usize| {
            let parent = |at: &usize| {
                let parent = self.nodes[*at].parent as usize;
                (*at > 0 && parent < count).then_some(parent)
            };
            let chain = std::iter::successors(Some(k), parent);
            chain.take(count + 1).count() <= count
        };
        self.is(TickCycle) || (0..count).all(ends)
    }

    /// "Some node waits": else the search has ended already.
    fn some_node_waits(&self) -> bool {
        let (front, count) = (&self.front, self.nodes.len());
        match self.graph.edit {
            TickEndedAgain => true,
            TickOpenNodesWait => {
                let waits = |k: usize| self.nodes[k].closed != 0 || front[k].waits();
                front[..count].iter().any(FrontierRecord::waits) && (0..count).all(waits)
            }
            _ => front[..count].iter().any(FrontierRecord::waits),
        }
    }

    /// "Each that does retained": of the whole lent room, past the budget too.
    fn waiting_retained(&self) -> bool {
        let count = self.nodes.len();
        let budget = self.graph.scene.request.node_budget as usize;
        let behind = match self.graph.edit {
            TickWaitingPastRetained => &[],
            TickWaitingPastBudget => &self.front[count..budget.max(count)],
            _ => &self.front[count..],
        };
        let idle = |entry: &FrontierRecord| match self.graph.edit {
            TickIdleWordsPastRetained => entry.waiting == 0,
            _ => !entry.waits(),
        };
        behind.iter().all(idle)
    }

    /// The retained nodes that wait.
    fn waiting(&self) -> impl Iterator<Item = (&NodeRecord, &FrontierRecord)> {
        let all = self.nodes.iter().zip(&self.front);
        all.filter(|(_, entry)| entry.waits())
    }

    /// "Open."
    fn waiting_open(&self) -> bool {
        self.is(TickWaitingClosed) || self.waiting().all(|(node, _)| node.closed == 0)
    }

    /// "And of finite estimate."
    fn finite_estimates(&self) -> bool {
        let finite = |(_, entry): (&NodeRecord, &FrontierRecord)| match self.graph.edit {
            TickInfiniteEstimate => !entry.estimate.is_nan(),
            TickNanEstimate => !entry.estimate.is_infinite(),
            _ => entry.estimate.is_finite(),
        };
        let idle = self.nodes.iter().zip(&self.front);
        match self.graph.edit {
            TickIdleEstimate => idle.into_iter().all(finite),
            _ => self.waiting().all(finite),
        }
    }
}

/// The records of a lent frontier room.
fn front_records(front: &[u8], edit: Variant) -> Vec<FrontierRecord> {
    let mut whole = front.to_vec();
    if edit == TickPartialRecord {
        whole.resize(front.len().next_multiple_of(WAITING), 0);
    }
    let records = whole.chunks_exact(WAITING);
    records.map(FrontierRecord::from_bytes).collect()
}
