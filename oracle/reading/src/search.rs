//! 01's search, from the retained start to the outcome, by expansions, of which
//! 02's No. 10 makes some each tick.

use scene::{Answer, FrontierRecord, NO_DOOR, NO_PARENT, NodeRecord, Outcome, Waypoint};

use crate::Variant::{self, *};
use crate::boxes::{Point, distance};
use crate::graph::{E, Graph, same_point};
use crate::length::{Stop, edge_length};
use crate::lookup::{is_of_index, look_up};

/// A search under way: what the node and the frontier room hold of the retained
/// nodes, and the counts. Another hand may have changed them (02, No. 10).
#[derive(Debug, Clone)]
pub(crate) struct State {
    pub nodes: Vec<NodeRecord>,
    pub front: Vec<FrontierRecord>,
    pub closed: u64,
    pub pushed: u64,
    pub dropped: u64,
}

/// A search and its graph.
pub(crate) struct Search<'a> {
    graph: Graph<'a>,
    pub state: State,
    /// How many nodes there were when the last expansion began.
    before: usize,
}

/// What a list ends with: the node that reached the goal, and the connector
/// that did it unless the node is at the goal.
type Hit = (usize, Option<Waypoint>);

/// How a search ends: its outcome and its list.
pub(crate) type End = (Outcome, Vec<Waypoint>);

impl<'a> Search<'a> {
    /// The start is retained (Walk, lift 0, and "the start has none", no door)
    /// and waits with estimate 0.
    pub fn begin(graph: Graph<'a>) -> Self {
        let feet = graph.scene.request.start;
        let mut start = Waypoint::walked(feet);
        match graph.edit {
            StartHasADoor => start.door = graph.door_in(graph.body_at(feet)),
            StartDoorIsZero => start.door = 0,
            _ => {}
        }
        let node = NodeRecord {
            point: start,
            cost: 0.0,
            parent: NO_PARENT,
            closed: 0,
        };
        let first = FrontierRecord {
            estimate: match graph.edit {
                TickStartEstimated => 1.5 * distance(feet, graph.scene.request.goal, graph.edit),
                _ => 0.0,
            },
            push: 0,
            waiting: 1,
        };
        let state = State {
            nodes: vec![node],
            front: vec![first],
            closed: 0,
            pushed: if graph.edit == TickStartUnpushed {
                0
            } else {
                1
            },
            dropped: 0,
        };
        Self::of(graph, state)
    }

    /// A search in any state.
    pub fn of(graph: Graph<'a>, state: State) -> Self {
        Self {
            graph,
            state,
            before: 0,
        }
    }

    fn edit(&self) -> Variant {
        self.graph.edit
    }

    /// Expansions until it ends.
    pub fn run(mut self) -> Answer {
        loop {
            if let Some(end) = self.expansion().or_else(|| self.rest()) {
                return self.answer(end);
            }
        }
    }

    /// "Pop, close, try the connector .., then the columns": what 02's No. 10
    /// calls an expansion. Its end, if it finds the goal.
    pub fn expansion(&mut self) -> Option<End> {
        let node = self.pop()?;
        self.state.nodes[node].closed = 1;
        self.state.closed += 1;
        if let Some(hit) = self.connect(node) {
            return Some(self.found(hit));
        }
        self.columns(node);
        if self.edit() == ConnectorAfterColumns {
            let connector = self.graph.connector(self.state.nodes[node].point.feet)?;
            return Some(self.found((node, Some(connector))));
        }
        None
    }

    /// The end of a search in which nothing waits.
    pub fn rest(&self) -> Option<End> {
        let dropped = self.state.dropped > 0;
        let stopped = self.edit() == StopAtFirstDrop && dropped;
        if self.some_waits() && !stopped {
            return None;
        }
        let exceeded = dropped && self.edit() != DropsUncounted;
        let outcome = if exceeded {
            Outcome::BudgetExceeded
        } else {
            Outcome::Unreachable
        };
        Some((outcome, Vec::new()))
    }

    pub fn some_waits(&self) -> bool {
        self.state.front.iter().any(FrontierRecord::waits)
    }

    fn pop(&mut self) -> Option<usize> {
        let front = &self.state.front;
        let mut best: Option<usize> = None;
        for node in (0..front.len()).filter(|&node| front[node].waits()) {
            if best.is_none_or(|other| self.comes_before(&front[node], &front[other])) {
                best = Some(node);
            }
        }
        self.state.front[best?] = FrontierRecord::IDLE;
        best
    }

    /// Whether an entry is popped before that of a lower node: "lowest estimate
    /// first, then earliest push", and "the lower node first where push orders
    /// tie" (02, No. 10). Estimates compare as numbers.
    fn comes_before(&self, this: &FrontierRecord, lower: &FrontierRecord) -> bool {
        let (less, equal) = match self.edit() {
            TickEstimatesByBits => {
                let order = this.estimate.total_cmp(&lower.estimate);
                (order.is_lt(), order.is_eq())
            }
            _ => (
                this.estimate < lower.estimate,
                this.estimate == lower.estimate,
            ),
        };
        let earlier = match self.edit() {
            TiesByNode => false,
            TiesByLatestPush => this.push > lower.push,
            TickHigherNodeFirst => this.push <= lower.push,
            _ => this.push < lower.push,
        };
        less || equal && earlier
    }

    /// The connector, or the node itself: "a start equal to the goal needs
    /// none: its list is the start alone".
    fn connect(&mut self, node: usize) -> Option<Hit> {
        let from = self.state.nodes[node].point.feet;
        let goal = self.graph.scene.request.goal;
        let there = match self.edit() {
            StartAtGoalTwice => false,
            StartAtGoalByBits => from.map(f64::to_bits) == goal.map(f64::to_bits),
            TickGoalByEdge if node > 0 => false,
            _ => same_point(from, goal, ReadAsWritten),
        };
        if there {
            return Some((node, None));
        }
        match self.edit() {
            ConnectorNotAtStart if node == 0 => return None,
            ConnectorAfterColumns => return None,
            _ => {}
        }
        let mut connector = self.graph.connector(from)?;
        match self.edit() {
            ConnectorAlwaysWalk => connector.movement = 0,
            ConnectorHasNoDoor => connector.door = NO_DOOR,
            ClosedAfterConnector => self.state.nodes[node].closed = 0,
            ConnectorRetained => {
                if self.full() {
                    self.count_dropped();
                    return None;
                }
                let cost = self.state.nodes[node].cost + distance(from, goal, self.edit());
                self.retain(connector, cost, node);
                return Some((self.state.nodes.len() - 1, None));
            }
            _ => {}
        }
        Some((node, Some(connector)))
    }

    /// Visits every graph step of the node, in order.
    fn columns(&mut self, node: usize) {
        let from = self.state.nodes[node].point.feet;
        self.before = self.state.nodes.len();
        let silent = |to: Point| match self.edit() {
            ClosedSideSilent => self
                .find(to)
                .is_some_and(|k| self.state.nodes[k].closed == 1),
            RetainedSideSilent => self.find(to).is_some(),
            DroppedSideSilent => self.find(to).is_none() && self.full(),
            _ => false,
        };
        for step in self.graph.steps(from, &silent) {
            self.visit(node, step);
            if self.edit() == StopAtFirstDrop && self.state.dropped > 0 {
                return;
            }
        }
    }

    fn find(&self, point: Point) -> Option<usize> {
        let edit = self.edit();
        let mut first = 0;
        if is_of_index(edit) {
            let old = self.state.nodes.iter().take(self.before);
            let points: Vec<Point> = old.map(|node| node.point.feet).collect();
            let budget = self.graph.scene.request.node_budget;
            if let Some(node) = look_up(&points, budget, point, edit) {
                return Some(node);
            }
            first = self.before;
        }
        let nodes = &self.state.nodes;
        let there = |&node: &usize| same_point(nodes[node].point.feet, point, edit);
        match edit {
            TickLastRecordAnswers => (first..nodes.len()).rev().find(there),
            _ => (first..nodes.len()).find(there),
        }
    }

    /// A point is dropped: an event, also where it is the same point again.
    fn count_dropped(&mut self) {
        let dropped = self.state.dropped;
        self.state.dropped = match self.edit() {
            TickDroppedOnce => dropped.max(1),
            _ => dropped + 1,
        };
    }

    fn full(&self) -> bool {
        let budget = self.graph.scene.request.node_budget as usize;
        match self.edit() {
            BudgetOneMore => self.state.nodes.len() == budget + 1,
            BudgetOneLess => self.state.nodes.len() >= budget.max(2) - 1,
            _ => self.state.nodes.len() == budget,
        }
    }

    /// A new point is retained, or dropped where there is no room. "An open
    /// point is re-parented, with the new edge's movement and lift, and pushed
    /// again only if new cost + E < old cost."
    fn visit(&mut self, from: usize, step: Waypoint) {
        let edit = self.edit();
        let length = match edit {
            CostOfLiftAndSettle => self.corridor_length(from, &step),
            _ => distance(self.state.nodes[from].point.feet, step.feet, edit),
        };
        let cost = self.state.nodes[from].cost + length;
        let Some(known) = self.find(step.feet) else {
            if self.full() {
                self.count_dropped();
            } else {
                self.retain(step, cost, from);
                self.push(self.state.nodes.len() - 1);
            }
            return;
        };
        if edit == DropsCountKnown && self.full() {
            self.count_dropped();
        }
        let old = self.state.nodes[known];
        let open = old.closed == 0 || edit == ClosedReparented || edit == ClosedReopened;
        let cheaper = match edit {
            ReparentAtEqualCost => cost <= old.cost,
            ReparentWithoutE => cost < old.cost,
            ReparentEOnTheOld => cost < old.cost - E,
            ReparentByDifference => old.cost - cost > E,
            ReparentWithinE => cost < old.cost + E,
            ReparentNever => false,
            _ => cost + E < old.cost,
        };
        if open && cheaper {
            self.reparent(known, step, cost, from);
        }
    }

    /// The node takes the edge's movement, lift and door, the cost and the parent,
    /// and is pushed again, so that it is woken where it did not wait. Its point
    /// stays, which may differ from the edge's in a zero's sign.
    fn reparent(&mut self, known: usize, step: Waypoint, cost: f64, parent: usize) {
        let edit = self.edit();
        let waited = self.state.front[known];
        let node = &mut self.state.nodes[known];
        if edit == TickReparentTakesZero {
            node.point.feet = step.feet;
        }
        if edit != ReparentKeepsMovement {
            node.point.movement = step.movement;
        }
        if edit != ReparentKeepsLift {
            node.point.lift = step.lift;
        }
        // "A re-parented node takes the new edge's door."
        if edit != ReparentKeepsDoor {
            node.point.door = step.door;
        }
        if edit != ReparentKeepsParent {
            node.parent = parent as u32;
        }
        if edit != ReparentKeepsCost {
            node.cost = cost;
        }
        if edit == ReparentNotPushed || edit == ClosedReparented && node.closed == 1 {
            return;
        }
        node.closed = 0;
        if edit == TickIdleNotWoken && !waited.waits() {
            return;
        }
        if edit == TickWokenWithOldWords {
            self.state.front[known].waiting = 1;
        }
        self.push(known);
        if edit == ReparentKeepsPush && waited.waits() {
            self.state.front[known].push = waited.push;
        }
    }

    /// The length that 02's No. 2 has printed, for a variant that takes it for the
    /// cost.
    fn corridor_length(&self, from: usize, step: &Waypoint) -> f64 {
        let stop = |point: &Waypoint| Stop {
            feet: point.feet,
            lift: point.lift,
        };
        edge_length(stop(&self.state.nodes[from].point), stop(step))
    }

    fn retain(&mut self, point: Waypoint, cost: f64, parent: usize) {
        self.state.nodes.push(NodeRecord {
            point,
            cost,
            parent: parent as u32,
            closed: 0,
        });
        self.state.front.push(FrontierRecord::IDLE);
    }

    /// "Estimate = cost + 1.5 × distance to goal." A node that waits already
    /// keeps its entry unless the new estimate is lower.
    fn push(&mut self, node: usize) {
        let edit = self.edit();
        let NodeRecord { point, cost, .. } = self.state.nodes[node];
        let left = distance(point.feet, self.graph.scene.request.goal, edit);
        let estimate = match edit {
            WeightOne => cost + left,
            WeightTwo => cost + 2.0 * left,
            EstimateWithoutCost => 1.5 * left,
            EstimateWithoutDistance => cost,
            _ => cost + 1.5 * left,
        };
        let old = self.state.front[node];
        let lower = match edit {
            TickEqualReplaces => estimate <= old.estimate,
            _ => estimate < old.estimate,
        };
        let kept = old.waits() && !lower;
        let push = self.state.pushed;
        if !kept || edit != TickKeptUnpushed {
            self.state.pushed += 1;
        }
        if !kept {
            self.state.front[node] = FrontierRecord {
                estimate,
                push,
                waiting: 1,
            };
        }
    }

    /// The list from the start to the goal. A variant may have let a parent stand
    /// that is no node, or one whose chain never ends.
    fn found(&self, (node, connector): Hit) -> End {
        let nodes = &self.state.nodes;
        let mut list: Vec<Waypoint> = connector.into_iter().collect();
        let mut at = nodes.get(node);
        while let Some(node) = at
            && list.len() <= nodes.len()
        {
            list.push(node.point);
            at = nodes.get(node.parent as usize);
        }
        list.reverse();
        (Outcome::Found, list)
    }

    fn answer(self, (outcome, list): End) -> Answer {
        let closed = self.state.nodes.iter().filter(|node| node.closed == 1);
        Answer {
            outcome,
            list,
            closed: closed.count() as u64,
            nodes: self.state.nodes,
        }
    }
}
