//! A second run of the search, over the original's checks, that counts what
//! the original does not tell: re-parentings, ties and dropped points. Its
//! nodes are compared with the original's, so that the counts can be trusted.

use original::Checks;
use scene::{NO_PARENT, NodeRecord, Scene, Waypoint};

const E: f64 = 1.0e-7;

/// What happened in a search.
#[derive(Debug, Default, Clone, Copy)]
pub struct Trace {
    pub reparented: u64,
    /// Those of them that take another door for the old one.
    pub turned: u64,
    /// Pops at which another waiting node had the same estimate.
    pub ties: u64,
    /// New points that the budget left no room for.
    pub dropped: u64,
}

struct Entry {
    estimate: f64,
    order: u64,
    node: usize,
}

/// The trace of a search that began, with its nodes.
pub fn trace(scene: &Scene) -> (Trace, Vec<NodeRecord>) {
    let mut search = Search {
        checks: Checks::new(scene),
        scene,
        nodes: Vec::new(),
        waiting: Vec::new(),
        pushed: 0,
        trace: Trace::default(),
    };
    search.nodes.push(NodeRecord {
        point: Waypoint::walked(scene.request.start),
        cost: 0.0,
        parent: NO_PARENT,
        closed: 0,
    });
    search.push(0, 0.0);
    while let Some(cursor) = search.pop() {
        search.nodes[cursor].closed = 1;
        let from = search.nodes[cursor];
        if search.checks.connector(from.point.feet).is_some() {
            break;
        }
        for point in search.checks.steps(from.point.feet) {
            search.visit(cursor, from, point);
        }
    }
    (search.trace, search.nodes)
}

struct Search<'a> {
    checks: Checks<'a>,
    scene: &'a Scene,
    nodes: Vec<NodeRecord>,
    waiting: Vec<Entry>,
    pushed: u64,
    trace: Trace,
}

impl Search<'_> {
    fn push(&mut self, node: usize, estimate: f64) {
        self.waiting.push(Entry {
            estimate,
            order: self.pushed,
            node,
        });
        self.pushed += 1;
    }

    /// The open node of the lowest estimate, earliest push first.
    fn pop(&mut self) -> Option<usize> {
        self.waiting
            .retain(|entry| self.nodes[entry.node].closed == 0);
        let place = (0..self.waiting.len()).min_by(|&a, &b| {
            let (a, b) = (&self.waiting[a], &self.waiting[b]);
            a.estimate
                .total_cmp(&b.estimate)
                .then(a.order.cmp(&b.order))
        })?;
        let entry = self.waiting.swap_remove(place);
        let tie = |other: &Entry| other.estimate == entry.estimate && other.node != entry.node;
        self.trace.ties += u64::from(self.waiting.iter().any(tie));
        Some(entry.node)
    }

    fn visit(&mut self, cursor: usize, from: NodeRecord, point: Waypoint) {
        let cost = from.cost + distance(from.point.feet, point.feet);
        let known = self
            .nodes
            .iter()
            .position(|node| node.point.feet == point.feet);
        let record = NodeRecord {
            point,
            cost,
            parent: cursor as u32,
            closed: 0,
        };
        let node = match known {
            Some(k) if self.nodes[k].closed == 1 => return,
            Some(k) if cost + E < self.nodes[k].cost => {
                self.trace.reparented += 1;
                self.trace.turned += u64::from(self.nodes[k].point.door != point.door);
                self.nodes[k] = record;
                k
            }
            Some(_) => return,
            None if self.nodes.len() as u64 == self.scene.request.node_budget => {
                self.trace.dropped += 1;
                return;
            }
            None => {
                self.nodes.push(record);
                self.nodes.len() - 1
            }
        };
        let estimate = cost + 1.5 * distance(point.feet, self.scene.request.goal);
        self.push(node, estimate);
    }
}

fn distance(a: [f64; 3], b: [f64; 3]) -> f64 {
    let [x, y, z] = [0, 1, 2].map(|axis| a[axis] - b[axis]);
    (x * x + y * y + z * z).sqrt()
}
