//! How often each thing happens in the scenes of a kind.

use std::collections::BTreeMap;
use std::fmt::Write;

use scene::{Answer, NO_DOOR, Verdict, Waypoint};

use crate::trace::trace;

#[derive(Default)]
struct Tally {
    scenes: u64,
    /// Scenes by outcome or refusal.
    verdicts: BTreeMap<String, u64>,
    /// Searches that began, and their retained and closed nodes.
    began: u64,
    retained: u64,
    closed: u64,
    /// Movements of the edges of found lists, and of the retained nodes.
    list_moves: [u64; 4],
    node_moves: [u64; 4],
    diagonals: u64,
    list_edges: u64,
    /// Events, and the scenes in which they happen.
    reparented: [u64; 2],
    turned: [u64; 2],
    list_doors: [u64; 2],
    node_doors: [u64; 2],
    ties: [u64; 2],
    dropped: [u64; 2],
}

/// The shares for `count` scenes of a kind, from seed 1 on.
pub fn stats(kind: &str, count: u64) -> Option<String> {
    let mut tally = Tally::default();
    for seed in 1..=count {
        let bytes = scene::make(seed, kind)?;
        tally.take(&bytes, &original::verdict(&bytes));
    }
    Some(tally.text(kind))
}

impl Tally {
    fn take(&mut self, bytes: &[u8], verdict: &Verdict) {
        self.scenes += 1;
        let name = match verdict {
            Ok(answer) => scene::name(answer.outcome).to_string(),
            Err(refusal) => format!("refused {}", refusal.number),
        };
        *self.verdicts.entry(name).or_default() += 1;
        if let Ok(answer) = verdict
            && !answer.nodes.is_empty()
        {
            self.searched(bytes, answer);
        }
    }

    fn searched(&mut self, bytes: &[u8], answer: &Answer) {
        self.began += 1;
        self.retained += answer.nodes.len() as u64;
        self.closed += answer.closed;
        for node in &answer.nodes[1..] {
            self.node_moves[node.point.movement as usize] += 1;
        }
        for pair in answer.list.windows(2) {
            self.list_edges += 1;
            self.list_moves[pair[1].movement as usize] += 1;
            self.diagonals += u64::from(diagonal(&pair[0], &pair[1]));
        }
        let scene = scene::read(bytes).expect("a scene that was searched is good");
        let (trace, nodes) = trace(&scene);
        let same = |(a, b): (&scene::NodeRecord, &scene::NodeRecord)| a.bytes() == b.bytes();
        assert!(
            nodes.len() == answer.nodes.len() && nodes.iter().zip(&answer.nodes).all(same),
            "the traced search parts from the original"
        );
        for (events, count) in [
            (&mut self.reparented, trace.reparented),
            (&mut self.turned, trace.turned),
            (&mut self.list_doors, doors(answer.list.iter())),
            (
                &mut self.node_doors,
                doors(answer.nodes.iter().map(|node| &node.point)),
            ),
            (&mut self.ties, trace.ties),
            (&mut self.dropped, trace.dropped),
        ] {
            events[0] += count;
            events[1] += u64::from(count > 0);
        }
    }

    fn text(&self, kind: &str) -> String {
        let mut out = format!("{kind}: {} scenes", self.scenes);
        for (name, count) in &self.verdicts {
            let _ = write!(out, ", {name} {}", share(*count, self.scenes));
        }
        let _ = write!(
            out,
            "\n  searches {}, retained {}, closed {}",
            self.began, self.retained, self.closed
        );
        let _ = write!(
            out,
            "\n  {} edges of lists: {}, diagonal {}",
            self.list_edges,
            moves(&self.list_moves),
            share(self.diagonals, self.list_edges)
        );
        let _ = write!(out, "\n  edges to nodes: {}", moves(&self.node_moves));
        for (name, [events, scenes]) in [
            ("doors of lists", self.list_doors),
            ("doors of nodes", self.node_doors),
            ("re-parented", self.reparented),
            ("re-parented with another door", self.turned),
            ("equal estimates", self.ties),
            ("dropped points", self.dropped),
        ] {
            let _ = write!(
                out,
                "\n  {name} {events}, in {} of the searches",
                share(scenes, self.began)
            );
        }
        out.push('\n');
        out
    }
}

/// The shares of the four movements.
fn moves(moves: &[u64; 4]) -> String {
    let all = moves.iter().sum();
    ["walk", "step", "jump", "drop"]
        .iter()
        .zip(moves)
        .map(|(name, &count)| format!("{name} {}", share(count, all)))
        .collect::<Vec<_>>()
        .join(", ")
}

/// How many of the points have a door.
fn doors<'a>(points: impl Iterator<Item = &'a Waypoint>) -> u64 {
    points.filter(|point| point.door != NO_DOOR).count() as u64
}

/// Both columns differ.
fn diagonal(a: &Waypoint, b: &Waypoint) -> bool {
    a.feet[0].floor() != b.feet[0].floor() && a.feet[2].floor() != b.feet[2].floor()
}

fn share(count: u64, all: u64) -> String {
    format!("{:.1}%", 100.0 * count as f64 / all.max(1) as f64)
}
