//! Lists for a walk-back: the found one of a scene and each of its damages, ways
//! that go wrong at one step, other routes, and lists that no search gave.

use std::collections::BTreeMap;

use original::Checks;
use scene::{Answer, NO_DOOR, NO_PARENT, NodeRecord, Outcome, Scene, WAYPOINT, Waypoint, u64_at};

use crate::chance::Chance;
use crate::pairs::put_off;

/// Where a list comes from.
#[derive(Debug, Clone, Copy, PartialEq, Eq)]
pub enum Source {
    /// Of the search itself.
    Found,
    /// The found list with one thing changed.
    Damaged,
    /// The found list, and further from its goal.
    Beyond,
    /// The way to a retained node, and a step that may be none.
    Off,
    /// Both ends, or one of them.
    Ends,
    /// Retained points in any order.
    Retained,
    /// Random steps, and the connector.
    Walk,
    /// The way to a retained node, and a step to a height around it that has an
    /// edge's reason, each reason once.
    Refused,
    /// A way of the search on a scene that was spoilt since.
    Spoilt,
    /// Any bytes.
    Bytes,
}

pub struct List {
    pub source: Source,
    pub bytes: Vec<u8>,
}

/// How many lists of each kind are made where there are nodes.
const OFF: usize = 6;
const SPOILT: usize = 6;
const BEYOND: usize = 2;
const RETAINED: usize = 3;
const WALKS: usize = 3;
/// How many nodes are looked through for reasons.
const LOOKED: usize = 64;

/// The lists of a scene, by its search's answer, if it was not refused; the same
/// for the same seed.
pub fn lists(scene: &Scene, answer: Option<&Answer>, seed: u64) -> Vec<List> {
    let mut chance = Chance::new(seed);
    let mut out = Vec::new();
    let nodes = answer.map_or(&[][..], |answer| &answer.nodes[..]);
    if let Some(answer) = answer
        && answer.outcome == Outcome::Found
    {
        found(scene, &answer.list, &mut chance, &mut out);
    }
    unsearched(scene, &mut chance, &mut out);
    if !nodes.is_empty() {
        searched(scene, nodes, &mut chance, &mut out);
    }
    out
}

/// The lists of a scene that was spoilt: ways to the nodes that its search
/// retained before, and to those that it retains now with a step more.
pub fn spoilt_lists(
    before: &[NodeRecord],
    scene: &Scene,
    answer: Option<&Answer>,
    seed: u64,
) -> Vec<List> {
    let mut chance = Chance::new(seed);
    let mut out = Vec::new();
    for _ in 0..SPOILT {
        let list = way(before, chance.below(before.len()));
        push(&mut out, Source::Spoilt, &list);
    }
    let nodes = answer.map_or(&[][..], |answer| &answer.nodes[..]);
    if !nodes.is_empty() {
        let goal = Waypoint::walked(scene.request.goal);
        ways_off(&mut Checks::new(scene), nodes, goal, &mut chance, &mut out);
    }
    out
}

fn push(out: &mut Vec<List>, source: Source, points: &[Waypoint]) {
    let bytes = points.iter().flat_map(Waypoint::bytes).collect();
    out.push(List { source, bytes });
}

/// The found list, its damages, and on from its goal.
fn found(scene: &Scene, list: &[Waypoint], chance: &mut Chance, out: &mut Vec<List>) {
    push(out, Source::Found, list);
    let bytes: Vec<u8> = list.iter().flat_map(Waypoint::bytes).collect();
    let damaged = damages(&bytes, chance).into_iter();
    out.extend(damaged.map(|bytes| List {
        source: Source::Damaged,
        bytes,
    }));
    for _ in 0..BEYOND {
        push(out, Source::Beyond, &beyond(scene, list, chance));
    }
}

/// From the goal a step further, and from there back: a route, unless what leads
/// to the goal is a connector alone.
fn beyond(scene: &Scene, list: &[Waypoint], chance: &mut Chance) -> Vec<Waypoint> {
    let mut checks = Checks::new(scene);
    let mut out = list.to_vec();
    let steps = checks.steps(scene.request.goal);
    if !steps.is_empty() {
        let next = chance.pick(&steps);
        out.push(next);
        out.extend(checks.connector(next.feet));
    }
    out
}

/// The list with each record gone, doubled or exchanged with the next, cut at
/// any byte of its last record, and with each field of each record changed.
fn damages(list: &[u8], chance: &mut Chance) -> Vec<Vec<u8>> {
    let mut out = vec![Vec::new(), [list, &[0]].concat(), [list, list].concat()];
    let cut = list.len() - 1 - chance.below(WAYPOINT - 1);
    out.push(list[..cut].to_vec());
    for begin in (0..list.len()).step_by(WAYPOINT) {
        let end = begin + WAYPOINT;
        out.push([&list[..begin], &list[end..]].concat());
        out.push([&list[..end], &list[begin..]].concat());
        if end < list.len() {
            let next = end + WAYPOINT;
            let [one, other] = [&list[begin..end], &list[end..next]];
            out.push([&list[..begin], other, one, &list[next..]].concat());
        }
        for at in (begin..end).step_by(8) {
            for word in other_words(u64_at(list, at), at - begin, chance) {
                let mut changed = list.to_vec();
                changed[at..at + 8].copy_from_slice(&word.to_le_bytes());
                out.push(changed);
            }
        }
    }
    out
}

/// Other words for the one at this place of a record: for a movement, for a
/// door, or for a float.
fn other_words(word: u64, place: usize, chance: &mut Chance) -> Vec<u64> {
    let flipped = word ^ 1 << chance.below(64);
    match place {
        32 => {
            return vec![
                word ^ 1,
                word ^ 2,
                word ^ 3,
                word + 4,
                word + (1 << 32),
                word | 1 << 63,
                flipped,
            ];
        }
        40 => return other_doors(word, flipped, chance),
        _ => {}
    }
    let number = f64::from_bits(word);
    let mut out = vec![number.next_up(), number.next_down(), -number, f64::NAN];
    out.push(number + chance.pick(&[1.0, -1.0, 0.5, 1.0e-7, -1.0e-7, 1.0e300]));
    let mut words: Vec<u64> = out.iter().map(|number| number.to_bits()).collect();
    words.push(flipped);
    words
}

/// None for a door and a door for none, a state's neighbours, and what shares its
/// low half.
fn other_doors(door: u64, flipped: u64, chance: &mut Chance) -> Vec<u64> {
    let mut out = vec![
        NO_DOOR,
        0,
        1 + chance.below(6) as u64,
        door ^ 1,
        door.wrapping_add(1 << 32),
        NO_DOOR - 1,
        NO_DOOR + 1,
        u64::MAX,
        flipped,
    ];
    out.retain(|&other| other != door);
    out
}

/// Lists that need no search: the ends, and any bytes.
fn unsearched(scene: &Scene, chance: &mut Chance, out: &mut Vec<List>) {
    let ends = [scene.request.start, scene.request.goal].map(Waypoint::walked);
    push(out, Source::Ends, &ends);
    push(out, Source::Ends, &ends[..1]);
    push(out, Source::Ends, &ends[1..]);
    let length = WAYPOINT * chance.below(5) + chance.pick(&[0, 0, 1]);
    let words = (0..length / 8 + 1).flat_map(|_| chance.word().to_le_bytes());
    out.push(List {
        source: Source::Bytes,
        bytes: words.take(length).collect(),
    });
}

/// Lists over the points that a search retained.
fn searched(scene: &Scene, nodes: &[NodeRecord], chance: &mut Chance, out: &mut Vec<List>) {
    let ends = [scene.request.start, scene.request.goal].map(Waypoint::walked);
    let points: Vec<Waypoint> = nodes.iter().map(|node| node.point).collect();
    for _ in 0..RETAINED {
        let middle: Vec<Waypoint> = (0..chance.below(6)).map(|_| chance.pick(&points)).collect();
        push(
            out,
            Source::Retained,
            &[&ends[..1], &middle, &ends[1..]].concat(),
        );
    }
    let mut checks = Checks::new(scene);
    for _ in 0..WALKS {
        push(out, Source::Walk, &walk(&mut checks, ends[0], chance));
    }
    ways_off(&mut checks, nodes, ends[1], chance, out);
}

/// Ways to retained nodes that go on off the graph's steps, or along them.
fn ways_off(
    checks: &mut Checks,
    nodes: &[NodeRecord],
    goal: Waypoint,
    chance: &mut Chance,
    out: &mut Vec<List>,
) {
    for _ in 0..OFF {
        let list = off(checks, nodes, goal, chance);
        push(out, Source::Off, &list);
    }
    for (node, to) in refused_steps(checks, nodes) {
        let list = [way(nodes, node), vec![Waypoint::walked(to)]].concat();
        push(out, Source::Refused, &list);
    }
}

/// A retained node and a height around it for each reason that an edge there
/// has.
pub fn refused_steps(checks: &mut Checks, nodes: &[NodeRecord]) -> Vec<(usize, [f64; 3])> {
    let mut steps = BTreeMap::new();
    for (place, node) in nodes.iter().enumerate().take(LOOKED) {
        let from = node.point.feet;
        for column in checks.columns(from) {
            for (y, _) in column.heights {
                let to = [column.x, y, column.z];
                if let Err(reason) = checks.edge_check(from, to) {
                    steps.insert(reason, (place, to));
                }
            }
        }
    }
    steps.into_values().collect()
}

/// A walk over random steps that takes the connector once there is one.
fn walk(checks: &mut Checks, start: Waypoint, chance: &mut Chance) -> Vec<Waypoint> {
    let mut list = vec![start];
    let mut at = start.feet;
    for _ in 0..1 + chance.below(24) {
        if let Some(last) = checks.connector(at).filter(|_| !chance.once_in(3)) {
            list.push(last);
            break;
        }
        let steps = checks.steps(at);
        if steps.is_empty() {
            break;
        }
        let next = chance.pick(&steps);
        list.push(next);
        at = next.feet;
    }
    list
}

/// The way to a retained node, then a point at or near a height around it, with
/// the movement and lift of the edge there, if there is one; then perhaps the
/// goal, so that the pair is not the last.
fn off(
    checks: &mut Checks,
    nodes: &[NodeRecord],
    goal: Waypoint,
    chance: &mut Chance,
) -> Vec<Waypoint> {
    let mut list = way(nodes, chance.below(nodes.len()));
    let from = list[list.len() - 1].feet;
    let columns = checks.columns(from);
    let column = &columns[chance.below(columns.len())];
    let y = match column.heights.len() {
        0 => from[1],
        count => column.heights[chance.below(count)].0,
    };
    let (_, to) = put_off((from, [column.x, y, column.z]), chance);
    list.push(checks.edge_check(from, to).unwrap_or(Waypoint::walked(to)));
    if chance.once_in(2) {
        list.push(goal);
    }
    list
}

/// The parents of a node from the start on, and the node.
fn way(nodes: &[NodeRecord], node: usize) -> Vec<Waypoint> {
    let mut list = Vec::new();
    let mut at = node as u32;
    while at != NO_PARENT {
        list.push(nodes[at as usize].point);
        at = nodes[at as usize].parent;
    }
    list.reverse();
    list
}
