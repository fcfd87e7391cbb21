//! What another hand changes in a search under way: its counts, the records of
//! its nodes and of its frontier, what is lent, and what is asked. Each change is
//! of one thing, on both sides of a border of number 12 where there is one.

use reading::E;
use scene::{FrontierRecord, NO_PARENT, NODE, NodeRecord, WAITING};

use crate::chance::Chance;
use crate::states::{State, grow, needed};

pub struct Change {
    pub name: &'static str,
    pub make: fn(&mut State, &mut Chance),
}

const fn change(name: &'static str, make: fn(&mut State, &mut Chance)) -> Change {
    Change { name, make }
}

pub const CHANGES: [Change; 49] = [
    change("expansions", expansions),
    change("retained", retained),
    change("closed", closed),
    change("pushed", |state, chance| {
        state.counts.pushed = near_the_end(chance)
    }),
    change("dropped", |state, chance| {
        state.counts.dropped = near_the_end(chance)
    }),
    change("a coordinate at the range's border", range_border),
    change("a coordinate that is no number", odd_coordinate),
    change("a point moved", moved),
    change("a point at another node", at_another),
    change("a point at the goal", at_the_goal),
    change("a zero's sign, and a dearer cost", zero_sign),
    change("a cost", cost),
    change("dearer costs", dearer),
    change("a movement", movement),
    change("a lift or a door", lift_or_door),
    change("a closed mark", closed_mark),
    change("a node opened or closed", turned),
    change("a parent", parent),
    change("a parent that is open", open_parent),
    change("a parent of a higher number", higher_parent),
    change("a cycle", cycle),
    change("a parent of node 0", parent_of_start),
    change("no parent", no_parent),
    change("a waiting mark", waiting_mark),
    change("an estimate", estimate),
    change("a push order", push_order),
    change("a tie", tie),
    change("zeros that tie", zeros_tie),
    change("all orders equal", equal_orders),
    change("an estimate that a re-push equals", equal_push),
    change("an idle record with old words", stale),
    change("a waiting node made idle", made_idle),
    change("a closed node that waits", closed_waits),
    change("nothing waits", nothing_waits),
    change("a waiting word past retained", past_retained),
    change("a waiting word past the budget", past_budget),
    change("a part of a record", part_of_a_record),
    change("any bytes in a node", node_bytes),
    change("any bytes in a frontier record", front_bytes),
    change("a bit", one_bit),
    change("two nodes exchanged", exchanged),
    change("another goal", goal),
    change("another start", start),
    change("another range", range),
    change("another budget", budget),
    change("another body", body),
    change("another cell", cell),
    change("another permission", permission),
    change("several refusals", several),
];

/// Counts of every size.
const ENDS: [u64; 6] = [0, 1, 1 << 32, (1 << 32) + 1, 1 << 63, u64::MAX];

fn expansions(state: &mut State, chance: &mut Chance) {
    let borders = [2, 4095, 4096, 4097, 4098, (1 << 32) + 4096];
    state.expansions = chance.pick(&[ENDS, borders].concat());
}

fn retained(state: &mut State, chance: &mut Chance) {
    let (now, budget) = (state.counts.retained, state.scene.request.node_budget);
    let near = [now.saturating_sub(1), now + 1, (1 << 32) + now];
    let border = [budget.saturating_sub(1), budget, budget.saturating_add(1)];
    let all = [&near[..], &near, &border, &[4096, 4097], &ENDS].concat();
    state.counts.retained = chance.pick(&all);
}

fn closed(state: &mut State, chance: &mut Chance) {
    let (now, budget) = (state.counts.retained, state.scene.request.node_budget);
    let near = [now.saturating_sub(1), now, now + 1, state.counts.closed + 1];
    let border = [budget, budget.saturating_add(1)];
    state.counts.closed = chance.pick(&[&near[..], &near, &border, &ENDS].concat());
}

/// A count of pushes or of drops.
fn near_the_end(chance: &mut Chance) -> u64 {
    let border = [(1 << 32) - 2, (1 << 32) - 1, (1 << 32) - 1, 1 << 32];
    chance.pick(&[&border[..], &border, &ENDS, &[2, 1000]].concat())
}

fn set_coordinate(state: &mut State, chance: &mut Chance, number: f64) {
    let (k, axis) = (state.any(chance), chance.below(3));
    state.with_node(k, |node| node.point.feet[axis] = number);
}

/// A number, the f64 on either side of it, or itself.
fn beside(number: f64, chance: &mut Chance) -> f64 {
    chance.pick(&[number, number.next_up(), number.next_down()])
}

fn range_border(state: &mut State, chance: &mut Chance) {
    let request = &state.scene.request;
    let (k, axis) = (state.any(chance), chance.below(3));
    let most = chance.pick(&[1.0, -1.0]) * (request.max_range + E);
    let number = beside(request.start[axis] + most, chance);
    state.with_node(k, |node| node.point.feet[axis] = number);
}

/// Numbers that are none, and huge ones.
const ODD: [f64; 6] = [
    f64::NAN,
    -f64::NAN,
    f64::INFINITY,
    f64::NEG_INFINITY,
    f64::MAX,
    -1.0e300,
];

fn odd_coordinate(state: &mut State, chance: &mut Chance) {
    let number = chance.pick(&ODD);
    set_coordinate(state, chance, number);
}

fn moved(state: &mut State, chance: &mut Chance) {
    let (k, axis) = (state.any(chance), chance.below(3));
    let by = chance.pick(&[1.0, -1.0, 0.5, -0.25, 2.0, E, 0.01]);
    state.with_node(k, |node| node.point.feet[axis] += by);
}

/// Two records at one point, now and then with the costs of one of them.
fn at_another(state: &mut State, chance: &mut Chance) {
    let [k, other] = [state.any(chance), state.any(chance)];
    let NodeRecord { point, cost, .. } = state.node(other);
    let too = chance.once_in(2);
    state.with_node(k, |node| {
        node.point.feet = point.feet;
        node.cost = if too { cost } else { node.cost + 3.0 };
    });
}

fn at_the_goal(state: &mut State, chance: &mut Chance) {
    let goal = state.scene.request.goal;
    let k = state.one(chance, State::waits).unwrap_or(0);
    state.with_node(k, |node| node.point.feet = goal);
}

fn zero_sign(state: &mut State, chance: &mut Chance) {
    let zero = |state: &State, k: usize| state.open(k) && state.node(k).point.feet.contains(&0.0);
    if let Some(k) = state.one(chance, zero) {
        state.with_node(k, |node| {
            let turned = |n: f64| if n == 0.0 { -n } else { n };
            node.point.feet = node.point.feet.map(turned);
            node.cost += 1000.0;
        });
    }
}

fn cost(state: &mut State, chance: &mut Chance) {
    let k = state.any(chance);
    let now = state.node(k).cost;
    let near = [now + E, now + 2.0 * E, now - 0.5, -1.0, 0.0, -0.0, f64::MIN];
    let number = chance.pick(&[&near[..], &ODD].concat());
    state.with_node(k, |node| node.cost = number);
}

/// Open nodes that a cheaper way re-parents.
fn dearer(state: &mut State, chance: &mut Chance) {
    for k in (0..state.nodes)
        .filter(|&k| state.open(k))
        .collect::<Vec<_>>()
    {
        let more = chance.pick(&[0.0, 1000.0, 1.0, 0.25, 1.0e9]);
        state.with_node(k, |node| node.cost += more);
    }
}

fn movement(state: &mut State, chance: &mut Chance) {
    let k = state.any(chance);
    let number = chance.pick(&[0, 1, 2, 3, 3, 4, 4, 5, 1 << 32, (1 << 32) + 3, u64::MAX]);
    state.with_node(k, |node| node.point.movement = number);
}

fn lift_or_door(state: &mut State, chance: &mut Chance) {
    let (k, word) = (state.any(chance), chance.word());
    let lift = chance.pick(&[&[f64::from_bits(word), 0.5, -0.0], &ODD[..]].concat());
    state.with_node(k, |node| match word % 2 {
        0 => node.point.lift = lift,
        _ => node.point.door = word,
    });
}

/// Of any node, or of a closed one that is nobody's parent, so that only the mark
/// shows.
fn closed_mark(state: &mut State, chance: &mut Chance) {
    let childless = |state: &State, k: usize| {
        let parent = |child: usize| state.node(child).parent as usize;
        state.closed(k) && (0..state.nodes).all(|child| parent(child) != k)
    };
    let alone = state.one(chance, childless).filter(|_| !chance.once_in(3));
    let k = alone.unwrap_or_else(|| state.any(chance));
    let mark = chance.pick(&[0, 1, 2, 2, 3, 256, 1 << 31, u32::MAX]);
    state.with_node(k, |node| node.closed = mark);
}

/// An open node closed, and mostly made idle; or a closed one opened.
fn turned(state: &mut State, chance: &mut Chance) {
    let k = state.any(chance);
    state.with_node(k, |node| node.closed ^= 1);
    if !chance.once_in(4) {
        state.with_entry(k, |entry| *entry = FrontierRecord::IDLE);
    }
}

fn parent(state: &mut State, chance: &mut Chance) {
    let k = state.any(chance);
    let nodes = state.nodes as u32;
    let border = [
        k as u32,
        nodes - 1,
        nodes,
        nodes + 1,
        0,
        1 << 31,
        NO_PARENT - 1,
    ];
    let any = chance.below(state.nodes) as u32;
    let parent = chance.pick(&[&border[..], &[any; 5]].concat());
    state.with_node(k, |node| node.parent = parent);
}

fn open_parent(state: &mut State, chance: &mut Chance) {
    if let Some(parent) = state.one(chance, State::open) {
        let other = |_: &State, k: usize| k > 0 && k != parent;
        if let Some(k) = state.one(chance, other) {
            state.with_node(k, |node| node.parent = parent as u32);
        }
    }
}

/// The way of a node leads through another.
fn descends(state: &State, from: usize, to: usize) -> bool {
    let parent = |&k: &usize| Some(state.node(k).parent as usize).filter(|&k| k < state.nodes);
    let mut way = std::iter::successors(Some(from), parent).take(state.nodes);
    way.any(|k| k == to)
}

fn higher_parent(state: &mut State, chance: &mut Chance) {
    let Some(parent) = state.one(chance, |state, k| k > 1 && state.closed(k)) else {
        return;
    };
    let lower = |state: &State, k: usize| k > 0 && k < parent && !descends(state, parent, k);
    if let Some(k) = state.one(chance, lower) {
        state.with_node(k, |node| node.parent = parent as u32);
    }
}

/// One to three closed nodes in a ring.
fn cycle(state: &mut State, chance: &mut Chance) {
    let count = 1 + chance.below(3);
    let closed = |state: &State, k: usize| k > 0 && state.closed(k);
    let ring: Vec<_> = (0..count)
        .filter_map(|_| state.one(chance, closed))
        .collect();
    for (place, &k) in ring.iter().enumerate() {
        let parent = ring[(place + 1) % ring.len()] as u32;
        state.with_node(k, |node| node.parent = parent);
    }
}

fn parent_of_start(state: &mut State, chance: &mut Chance) {
    let any = chance.below(state.nodes) as u32;
    let parent = chance.pick(&[0, any, any, state.nodes as u32, NO_PARENT - 1]);
    state.with_node(0, |node| node.parent = parent);
}

fn no_parent(state: &mut State, chance: &mut Chance) {
    let k = chance.below(state.nodes);
    state.with_node(k, |node| node.parent = NO_PARENT);
}

/// Waiting words: of those that do not wait only 0 is a mark.
const WORDS: [u64; 9] = [0, 1, 1, 2, 3, 256, 1 << 32, (1 << 32) + 1, u64::MAX];

fn waiting_mark(state: &mut State, chance: &mut Chance) {
    let (k, word) = (state.any(chance), chance.pick(&WORDS));
    state.with_entry(k, |entry| entry.waiting = word);
}

fn estimate(state: &mut State, chance: &mut Chance) {
    let k = state.any(chance);
    let other = state.entry(state.any(chance)).estimate;
    let number = chance.pick(&[&ODD[..], &[other, 0.0, -0.0, -1.0e9, 1.0e9]].concat());
    state.with_entry(k, |entry| entry.estimate = number);
}

fn push_order(state: &mut State, chance: &mut Chance) {
    let k = state.any(chance);
    let other = state.entry(state.any(chance)).push;
    let order = chance.pick(&[other, other, 0, 1 << 32, u64::MAX, state.counts.pushed]);
    state.with_entry(k, |entry| entry.push = order);
}

/// Two nodes that wait, each with an estimate, and with one order or two.
fn tied(state: &mut State, chance: &mut Chance, estimates: [f64; 2]) {
    let Some(first) = state.one(chance, State::waits) else {
        return;
    };
    let second = state.one(chance, |state, k| state.waits(k) && k != first);
    let push = state.entry(first).push;
    let other = chance.pick(&[push, push.wrapping_add(1), push.wrapping_sub(1)]);
    let entry = |estimate: f64, push: u64| FrontierRecord {
        estimate,
        push,
        waiting: 1,
    };
    state.with_entry(first, |old| *old = entry(estimates[0], push));
    if let Some(second) = second {
        state.with_entry(second, |old| *old = entry(estimates[1], other));
    }
}

fn tie(state: &mut State, chance: &mut Chance) {
    let estimate = chance.pick(&[0.0, -5.0, 2.5]);
    tied(state, chance, [estimate; 2]);
}

fn zeros_tie(state: &mut State, chance: &mut Chance) {
    tied(state, chance, [0.0, -0.0]);
}

fn equal_orders(state: &mut State, chance: &mut Chance) {
    let order = chance.pick(&[0, 7, u64::MAX]);
    let estimates = chance.once_in(2);
    for k in 0..state.nodes {
        state.with_entry(k, |entry| {
            entry.push = order;
            if estimates {
                entry.estimate = 1.0;
            }
        });
    }
}

/// A node that waits beside the next to be expanded, dearer, with the estimate that
/// a way from there gives it, or a little above or below.
fn equal_push(state: &mut State, chance: &mut Chance) {
    let Some(next) = state.one(chance, State::waits) else {
        return;
    };
    let NodeRecord { point, cost, .. } = state.node(next);
    let far = |to: [f64; 3], from: [f64; 3]| {
        let [x, y, z] = [0, 1, 2].map(|axis| to[axis] - from[axis]);
        (x * x + y * y + z * z).sqrt()
    };
    let beside_it = |state: &State, k: usize| {
        k != next && state.waits(k) && far(state.node(k).point.feet, point.feet) < 1.5
    };
    if let Some(k) = state.one(chance, beside_it) {
        let feet = state.node(k).point.feet;
        let cost = cost + far(feet, point.feet);
        let estimate = cost + 1.5 * far(feet, state.scene.request.goal);
        let estimate = beside(estimate, chance);
        state.with_node(k, |node| node.cost = cost + 1000.0);
        state.with_entry(k, |entry| entry.estimate = estimate);
        state.with_entry(next, |entry| entry.estimate = -1.0e9);
    }
}

fn old_words(chance: &mut Chance) -> FrontierRecord {
    let any = f64::from_bits(chance.word());
    FrontierRecord {
        estimate: chance.pick(&[&[any, -1.0e9, 0.25], &ODD[..]].concat()),
        push: chance.word(),
        waiting: 0,
    }
}

fn stale(state: &mut State, chance: &mut Chance) {
    let idle = |state: &State, k: usize| !state.waits(k);
    if let Some(k) = state.one(chance, idle) {
        let old = old_words(chance);
        state.with_entry(k, |entry| *entry = old);
    }
}

/// Open nodes that do not wait, some with old words, and dearer, so that a way to
/// them is cheaper.
fn made_idle(state: &mut State, chance: &mut Chance) {
    for k in (0..state.nodes)
        .filter(|&k| state.waits(k))
        .collect::<Vec<_>>()
    {
        if chance.once_in(2) {
            let old = old_words(chance);
            let old = chance.pick(&[FrontierRecord::IDLE, old]);
            state.with_entry(k, |entry| *entry = old);
            state.with_node(k, |node| node.cost += 1000.0);
        }
    }
}

fn closed_waits(state: &mut State, chance: &mut Chance) {
    if let Some(k) = state.one(chance, State::closed) {
        state.with_entry(k, |entry| {
            *entry = FrontierRecord {
                waiting: 1,
                ..*entry
            }
        });
    }
}

fn nothing_waits(state: &mut State, chance: &mut Chance) {
    match chance.once_in(2) {
        true => state.lent.front.fill(0),
        false => {
            for k in 0..state.nodes {
                state.with_entry(k, |entry| entry.waiting = 0);
            }
        }
    }
}

/// A waiting word in the frontier record of this number, if it is lent.
fn wait_at(state: &mut State, k: usize, chance: &mut Chance) {
    if k < state.lent.front.len() / WAITING {
        let word = chance.pick(&WORDS);
        let old = old_words(chance);
        state.with_entry(k, |entry| {
            *entry = FrontierRecord {
                waiting: word,
                ..old
            }
        });
    }
}

fn past_retained(state: &mut State, chance: &mut Chance) {
    let further = chance.pick(&[0, 0, 1, 5]);
    wait_at(state, state.nodes + further, chance);
}

fn past_budget(state: &mut State, chance: &mut Chance) {
    let further = chance.pick(&[0, 0, 1, 5]);
    let records = state.budget() + further + 1;
    let length = (WAITING * records + chance.below(WAITING)).max(state.lent.front.len());
    state.lent.front.resize(length, 0);
    wait_at(state, records - 1, chance);
}

/// The frontier room ends within a waiting word that would be 1.
fn part_of_a_record(state: &mut State, chance: &mut Chance) {
    let records = state.lent.front.len() / WAITING;
    state.lent.front.truncate(WAITING * records);
    let part = 17 + chance.below(WAITING - 17);
    let bytes = (0..part).map(|at| u8::from(at == 16));
    state.lent.front.extend(bytes);
}

/// Any bytes in some part of a record.
fn strewn(record: &mut [u8], chance: &mut Chance) {
    let first = chance.below(record.len());
    let count = 1 + chance.below(record.len() - first);
    for byte in &mut record[first..][..count] {
        *byte = chance.word() as u8;
    }
}

fn node_bytes(state: &mut State, chance: &mut Chance) {
    let k = state.any(chance);
    strewn(&mut state.lent.nodes[NODE * k..][..NODE], chance);
}

fn front_bytes(state: &mut State, chance: &mut Chance) {
    let k = state.any(chance);
    strewn(&mut state.lent.front[WAITING * k..][..WAITING], chance);
}

fn one_bit(state: &mut State, chance: &mut Chance) {
    let (k, bit) = (state.any(chance), chance.below(8 * NODE));
    match chance.once_in(3) {
        true => state.lent.front[WAITING * k + bit / 8 % WAITING] ^= 1 << (bit % 8),
        false => state.lent.nodes[NODE * k + bit / 8] ^= 1 << (bit % 8),
    }
}

/// With their frontier records; their children's parents stay.
fn exchanged(state: &mut State, chance: &mut Chance) {
    let [a, b] = [state.any(chance), state.any(chance)];
    let [node_a, node_b] = [a, b].map(|k| state.node(k));
    let [entry_a, entry_b] = [a, b].map(|k| state.entry(k));
    state.with_node(a, |node| *node = node_b);
    state.with_node(b, |node| *node = node_a);
    state.with_entry(a, |entry| *entry = entry_b);
    state.with_entry(b, |entry| *entry = entry_a);
}

/// Far away, at a node, beside itself or in the air.
fn goal(state: &mut State, chance: &mut Chance) {
    let axis = chance.below(3);
    let at = state.node(state.any(chance)).point.feet;
    let goal = &mut state.scene.request.goal;
    match chance.below(4) {
        0 => goal[axis] = chance.pick(&[1.0e9, -1.0e9, 3.0e9, f64::NAN]),
        1 => *goal = at,
        _ => goal[axis] += chance.pick(&[0.3, -0.3, 1.0, -1.0, 20.0, E]),
    }
}

fn start(state: &mut State, chance: &mut Chance) {
    let axis = chance.below(3);
    let by = chance.pick(&[0.3, -0.3, 1.0, -1.0, 16.0, E, f64::INFINITY]);
    state.scene.request.start[axis] += by;
}

/// A range that the furthest coordinate just has, or just has not, and others.
fn range(state: &mut State, chance: &mut Chance) {
    let request = &state.scene.request;
    let feet = state.node(state.any(chance)).point.feet;
    let far = |axis: usize| (feet[axis] - request.start[axis]).abs();
    let far = beside(far(0).max(far(1)).max(far(2)) - E, chance);
    let others = [0.0, 64.0, f64::NAN, -1.0, 64.0f64.next_up()];
    state.scene.request.max_range = chance.pick(&[&[far; 5][..], &others].concat());
}

/// A budget, and mostly rooms for it.
fn budget(state: &mut State, chance: &mut Chance) {
    let now = state.nodes as u64;
    let near = [now - 1, now, now + 1];
    let budget = chance.pick(&[&near[..], &near, &[0, 4096, 4097, u64::MAX]].concat());
    state.scene.request.node_budget = budget;
    if !chance.once_in(3) {
        grow(&mut state.lent, budget);
    }
}

fn body(state: &mut State, chance: &mut Chance) {
    let body = &mut state.scene.body;
    match chance.below(3) {
        0 => body.width = chance.pick(&[0.1, 0.9, 1.5, 8.0, 8.0f64.next_up(), 0.0]),
        1 => body.height = chance.pick(&[0.5, 2.5, 16.0, 16.0f64.next_up(), f64::NAN]),
        _ => body.step_height = chance.pick(&[0.0, 0.5, 1.25, -0.0, -1.0]),
    }
}

/// A cell becomes as another one.
fn cell(state: &mut State, chance: &mut Chance) {
    let cells = &mut state.scene.tables.cells;
    if !cells.is_empty() {
        let [to, from] = [(); 2].map(|()| chance.below(cells.len()));
        cells[to] = cells[from];
    }
}

fn permission(state: &mut State, chance: &mut Chance) {
    let permissions = &mut state.scene.tables.permissions;
    if !permissions.is_empty() {
        let place = chance.below(permissions.len());
        permissions[place] ^= chance.pick(&[1, 2, 4, 8]);
    }
}

/// A room that is a byte or more too short.
fn short_room(state: &mut State, chance: &mut Chance) {
    let needed = needed(state.scene.request.node_budget);
    let room = chance.below(3);
    let lent = &mut state.lent;
    let lent = [&mut lent.nodes, &mut lent.front, &mut lent.out];
    let short = chance.pick(&[1, 1, 23, 24, 48, 64, 1000]);
    for (place, bytes) in lent.into_iter().enumerate() {
        if place == room {
            bytes.truncate(needed[room].saturating_sub(short));
        }
    }
}

/// Some of what is refused, each by its number, so that their order shows.
fn several(state: &mut State, chance: &mut Chance) {
    if chance.once_in(4) {
        state.scene.tables.shapes.push((0, 17));
    }
    if chance.once_in(3) {
        state.scene.request.jump_height = chance.pick(&[-1.0, f64::NAN, f64::INFINITY]);
    }
    if chance.once_in(2) {
        state.scene.request.max_range = 65.0;
    }
    if chance.once_in(2) {
        short_room(state, chance);
    }
    if chance.once_in(2) {
        state.expansions = 0;
    }
}
