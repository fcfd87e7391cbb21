//! Directed calls of begin and continue, on the flat scene and on the same with a
//! wall across it, with the numbers and counts that they must answer.

use reading::{BAD_PROGRESS, Counts, Lent, PROGRESS, SEARCHING, Tick};
use scene::{FrontierRecord, NO_PARENT, NodeRecord, Scene};

use crate::chance::Chance;
use crate::states::{Answers, Ended, MOST, State, read, rooms};
use crate::ticked::is_whole;

const FLAT: &str = include_str!("../../../scenes/flat.txt");
const WALL: &str = "fill 1 1 -2 to 1 3 2 state stone shape 1\n";

/// Number, count, retained, closed, pushed, dropped.
type Told = [u64; 6];

/// A search in lots; what some of its calls of continue answer, counted from 1. The
/// calls that are not told are still searching.
#[derive(Clone)]
struct Case {
    name: &'static str,
    scene: Scene,
    lots: Vec<u64>,
    told: Vec<(usize, Told)>,
}

fn flat(budget: u64, more: &str) -> Scene {
    let bytes = scene::from_text(&format!("{FLAT}{more}")).expect("a scene's text");
    let mut scene = scene::read(&bytes).expect("a scene");
    scene.request.node_budget = budget;
    scene
}

fn at_the_goal() -> Scene {
    let mut scene = flat(64, "");
    scene.request.goal = scene.request.start;
    scene
}

fn case(name: &'static str, scene: Scene, lots: &[u64], told: &[(usize, Told)]) -> Case {
    Case {
        name,
        scene,
        lots: lots.to_vec(),
        told: told.to_vec(),
    }
}

/// Two expansions find the goal.
fn found() -> Vec<Case> {
    let both = [(1, [100, 0, 9, 1, 9, 0]), (2, [0, 3, 9, 2, 9, 0])];
    let of_two = [(1, [100, 0, 2, 1, 2, 7]), (2, [0, 3, 2, 2, 2, 7])];
    let (at_once, start) = ([0, 3, 9, 2, 9, 0], [0, 1, 1, 1, 1, 0]);
    vec![
        case("flat, 1 + 1", flat(64, ""), &[1, 1], &both),
        case("flat, 4,096", flat(64, ""), &[MOST], &[(1, at_once)]),
        case("flat, budget 2", flat(2, ""), &[1, 1], &of_two),
        case("start at the goal", at_the_goal(), &[1], &[(1, start)]),
    ]
}

/// Nothing waits in the end.
fn not_found() -> Vec<Case> {
    let wall = |budget: u64| flat(budget, WALL);
    let (none, before) = ([1, 0, 15, 15, 15, 0], [100, 0, 15, 14, 15, 0]);
    let (one, dropped) = ([2, 0, 1, 1, 1, 8], [2, 0, 14, 14, 14, 3]);
    let lots = [3, 1, 7, 2, 64];
    vec![
        case("flat, budget 1", flat(1, ""), &[1], &[(1, one)]),
        case("wall, ones", wall(64), &[1; 15], &[(15, none)]),
        case("wall, 14", wall(64), &[14], &[(1, before)]),
        case("wall, 14 + 1", wall(64), &[14, 1], &[(2, none)]),
        case("wall, 3 + 1 + 7 + 2 + 64", wall(64), &lots, &[(5, none)]),
        case("wall, budget 14", wall(14), &[1; 14], &[(14, dropped)]),
    ]
}

/// What parts from the cases; how many there are.
pub fn parts(answers: &mut Answers) -> (usize, Vec<String>) {
    let cases = [found(), not_found()].concat();
    let states = [
        refusals(),
        accepted(),
        bad_states(),
        good_states(),
        good_states_of_wall(),
    ]
    .concat();
    let mut parts: Vec<String> = Vec::new();
    for case in &cases {
        let parted = one(case, answers).err();
        parts.extend(parted.map(|parted| format!("{}: {parted}", case.name)));
    }
    for Stated { name, state, must } in &states {
        let parted = one_state(state, must, answers).err();
        parts.extend(parted.map(|parted| format!("{name}: {parted}")));
    }
    parts.extend(unwritten(answers).err());
    (cases.len() + states.len() + 1, parts)
}

/// What a progress record tells, which must begin with the number.
fn told(number: u64, lent: &Lent) -> Result<Told, String> {
    let told: Told = std::array::from_fn(|k| scene::u64_at(&lent.progress, 8 * k));
    match told[0] == number {
        true => Ok(told),
        false => Err(format!("answered {number}, tells {told:?}")),
    }
}

fn one(case: &Case, answers: &mut Answers) -> Result<(), String> {
    let Case { scene, lots, .. } = case;
    let lent = rooms(
        scene.request.node_budget,
        [70; 3],
        PROGRESS,
        &mut Chance::new(0),
    );
    let (mut number, mut now) = answers(scene, Tick::Begin, lent.clone())?;
    same([SEARCHING, 0, 1, 0, 1, 0], told(number, &now)?)?;
    for (place, &lot) in (1..).zip(lots) {
        let asked = Tick::Continue(Counts::told(&now.progress), lot);
        (number, now) = answers(scene, asked, now)?;
        match case.told.iter().find(|(at, _)| *at == place) {
            Some((_, must)) => same(*must, told(number, &now)?)?,
            None if number == SEARCHING => {}
            None => return Err(format!("call {place} answered {number}")),
        }
    }
    if number == SEARCHING {
        return Ok(());
    }
    let asked = Tick::Continue(Counts::told(&now.progress), 1);
    let (again, after) = answers(scene, asked, now.clone())?;
    if again != BAD_PROGRESS || after != now {
        return Err(format!("one call more answered {again}"));
    }
    let ended = Ended {
        number,
        lent: now,
        calls: lots.len() as u64,
    };
    is_whole(&ended, &lent, &original::judge(scene))
}

fn same(must: Told, said: Told) -> Result<(), String> {
    match must == said {
        true => Ok(()),
        false => Err(format!("{said:?}, must be {must:?}")),
    }
}

/// A scene's search after one expansion.
fn after_one(scene: Scene) -> State {
    let lent = rooms(64, [70; 3], PROGRESS, &mut Chance::new(0));
    let (_, lent) = read(&scene, Tick::Begin, lent);
    let (_, lent) = read(&scene, Tick::Continue(START, 1), lent);
    let counts = Counts::told(&lent.progress);
    State {
        scene,
        counts,
        expansions: 1,
        lent,
        nodes: counts.retained as usize,
    }
}

/// The counts after begin.
const START: Counts = Counts {
    retained: 1,
    closed: 0,
    pushed: 1,
    dropped: 0,
};

/// A changed state and what must come of it: a refusal, with nothing written, or
/// what is told.
#[derive(Clone)]
struct Stated {
    name: &'static str,
    state: State,
    must: Result<Told, u64>,
}

/// The flat scene's state after one expansion, changed: node 0 is closed, eight
/// nodes around it wait, and one more expansion finds the goal.
fn stated(name: &'static str, must: Result<Told, u64>, change: impl Fn(&mut State)) -> Stated {
    let mut state = after_one(flat(64, ""));
    change(&mut state);
    Stated { name, state, must }
}

fn bad(name: &'static str, change: impl Fn(&mut State)) -> Stated {
    stated(name, Err(BAD_PROGRESS), change)
}

/// The order of refusals, and the borders of the counts.
fn refusals() -> Vec<Stated> {
    vec![
        stated("3 first", Err(3), |state| all_wrong(state, 3)),
        stated("then 1", Err(1), |state| all_wrong(state, 1)),
        stated("then 4", Err(4), |state| all_wrong(state, 4)),
        stated("then 5", Err(5), |state| all_wrong(state, 5)),
        bad("no expansion", |state| state.expansions = 0),
        bad("4,097 expansions", |state| state.expansions = 4097),
        bad("0 retained", |state| state.counts.retained = 0),
        bad("65 retained", |state| state.counts.retained = 65),
        bad("8 retained", |state| state.counts.retained = 8),
        bad("10 closed", |state| state.counts.closed = 10),
        bad("2^32 pushed", |state| state.counts.pushed = 1 << 32),
        bad("2^32 dropped", |state| state.counts.dropped = 1 << 32),
        bad("nothing waits", |state| state.lent.front.fill(0)),
    ]
}

/// All that is judged from this number on is wrong.
fn all_wrong(state: &mut State, from: u64) {
    let request = &mut state.scene.request;
    state.expansions = 0;
    state.lent.out.truncate(48 * 65 - 1);
    if from != 5 {
        request.max_range = 65.0;
    }
    if from == 1 || from == 3 {
        request.max_range = f64::NAN;
    }
    if from == 3 {
        state.scene.tables.shapes[1].1 = 17;
    }
}

/// What the flat scene's second expansion tells.
const FOUND: Told = [0, 3, 9, 2, 9, 0];

/// Counts on the good side of their borders, and what continue does not judge.
fn accepted() -> Vec<Stated> {
    let full = (1 << 32) - 1;
    let told = |place: usize, number: u64| {
        let mut told = FOUND;
        told[place] = number;
        Ok(told)
    };
    vec![
        stated("2^32 - 1 pushed", told(4, full), |state| {
            state.counts.pushed = full
        }),
        stated("2^32 - 1 dropped", told(5, full), |state| {
            state.counts.dropped = full
        }),
        stated("9 closed", told(3, 10), |state| state.counts.closed = 9),
        stated("a goal far away", Ok([100, 0, 12, 2, 12, 0]), |state| {
            state.scene.request.goal[0] = 1.0e9
        }),
        stated("a cost below 0", Ok(FOUND), |state| {
            state.with_node(8, |node| node.cost = -1.0)
        }),
    ]
}

/// Each of the nodes' clauses.
fn bad_states() -> Vec<Stated> {
    let node =
        |name, change: fn(&mut NodeRecord)| bad(name, move |state| state.with_node(8, change));
    let entry = |name, k, change: fn(&mut FrontierRecord)| {
        bad(name, move |state| state.with_entry(k, change))
    };
    vec![
        node("out of range", |node| node.point.feet[1] = 17.1),
        node("a NaN", |node| node.point.feet[1] = f64::NAN),
        node("an infinite cost", |node| node.cost = f64::INFINITY),
        node("movement 4", |node| node.point.movement = 4),
        node("movement 2^32", |node| node.point.movement = 1 << 32),
        node("an open parent", |node| node.parent = 7),
        node("an unretained parent", |node| node.parent = 9),
        node("no parent", |node| node.parent = NO_PARENT),
        entry("waiting 2", 8, |entry| entry.waiting = 2),
        entry("an infinite estimate", 8, |entry| {
            entry.estimate = f64::INFINITY
        }),
        entry("waiting past retained", 9, |entry| entry.waiting = 1),
        entry("waiting past the budget", 65, |entry| entry.waiting = 1),
        entry("a closed node that waits", 0, |entry| entry.waiting = 1),
        bad("node 0 with a parent", |state| {
            state.with_node(0, |node| node.parent = 0)
        }),
        bad("a closed mark of 2", |state| closed_idle(state, 2, 0)),
        bad("a cycle", |state| closed_idle(state, 1, 8)),
    ]
}

/// Node 8 does not wait, has this mark, and this parent.
fn closed_idle(state: &mut State, mark: u32, parent: u32) {
    state.with_entry(8, |entry| *entry = FrontierRecord::IDLE);
    state.with_node(8, |node| (node.closed, node.parent) = (mark, parent));
}

/// States that no search comes to and that are answered all the same.
fn good_states() -> Vec<Stated> {
    let (further, shorter) = ([0, 4, 9, 2, 9, 0], [0, 2, 9, 2, 9, 0]);
    vec![
        stated("2 past retained", Ok(FOUND), |state| {
            state.with_entry(9, |entry| entry.waiting = 2)
        }),
        stated("old words", Ok(FOUND), |state| {
            state.with_entry(0, |entry| entry.estimate = f64::NAN)
        }),
        stated("a parent of a higher number", Ok(further), |state| {
            closed_idle(state, 1, 0);
            state.with_node(1, |node| node.parent = 8);
        }),
        stated("a node at the goal", Ok(shorter), |state| {
            let goal = state.scene.request.goal;
            state.with_node(1, |node| node.point.feet = goal);
        }),
    ]
}

/// The same behind the wall, where the search goes on until nothing waits.
fn good_states_of_wall() -> Vec<Stated> {
    let wall = |name, must: Told, change: fn(&mut State)| {
        let mut state = after_one(flat(64, WALL));
        state.expansions = MOST;
        change(&mut state);
        let must = Ok(must);
        Stated { name, state, must }
    };
    let most = (1 << 32) - 1;
    vec![
        wall("12 is judged once", [1, 0, 15, 15, most + 9, 0], |state| {
            state.counts.pushed = (1 << 32) - 1
        }),
        // Asleep it would leave 14 closed. Its new way takes three pushes more, of
        // which the first wakes it.
        wall("an idle node is woken", [1, 0, 15, 15, 18, 0], |state| {
            state.with_entry(1, |entry| *entry = FrontierRecord::IDLE);
            state.with_node(1, |node| node.cost += 1000.0);
        }),
        // It waits then with the estimate of its new way.
        wall("an idle node just woken", [100, 0, 11, 3, 12, 0], |state| {
            state.with_entry(1, |entry| *entry = FrontierRecord::IDLE);
            state.with_node(1, |node| node.cost += 1000.0);
            state.expansions = 2;
        }),
    ]
}

fn one_state(state: &State, must: &Result<Told, u64>, answers: &mut Answers) -> Result<(), String> {
    let (number, lent) = answers(&state.scene, state.asked(), state.lent.clone())?;
    match must {
        Ok(must) => same(*must, told(number, &lent)?),
        Err(must) if number == *must && lent == state.lent => Ok(()),
        Err(must) => Err(format!(
            "answered {number}, must be {must}, or something written"
        )),
    }
}

/// Budget 0: begin is 2, continue 12. An output a byte short: begin is 5. Nothing is
/// written.
fn unwritten(answers: &mut Answers) -> Result<(), String> {
    let none = rooms(0, [70; 3], PROGRESS, &mut Chance::new(0));
    let mut short = rooms(64, [0; 3], PROGRESS, &mut Chance::new(0));
    short.out.pop();
    let calls = [
        (0, Tick::Begin, none.clone(), 2),
        (0, Tick::Continue(START, 1), none, BAD_PROGRESS),
        (64, Tick::Begin, short, 5),
    ];
    for (budget, asked, lent, must) in calls {
        let (number, after) = answers(&flat(budget, ""), asked, lent.clone())?;
        if number != must || after != lent {
            return Err(format!("{asked:?} answered {number}, must be {must}"));
        }
    }
    Ok(())
}
