//! Random scenes for one subject each, where scenes of every sort show too
//! little: tops and climbs at a border, floors of plates with gaps, tops that
//! stand in cells far above or below, and mirrored floors.

use reading::E;
use scene::{RECORD, Record};

use crate::chance::Chance;

/// Makes a scene from a seed.
pub type Recipe = Box<dyn Fn(u64) -> Vec<Record>>;

/// The names of the recipes here; the kinds of `oracle make` are recipes too.
pub const RECIPES: [&str; 7] = [
    "draft", "edges", "plates", "twins", "mirror", "toll", "doorways",
];

/// The recipe of a name.
pub fn recipe(name: &str) -> Option<Recipe> {
    let own: fn(u64) -> Vec<Record> = match name {
        "draft" => crate::draft::draft,
        "edges" => edges,
        "plates" => plates,
        "twins" => twins,
        "mirror" => mirror,
        "toll" => toll,
        "doorways" => crate::doorways::doorways,
        _ => {
            let kind = name.to_string();
            scene::make(0, name)?;
            return Some(Box::new(move |seed| {
                let bytes = scene::make(seed, &kind).expect("a kind of scene");
                bytes.chunks(RECORD).map(Record::from_bytes).collect()
            }));
        }
    };
    Some(Box::new(own))
}

fn ulps(chance: &mut Chance, number: f64) -> f64 {
    match chance.below(6) {
        0 => number.next_up(),
        1 => number.next_down(),
        2 => number.next_down().next_down(),
        _ => number,
    }
}

/// The number, or E above or below it.
fn about(chance: &mut Chance, number: f64) -> f64 {
    let moved = match chance.below(4) {
        0 => number,
        1 => number + E,
        _ => number - E,
    };
    ulps(chance, moved)
}

/// Request, body and window. The body: step, jump, drop, width, height, body
/// step.
fn opening(
    ends: [[f64; 3]; 2],
    (max_range, budget): (f64, u32),
    body: [f64; 6],
    (origin, sizes): ([i32; 3], [u32; 3]),
) -> Vec<Record> {
    let [start, goal] = ends;
    let request = Record::Request {
        start,
        goal,
        max_range,
        budget,
    };
    let body = Record::Body { numbers: body };
    vec![request, body, Record::Window { origin, sizes }]
}

/// Air and stone, and air everywhere.
fn air(records: &mut Vec<Record>, sizes: [u32; 3]) {
    for state in 0..2 {
        records.push(Record::State {
            state,
            permission: 7,
        });
    }
    let max = sizes.map(|n| n as i32 - 1);
    records.push(Record::Fill {
        min: [0; 3],
        max,
        state: 0,
        shape: 0,
    });
}

fn stone(at: [i32; 3], shape: u32) -> Record {
    Record::Fill {
        min: at,
        max: at,
        state: 1,
        shape,
    }
}

/// Floors in cells at height 0 whose tops, and the climbs between them, lie at
/// a border.
fn edges(seed: u64) -> Vec<Record> {
    let mut chance = Chance::new(seed);
    let sizes = [chance.between(2, 3) as u32, 4, chance.between(1, 3) as u32];
    let base = match chance.below(4) {
        0 => 0.0,
        1 => 0.3,
        _ => chance.part(),
    };
    let rise = match chance.below(3) {
        0 => 0.5,
        1 => chance.part(),
        _ => 1.0 + chance.part(),
    };
    let mut tops = vec![base, base + rise];
    for _ in 0..3 {
        let near = chance.pick(&tops);
        tops.push(about(&mut chance, near));
    }
    let mut climb = || {
        let (a, b) = (chance.pick(&tops), chance.pick(&tops));
        let rise = (a - b).abs();
        match chance.below(4) {
            0 => 0.0,
            1 => 3.0,
            2 => (rise - E).max(0.0),
            _ => about(&mut chance, rise).max(0.0),
        }
    };
    let (step, jump, drop, range) = (climb(), climb(), climb(), climb());
    let body_step = if chance.once_in(4) {
        climb_of(&mut chance)
    } else {
        step
    };
    let max_range = if chance.once_in(3) { range } else { 16.0 };
    let ends = [0, 1].map(|_| {
        let x = f64::from(chance.below(sizes[0] as usize) as i32) + 0.5;
        let z = f64::from(chance.below(sizes[2] as usize) as i32) + 0.5;
        [x, chance.pick(&tops), z]
    });
    let body = [step, jump, drop, 0.5, 1.0, body_step];
    let mut records = opening(ends, (max_range, 64), body, ([0; 3], sizes));
    for shape in 1..=4 {
        for _ in 0..chance.pick(&[1, 1, 2, 3]) {
            let top = chance.pick(&tops);
            let bottom = if chance.once_in(2) { top } else { 0.0 };
            let numbers = [0.0, bottom, 0.0, 1.0, top, 1.0];
            records.push(Record::Shape { shape, numbers });
        }
    }
    air(&mut records, sizes);
    for x in 0..sizes[0] as i32 {
        for z in 0..sizes[2] as i32 {
            records.push(stone([x, 0, z], chance.between(1, 4) as u32));
        }
    }
    records
}

fn climb_of(chance: &mut Chance) -> f64 {
    chance.pick(&[0.0, 0.25, 0.5, 1.0, 3.0])
}

/// A floor at height 1 made of plates with gaps about E wide, in x or in both.
fn plates(seed: u64) -> Vec<Record> {
    let mut chance = Chance::new(seed);
    let sizes = [3, 3, chance.between(1, 2) as u32];
    let from = chance.pick(&[0.0, 0.5, 0.25, 0.3, 0.1]);
    let to = match chance.below(3) {
        0 => from + 1.0,
        1 => 1.0 + chance.part(),
        _ => 1.5,
    };
    let delta: f64 = to - from;
    // The line's part t is at from + t delta.
    let at = |t: f64| from + t * delta;
    let first = 0.2 + 0.6 * chance.part();
    let first = if chance.once_in(3) { 0.5 } else { first };
    let gap = E * chance.pick(&[0.5, 0.9, 1.0, 1.0, 1.0, 1.0, 1.5, 1.9, 2.0, 2.5]);
    let second = first + gap;
    let (a, b) = (at(first), ulps(&mut chance, at(second)));
    let ends = [[from, 1.0, 0.5], [to, 1.0, 0.5]];
    let body = [0.5, 0.0, 1.0, 0.25, 1.0, 0.5];
    let mut records = opening(ends, (16.0, 9), body, ([0; 3], sizes));
    let mut plate = |min: f64, max: f64| {
        let numbers = [min.min(max), 0.0, 0.0, max.max(min), 1.0, 1.0];
        records.push(Record::Shape { shape: 1, numbers });
    };
    plate(-0.5, a);
    plate(b, 2.5);
    if chance.once_in(3) {
        let middle = at(first + gap * chance.part());
        let wide = if chance.once_in(2) { 0.0 } else { 0.3 * E };
        plate(middle, middle + wide);
    }
    if chance.once_in(4) {
        plate(at(0.1), at(0.3));
    }
    air(&mut records, sizes);
    records.push(stone([0; 3], 1));
    records
}

/// A floor, and over or under it boxes of far cells whose tops lie within E of
/// the floor's top.
fn twins(seed: u64) -> Vec<Record> {
    let mut chance = Chance::new(seed);
    let sizes = [chance.between(1, 3) as u32, 9, 1];
    let floor = chance.between(3, 5);
    let level = f64::from(floor) + chance.pick(&[0.0, 0.5, 1.0, 1.0]);
    let shift = E * chance.pick(&[-0.5, -0.5, -0.8, 0.5, -1.0, 1.0, -1.5]);
    let far = floor + chance.pick(&[-4, -3, -3, -2, -1, 1, 1, 2, 3]);
    let width = chance.pick(&[0.5, 0.5, 1.0, 1e-20]);
    let ends = [0, 1].map(|_| {
        let cell = chance.below(sizes[0] as usize) as i32;
        let x = f64::from(cell) + chance.pick(&[0.5, 0.5, 0.5, 0.25, 0.0]);
        [x, level + chance.pick(&[0.0, 0.0, 0.0, 1.0, -1.0]), 0.5]
    });
    let range = reach(&mut chance);
    let max_range = if chance.once_in(2) { 16.0 } else { range };
    let step = reach(&mut chance);
    let (jump, drop) = (reach(&mut chance), reach(&mut chance));
    let body = [step, jump, drop, width, 0.5, step];
    let mut records = opening(ends, (max_range, 12), body, ([0; 3], sizes));
    let mut flat = |shape: u32, top: f64, min: f64, max: f64| {
        let numbers = [min, top, 0.0, max, top, 1.0];
        records.push(Record::Shape { shape, numbers });
    };
    let floor_top = level - f64::from(floor);
    flat(1, floor_top, 0.0, 1.0);
    let far_top = level + shift - f64::from(far);
    let (min, max) = chance.pick(&[(0.0, 1.0), (0.0, 1.0), (0.0, 0.5), (0.5, 1.0)]);
    flat(2, far_top.clamp(-16.0, 16.0), min, max);
    flat(3, floor_top + chance.pick(&[-1.0, 1.0]), 0.0, 1.0);
    far_cells(&mut chance, &mut records, sizes, [floor, far]);
    records
}

/// A climb, a fall or a range.
fn reach(chance: &mut Chance) -> f64 {
    let number = chance.pick(&[0.0, 0.0, 0.5, 1.0, 1.5, 2.0, 3.0]);
    if chance.once_in(4) {
        about(chance, number).max(0.0)
    } else {
        number
    }
}

/// The floor's cells, and here and there a far one, perhaps no support.
fn far_cells(
    chance: &mut Chance,
    records: &mut Vec<Record>,
    sizes: [u32; 3],
    [floor, far]: [i32; 2],
) {
    air(records, sizes);
    let state = if chance.once_in(3) { 2 } else { 1 };
    let forbidden = Record::State {
        state: 2,
        permission: 5,
    };
    records.insert(records.len() - 1, forbidden);
    for x in 0..sizes[0] as i32 {
        let shape = if chance.once_in(4) { 3 } else { 1 };
        records.push(stone([x, floor, 0], shape));
        if chance.once_in(2) {
            let at = [x, far, 0];
            records.push(Record::Fill {
                min: at,
                max: at,
                state,
                shape: 2,
            });
        }
    }
}

/// A floor that mirrors itself in the line from start to goal, but for a cell
/// or two.
fn mirror(seed: u64) -> Vec<Record> {
    let mut chance = Chance::new(seed);
    let half = chance.between(1, 2);
    let sizes = [chance.between(3, 7) as u32, 5, 2 * half as u32 + 1];
    let middle = f64::from(half) + 0.5;
    let start = [chance.pick(&[0.5, 0.5, 1.5, 0.25, 1.0]), 1.0, middle];
    let goal = [f64::from(sizes[0]) - 0.5, 1.0, middle];
    let jump = chance.pick(&[0.0, 1.0, 1.25]);
    let body = [0.5, jump, 3.0, 0.5, 1.0, 0.5];
    let mut records = opening([start, goal], (16.0, 64), body, ([0; 3], sizes));
    for (shape, top) in [(1, 1.0), (2, 0.5), (3, 1.5)] {
        records.push(Record::Shape {
            shape,
            numbers: [0.0, 0.0, 0.0, 1.0, top, 1.0],
        });
    }
    air(&mut records, sizes);
    let max = [sizes[0] as i32 - 1, 0, 2 * half];
    records.push(Record::Fill {
        min: [0; 3],
        max,
        state: 1,
        shape: 1,
    });
    for _ in 0..chance.between(2, 7) {
        let (x, z) = (
            chance.below(sizes[0] as usize) as i32,
            chance.between(0, half),
        );
        let y = chance.between(0, 1);
        let shape = chance.pick(&[0, 1, 2, 3]);
        records.push(stone([x, y, half + z], shape));
        if !chance.once_in(5) {
            records.push(stone([x, y, half - z], shape));
        }
    }
    records
}

/// Two ways to one column, the first found longer than the second by a slab's
/// rise: their costs differ by about E, on both sides of 4 (a power of two:
/// sums round coarser above it than below).
fn toll(seed: u64) -> Vec<Record> {
    let mut chance = Chance::new(seed);
    let start = [-1.5 + E * chance.part(), 1.0, 0.5];
    let rise = E.sqrt() * (1.0 + 1e-7 * (chance.part() - 0.5));
    let body = [0.5, 0.0, 1.0, 0.5, 1.0, 0.5];
    let window = ([-2, 0, -1], [4, 5, 2]);
    let mut records = opening([start, [1.5, 4.0, 0.5]], (16.0, 16), body, window);
    for (shape, top) in [(1, 1.0), (2, rise)] {
        records.push(Record::Shape {
            shape,
            numbers: [0.0, 0.0, 0.0, 1.0, top, 1.0],
        });
    }
    records.push(Record::State {
        state: 0,
        permission: 7,
    });
    let mut fill = |min, max, shape| {
        records.push(Record::Fill {
            min,
            max,
            state: 0,
            shape,
        });
    };
    fill([-2, 0, -1], [1, 4, 0], 0);
    fill([-2, 0, 0], [1, 0, 0], 1);
    fill([0, 0, -1], [1, 0, -1], 1);
    fill([1, 1, 0], [1, 1, 0], 2);
    fill([1, 3, 0], [1, 3, 0], 1);
    records
}
