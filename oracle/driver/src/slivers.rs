//! Worlds in which ways lead over many thin boxes in any order, so that the
//! proved search has to pass over them more than eight times, gathers the parts
//! of the way that lie further ahead, and has now and then more of them than the
//! 1,024 that its room takes. The boxes under a way are a chain: slivers, strips
//! and tiles that overlap, touch or leave gaps about E, in cells all around.

use mutants::chance::Chance;
use original::Checks;
use reading::E;
use scene::{Answer, Body, Request, Scene, Tables, Window};

use crate::columns::all_three;
use crate::counts::Counts;
use crate::passes::{Passed, passes};
use crate::runner::{Makers, Mismatch};
use crate::strewn::strewn;

/// The world of a number, by the proved search, the original and the reading.
pub fn one_world(_: &Makers, number: u64, counts: &mut Counts) -> Result<(), Mismatch> {
    let world = strewn(world(number), number);
    all_three(&world, number, counts, ways)
}

/// What the ways that the search asks for need: from its closed nodes to the
/// heights around them and to the goal, where the body fits.
fn ways(scene: &Scene, answer: &Answer, counts: &mut Counts) -> Result<(), String> {
    let mut checks = Checks::new(scene);
    let mut most = Passed::default();
    for node in answer.nodes.iter().filter(|node| node.closed != 0) {
        let from = node.point.feet;
        for to in around(&mut checks, scene, from) {
            let passed = passes(scene, from, to);
            if passed.carried != checks.supported_segment(from, to) {
                return Err("the count of passes and the original part".to_string());
            }
            let far = passed.gathered > 0;
            counts.add("ways", 1);
            counts.add("ways refused", passed.refused.into());
            counts.add("far ways", far.into());
            counts.add("far ways carried", (far && passed.carried).into());
            most.gathered = most.gathered.max(passed.gathered);
            most.parts = most.parts.max(passed.parts);
        }
    }
    counts.add("worlds past 8 passes", (most.gathered > 0).into());
    counts.add("worlds that gather again", (most.gathered > 1).into());
    counts.add("worlds past 1,024 parts", (most.parts > 1024).into());
    Ok(())
}

/// The points that are looked at from a point.
fn around(checks: &mut Checks, scene: &Scene, from: [f64; 3]) -> Vec<[f64; 3]> {
    let goal = scene.request.goal;
    let near = |k: usize| (from[k] - goal[k]).abs() <= 1.5;
    let mut points: Vec<[f64; 3]> = Vec::new();
    points.extend((near(0) && near(2)).then_some(goal));
    for column in checks.columns(from).iter().filter(|column| column.looked) {
        let heights = column.heights.iter();
        points.extend(heights.map(|&(y, _)| [column.x, y, column.z]));
    }
    points.retain(|&to| {
        let lift = (to[1] - from[1]).max(0.0);
        let areas = checks.areas(from, lift, to);
        to != from
            && checks.in_range(to)
            && checks.standable(to)
            && areas.into_iter().all(|area| checks.clear_area(area))
    });
    points
}

/// The layers of cells that a floor's boxes can be in.
const LAYERS: i32 = 3;

/// A point of the floor: x and z.
type Spot = [f64; 2];

/// A world that is being made: the columns in which feet may be, the floor's
/// height, how many boxes a chain has if there is room for them, and once in how
/// many chains there is a hole.
struct Plan {
    chance: Chance,
    tables: Tables,
    body: Body,
    columns: [i32; 2],
    level: f64,
    /// From this column on the floor is higher by this.
    rise: (i32, f64),
    length: usize,
    holes: usize,
    /// Whether tops are below the feet, less than E.
    low: bool,
    /// The boxes of each cell, in the world.
    cells: Vec<Vec<[f64; 6]>>,
}

fn world(number: u64) -> Scene {
    let mut chance = Chance::new(number);
    let wide = chance.once_in(3);
    let width = match wide {
        true => chance.pick(&[3.0, 5.0, 6.5, 8.0, 8.0]),
        false => chance.pick(&[0.1, 0.1, 0.3, 0.6, 1.0, 1.9]),
    };
    let columns = match wide {
        true => [chance.between(2, 3), chance.between(1, 2)],
        false => [chance.between(2, 5), chance.between(1, 3)],
    };
    let length = match wide {
        true => chance.pick(&[30, 100, 400, 1500, 2500, 4000]),
        false => chance.pick(&[10, 12, 16, 24, 40, 96]),
    };
    let tables = air(&mut chance, columns, width);
    let floor = f64::from(tables.window.origin[1] + 2);
    let step = chance.once_in(6) && width < 0.7;
    let plan = Plan {
        body: Body {
            width,
            height: chance.pick(&[0.5, 1.0, 1.8]),
            step_height: 0.5,
        },
        columns,
        level: floor + chance.pick(&[0.0, 0.5, 0.25, 0.8125]),
        rise: (columns[0] / 2, if step { 0.125 } else { 0.0 }),
        length,
        holes: chance.pick(&[1000, 3, 2, 1]),
        low: chance.once_in(2),
        cells: vec![Vec::new(); tables.cells.len()],
        tables,
        chance,
    };
    plan.scene()
}

/// Cells without boxes, as many as a body of this width over these columns needs.
fn air(chance: &mut Chance, columns: [i32; 2], width: f64) -> Tables {
    let around = 2 * (width / 2.0).ceil() as i32 + 2;
    let sizes = [columns[0] + around, LAYERS + 3, columns[1] + around];
    Tables {
        window: Window {
            origin: chance.pick(&[[0; 3], [-7, -3, -2], [1000, 60, -1000]]),
            sizes: sizes.map(|size| size as u32),
        },
        permissions: vec![7, 7, 5],
        cells: vec![(0, 0); sizes.iter().product::<i32>() as usize],
        ..Tables::default()
    }
}

impl Plan {
    /// The middle of a column.
    fn middle(&self, [x, z]: [i32; 2]) -> Spot {
        let margin = (self.body.width / 2.0).ceil() as i32 + 1;
        let [first_x, _, first_z] = self.tables.window.origin;
        [first_x + x, first_z + z].map(|n| f64::from(n + margin) + 0.5)
    }

    /// The floor's height at a place.
    fn height(&self, [x, _]: Spot) -> f64 {
        let [middle, _] = self.middle([self.rise.0, 0]);
        self.level + if x < middle - 0.5 { 0.0 } else { self.rise.1 }
    }

    fn scene(mut self) -> Scene {
        let [width, depth] = self.columns;
        let rows = [0; 2].map(|_| self.chance.between(0, depth - 1));
        let start = self.middle([0, rows[0]]);
        let end = self.middle([width - 1, rows[1]]);
        let off = self.chance.pick(&[0.0, 0.0, 0.25, -0.25, 0.4375]);
        let aside = self.chance.pick(&[0.0, 0.0, 0.125, -0.375]);
        let goal = [end[0] + off, end[1] + aside];
        let pads = (0..depth).flat_map(|z| (0..width).map(move |x| [x, z]));
        let pads: Vec<Spot> = pads.map(|column| self.middle(column)).collect();
        for &pad in pads.iter().chain([&goal]) {
            self.pad(pad);
        }
        self.refusal(&pads);
        self.chains(&pads, goal);
        let [start, goal] = [start, goal].map(|at| [at[0], self.height(at), at[1]]);
        let chance = &mut self.chance;
        let request = Request {
            start,
            goal,
            max_range: if chance.once_in(20) { 1.0 } else { 16.0 },
            node_budget: chance.pick(&[64, 64, 64, 64, 4, 2, 300]),
            step_height: 0.5,
            jump_height: chance.pick(&[0.0, 1.0]),
            max_drop: chance.pick(&[1.0, 0.25]),
        };
        self.fill();
        Scene {
            request,
            body: self.body,
            tables: self.tables,
        }
    }

    /// What the middle of a column stands on, in one of its own cells.
    fn pad(&mut self, [x, z]: Spot) {
        let half = self.chance.pick(&[0.0, 0.0, 1e-9, 1e-4, 0.03]);
        let top = self.height([x, z]);
        let layer = self.chance.between(0, LAYERS - 1);
        let [first_x, _, first_z] = self.tables.window.origin;
        let cell = [
            x.floor() as i32 - first_x,
            layer,
            z.floor() as i32 - first_z,
        ];
        let place = self.place(cell);
        self.cells[place].push([x - half, top, z - half, x + half, top, z + half]);
    }

    fn place(&self, [x, y, z]: [i32; 3]) -> usize {
        let [width, _, depth] = self.tables.window.sizes.map(|size| size as i32);
        (x + width * (z + depth * y)) as usize
    }

    /// The chains between neighbours and to the goal, in any order.
    fn chains(&mut self, pads: &[Spot], goal: Spot) {
        let mut ways = Vec::new();
        for (k, &from) in pads.iter().enumerate() {
            let far = |to: Spot| (from[0] - to[0]).abs().max((from[1] - to[1]).abs());
            let next = pads[k + 1..].iter().filter(|&&to| far(to) <= 1.0);
            ways.extend(next.map(|&to| [from, to]));
            ways.extend((far(goal) <= 1.5 && !pads.contains(&goal)).then_some([from, goal]));
        }
        (1..ways.len()).for_each(|k| ways.swap(k, self.chance.below(k + 1)));
        let crossing = self.chance.pick(&[1, 1, 3]);
        for (k, &way) in ways.iter().enumerate() {
            let [a, b] = way;
            let straight = a[0] == b[0] || a[1] == b[1];
            if straight || self.chance.once_in(crossing) {
                self.chain(way, (ways.len() - k).min(5));
            }
        }
    }
}

impl Plan {
    /// The cells that are looked at under a way and have room, as often as they
    /// have, in the order of a pass.
    fn free(&self, [from, to]: [Spot; 2]) -> Vec<usize> {
        let half = self.body.width / 2.0;
        let [first_x, _, first_z] = self.tables.window.origin;
        let cells = |k: usize, origin: i32| {
            let first = (from[k].min(to[k]) - half).floor() as i32;
            let end = (from[k].max(to[k]) + half).ceil() as i32;
            first - origin..end - origin
        };
        let mut out = Vec::new();
        for y in 0..LAYERS {
            for z in cells(1, first_z) {
                for x in cells(0, first_x) {
                    let place = self.place([x, y, z]);
                    let room = match self.tables.cells[place].0 {
                        2 => 0,
                        _ => 16 - self.cells[place].len(),
                    };
                    out.extend(std::iter::repeat_n(place, room));
                }
            }
        }
        out
    }

    /// The boxes under a way, in an order of their own; `left` chains share what
    /// room there is.
    fn chain(&mut self, way: [Spot; 2], left: usize) {
        let mut free = self.free(way);
        let length = self.length.min(2 * free.len() / (left + 1));
        while free.len() > length {
            free.remove(self.chance.below(free.len()));
        }
        if length == 0 {
            return;
        }
        let parts = self.parts(length);
        let order = self.order(length);
        let thick = self.chance.pick(&[0.0, 0.001]);
        let side = self.chance.pick(&[0.0, 0.01, 0.3, 0.5]);
        let limit = self.chance.below(3);
        for (&place, &k) in free.iter().zip(&order) {
            let inside = 0 < k && k + 1 < length;
            let mut top = self.height(way[0]).min(self.height(way[1]));
            if self.low && inside {
                top -= E * self.chance.pick(&[0.0, 0.0, 0.5, 0.9]);
                top -= if self.chance.once_in(400) { E } else { 0.0 };
            }
            let [xs, zs] = [0, 1].map(|axis| match way[1][axis] - way[0][axis] {
                0.0 => [way[0][axis] - side, way[0][axis] + side],
                _ if limit == axis && way[0][1 - axis] != way[1][1 - axis] => {
                    let [a, b] = [way[0][axis], way[1][axis]];
                    [a.min(b) - side, a.max(b) + side]
                }
                delta => {
                    let [a, b] = parts[k].map(|part| way[0][axis] + part * delta);
                    [a.min(b), a.max(b)]
                }
            });
            self.cells[place].push([xs[0], top - thick, zs[0], xs[1], top, zs[1]]);
        }
    }

    /// So many parts that cover 0 to 1 from the first to the last, or all but a
    /// hole.
    fn parts(&mut self, length: usize) -> Vec<[f64; 2]> {
        let chance = &mut self.chance;
        let even = chance.once_in(2);
        let mut cuts: Vec<f64> = (1..length)
            .map(|k| match even {
                true => k as f64 / length as f64,
                false => chance.part(),
            })
            .collect();
        cuts.sort_by(f64::total_cmp);
        // Mostly far ahead.
        let near = length / chance.pick(&[1, 4, 4]);
        let hole = match chance.once_in(self.holes) {
            true => length - chance.below(near + 1),
            false => usize::MAX,
        };
        let wide = chance.pick(&[1.1, 1.1, 2.0, 1e5]) * E;
        let gaps = chance.pick(&[[0.0, 0.0], [0.5, 0.9], [0.0, 0.9], [0.9, 0.9]]);
        let over = chance.pick(&[0, 0, 1, 3]);
        let cut = |k: usize| match k {
            0 => 0.0,
            _ if k >= length => 1.0,
            _ => cuts[k - 1],
        };
        (0..length)
            .map(|k| {
                let begin = cut(k) + E * chance.pick(&gaps);
                // No part before the hole reaches over its begin.
                let last = k + 1 + if over > 0 { chance.below(over + 1) } else { 0 };
                let last = if k < hole { last.min(hole) } else { last };
                let begin = if k == hole { cut(k) + wide } else { begin };
                let short = k < hole && hole == length;
                let end = cut(last).min(if short { 1.0 - wide } else { 1.0 });
                [begin, end.max(begin)]
            })
            .collect()
    }

    /// The places of a chain in the order of a pass.
    fn order(&mut self, length: usize) -> Vec<usize> {
        let mut order: Vec<usize> = (0..length).collect();
        match self.chance.below(8) {
            0 => {}
            1 | 2 => order.reverse(),
            3 | 4 => (1..length).for_each(|k| order.swap(k, self.chance.below(k + 1))),
            5 => order.sort_by_key(|k| (k % 2, length - k)),
            6 => order.sort_by_key(|k| (k / 16, 16 - k % 16)),
            _ => order.sort_by_key(|&k| length - k.min(length - 1 - k)),
        }
        order
    }

    /// Now and then a cell with one box that is no support: between two columns,
    /// where a small body stands on neither side of it, or anywhere.
    fn refusal(&mut self, pads: &[Spot]) {
        let [width, _, depth] = self.tables.window.sizes.map(f64::from);
        let [first_x, _, first_z] = self.tables.window.origin.map(f64::from);
        let narrow = self.body.width < 0.9;
        if !self.chance.once_in(if narrow { 2 } else { 12 }) {
            return;
        }
        let [x, z] = self.chance.pick(pads);
        let off = self.chance.pick(&[0.46, 0.5, 0.53]);
        let [x, z] = match self.chance.below(3) {
            _ if !narrow => [width, depth].map(|size| size * self.chance.part()),
            0 => [x - first_x, z - first_z + off],
            _ => [x - first_x + off, z - first_z],
        };
        let layer = self.chance.below(2) as i32;
        let places = [layer, layer + 1].map(|y| self.place([x as i32, y, z as i32]));
        let empty = |place: &usize| self.cells[*place].is_empty();
        if let Some(place) = places.into_iter().find(empty) {
            let [x, z] = [x + first_x, z + first_z];
            let top = self.height([x, z]);
            self.cells[place].push([x, top, z, x + 0.01, top, z + 0.01]);
            self.tables.cells[place].0 = 2;
        }
    }

    /// The tables of the boxes, each in its cell's own coordinates.
    fn fill(&mut self) {
        let [width, _, depth] = self.tables.window.sizes.map(|size| size as usize);
        let tables = &mut self.tables;
        for (place, boxes) in self.cells.iter().enumerate() {
            let cell = [place % width, place / width / depth, place / width % depth];
            let at: [f64; 3] =
                std::array::from_fn(|k| f64::from(tables.window.origin[k] + cell[k] as i32));
            let run = (tables.boxes.len() as u32, boxes.len() as u32);
            tables.cells[place].1 = place as u32;
            tables.shapes.push(run);
            tables.boxes.extend(boxes.iter().map(|numbers| {
                std::array::from_fn(|k| (numbers[k] - at[k % 3]).clamp(-16.0, 16.0))
            }));
        }
    }
}
