//! Worlds with columns of many tops, to 2,048, so that the proved search, which
//! takes a column's lowest 256 in one pass, has to pass over it again. The tops
//! are those of thin plates, so far apart that a small body stands on most of
//! them: equal, within E of each other, rising, falling and in any order.

use std::ops::Range;

use mutants::chance::Chance;
use original::Checks;
use reading::{E, Variant, search};
use scene::{Answer, Body, NO_PARENT, Request, Scene, Tables, Window};

use crate::call::Call;
use crate::counts::Counts;
use crate::differ::differ;
use crate::expected::judge;
use crate::runner::{Makers, Mismatch};
use crate::scenes::answered;
use crate::sizes::{INDEX, longer, needed};
use crate::strewn::strewn;

/// The world of a number, by the proved search, the original and the reading.
pub fn one_world(_: &Makers, number: u64, counts: &mut Counts) -> Result<(), Mismatch> {
    let world = strewn(world(number), number);
    all_three(&world, number, counts, |scene, answer, counts| {
        places(scene, answer, counts);
        Ok(())
    })
}

/// What is looked at in an answer that was as it must be.
type Look = fn(&Scene, &Answer, &mut Counts) -> Result<(), String>;

/// A world by the proved search, the original and the reading.
pub fn all_three(
    scene: &Scene,
    number: u64,
    counts: &mut Counts,
    look: Look,
) -> Result<(), Mismatch> {
    let call = Call::of(scene);
    let judged = judge(&call);
    let extra = [11, 11, number as usize % 3, 11];
    let sizes = longer(needed(call.request.node_budget), extra);
    let result = differ(&call, &judged, sizes, number).and_then(|must| {
        counts.search(&must);
        counts.index(&must, sizes[INDEX]);
        let original = answered(&judged).ok_or("it is refused")?;
        look(scene, original, counts)?;
        match search(scene, Variant::ReadAsWritten) {
            Ok(read) if read.same_bits(original) => Ok(()),
            _ => Err("the reading and the original part".to_string()),
        }
    });
    result.map_err(|what| Mismatch {
        what,
        scene: format!("{:?}\n{:?}", scene.request, scene.body),
    })
}

/// How many heights of its column are below a node's, as its parent sees them.
fn places(scene: &Scene, answer: &Answer, counts: &mut Counts) {
    let mut checks = Checks::new(scene);
    let mut seen = (f64::NAN, [f64::NAN; 2], Vec::new());
    for node in answer.nodes.iter().filter(|node| node.parent != NO_PARENT) {
        let [x, y, z] = node.point.feet;
        let from = answer.nodes[node.parent as usize].point.feet[1];
        if seen.0.to_bits() != from.to_bits() || seen.1 != [x, z] {
            seen = (from, [x, z], checks.candidate_heights(x, z, from));
        }
        let below = seen.2.iter().filter(|&&height| height < y).count();
        for (name, places) in [
            ("nodes at heights 255 to 258", 254..258),
            ("nodes past 256 heights", 256..usize::MAX),
            ("nodes past 1,024 heights", 1024..usize::MAX),
        ] {
            counts.add(name, places.contains(&below).into());
        }
    }
}

const AIR: (u32, u32) = (0, 0);
const STONE: (u32, u32) = (1, 1);

/// A world that is being made, and how many plates a cell of it has, and a
/// column.
struct Plan {
    chance: Chance,
    cell: usize,
    column: usize,
    tables: Tables,
}

fn world(number: u64) -> Scene {
    let mut chance = Chance::new(number);
    let column = chance.pick(&[
        255, 256, 257, 258, 300, 400, 511, 512, 513, 600, 700, 769, 1000, 1025, 2048,
    ]);
    let cell = chance.pick(&[16, 16, 16, 15, 13, 8]).max(column / 128);
    let sizes = [chance.pick(&[3, 4, 4, 5]), 0, chance.pick(&[1, 2, 3])];
    let mut plan = Plan {
        chance,
        cell,
        column,
        tables: Tables {
            window: Window {
                origin: [0; 3],
                sizes,
            },
            permissions: vec![7, 7, 5],
            shapes: vec![(0, 0), (0, 1)],
            boxes: vec![[0.0, 0.0, 0.0, 1.0, 1.0, 1.0]],
            ..Tables::default()
        },
    };
    plan.build();
    plan.ends()
}

impl Plan {
    /// The cells that a column's boxes fill.
    fn layers(&self) -> usize {
        self.column.div_ceil(self.cell)
    }

    /// A floor, plates above it in some columns, and here and there a pillar.
    fn build(&mut self) {
        let layers = self.layers();
        let [width, _, depth] = self.tables.window.sizes.map(|size| size as usize);
        self.tables.window.sizes[1] = layers as u32 + 6;
        let middle = -(layers as i32) / 2;
        let bottoms = [0, -1, middle, middle, middle, 1000, 1 << 20];
        self.tables.window.origin = [-1, self.chance.pick(&bottoms), 0];
        self.tables.cells = vec![AIR; width * depth * (layers + 6)];
        self.tables.cells[..width * depth].fill(STONE);
        let kinds: Vec<usize> = (0..3).map(|_| self.kind()).collect();
        let gap = self.chance.pick(&[0, 0, width - 2]);
        for z in 0..depth {
            for x in 0..width {
                // The rows on both sides of the middle one are mostly alike.
                let alike = z == 2 && !self.chance.once_in(4);
                let any = self.chance.below(8);
                match self.opening([x, z]).unwrap_or(any) {
                    _ if alike => self.copy([x, z], [x, 0]),
                    _ if gap > 1 && gap == x => self.put([x, z], 0, AIR),
                    0 | 1 => {}
                    2 => self.put([x, z], layers / 2, STONE),
                    _ => {
                        let kind = self.chance.pick(&kinds);
                        self.plates([x, z], kind);
                    }
                }
            }
        }
    }

    /// What the first columns of the middle row are: a floor, from which a step
    /// goes to every plate above it in the next column; where the range does not
    /// go so far, before it a pillar from which a drop goes to that floor.
    fn opening(&self, [x, z]: [usize; 2]) -> Option<usize> {
        let tall = self.layers() > 64;
        match x {
            _ if z != self.tables.window.sizes[2] as usize / 2 => None,
            0 if tall => Some(2),
            0 => Some(0),
            1 if tall => Some(1),
            1 | 2 => Some(7),
            _ => None,
        }
    }

    fn place(&self, [x, z]: [usize; 2], layer: usize) -> usize {
        let [width, _, depth] = self.tables.window.sizes.map(|size| size as usize);
        x + width * (z + depth * layer)
    }

    fn put(&mut self, column: [usize; 2], layer: usize, content: (u32, u32)) {
        let place = self.place(column, layer);
        self.tables.cells[place] = content;
    }

    fn copy(&mut self, to: [usize; 2], from: [usize; 2]) {
        for layer in 0..self.layers() + 6 {
            let content = self.tables.cells[self.place(from, layer)];
            self.put(to, layer, content);
        }
    }

    /// A column's plates from the layer above the floor up, of one kind, the
    /// lowest cell with those that are left over; some cells are no support.
    fn plates(&mut self, column: [usize; 2], kind: usize) {
        let rare = self.chance.pick(&[1000, 1000, 30]);
        let missing = self.layers() * self.cell - self.column;
        for layer in 0..self.layers() {
            let count = self.cell - if layer == 0 { missing } else { 0 };
            let (first, state) = match kind {
                0 => (self.across(layer), 1),
                first => (first, if self.chance.once_in(rare) { 2 } else { 1 }),
            };
            let shape = self.tables.shapes.len() as u32;
            self.tables.shapes.push((first as u32, count as u32));
            self.put(column, layer + 1, (state, shape));
        }
    }

    /// New boxes for a kind of plates, and the first one's number; 0 for plates
    /// that differ from layer to layer.
    fn kind(&mut self) -> usize {
        if self.chance.once_in(6) {
            return 0;
        }
        let tops = self.tops();
        self.push(&tops)
    }

    /// Tops of one cell, by what they have in common, in some order.
    fn tops(&mut self) -> Vec<f64> {
        let (chance, cell) = (&mut self.chance, self.cell);
        let group = chance.pick(&[1, 1, 1, 2, 2, 3, 7, 16]);
        let off = chance.pick(&[0.0, 0.3, 0.6, 0.6, 1.0]);
        let any = chance.part();
        let phase = chance.pick(&[0.0, 0.0, 0.5, any, any]);
        // A plate two above its cell is in no body's way, so that one can stand
        // on the lower of two near tops.
        let raised = match group > 1 && off > 0.0 {
            true => chance.pick(&[1.0, 2.0, 2.0, 2.0]),
            false => chance.pick(&[0.0, 0.0, 1.0, 2.0]),
        };
        let mut tops: Vec<f64> = (0..cell)
            .map(|k| {
                let base = ((k - k % group) as f64 + phase) / cell as f64;
                let near = E * off * (k % group) as f64;
                let other = chance.once_in(40);
                raised + base + near + if other { E * chance.part() } else { 0.0 }
            })
            .collect();
        match chance.below(3) {
            0 => {}
            1 => tops.reverse(),
            _ => (1..cell).for_each(|k| tops.swap(k, chance.below(k + 1))),
        }
        tops
    }

    /// A layer's own tops, and those of the layer that is as far below the top
    /// layer as this is above the lowest: the higher the cell the lower they are.
    fn across(&mut self, layer: usize) -> usize {
        let other = (self.layers() as f64 - 2.0 * layer as f64).clamp(-15.0, 15.0);
        let tops: Vec<f64> = (0..self.cell)
            .map(|k| (k / 2) as f64 / 8.0 + if k % 2 == 0 { 0.0 } else { other })
            .collect();
        self.push(&tops)
    }

    /// A plate for each top, thin or of no height; most reach over all of a
    /// cell, some to its centre or not so far.
    fn push(&mut self, tops: &[f64]) -> usize {
        let first = self.tables.boxes.len();
        let thick = self.chance.pick(&[0.0, 0.0, 1e-9, 0.001]);
        let odd = self.chance.pick(&[1000, 1000, 12]);
        for &top in tops {
            let [mut min, mut max] = [[0.0, 0.0]; 2];
            max.fill(1.0);
            if self.chance.once_in(odd) {
                let axis = self.chance.below(2);
                match self.chance.below(2) {
                    0 => max[axis] = self.chance.pick(&[0.5, 0.5_f64.next_down(), 0.75]),
                    _ => min[axis] = self.chance.pick(&[0.5, 0.5_f64.next_up(), 0.25]),
                }
            }
            let numbers = [min[0], top - thick, min[1], max[0], top, max[1]];
            self.tables.boxes.push(numbers);
        }
        first
    }
}

impl Plan {
    /// The scene, from a place where the body stands to another.
    fn ends(mut self) -> Scene {
        let bottom = f64::from(self.tables.window.origin[1]);
        let half = self.layers() as f64 / 2.0;
        let first = !self.chance.once_in(4);
        let middle = [0.5, bottom + half, 0.5];
        let mut scene = Scene {
            request: self.request(middle),
            body: self.body(),
            tables: std::mem::take(&mut self.tables),
        };
        let asked = scene.request;
        // The range is about the start, so all of it is looked at from there.
        scene.request.max_drop = 200.0;
        scene.request.jump_height = 200.0;
        let end = scene.tables.window.sizes[0] as i32;
        let start = self.standing(&scene, middle, 0..if first { 1 } else { end });
        scene.request.start = start;
        // Past the columns from which a connector could go at once.
        let goal = self.standing(&scene, start, 2..end);
        scene.request = Request {
            start,
            goal,
            ..asked
        };
        scene
    }

    fn request(&mut self, start: [f64; 3]) -> Request {
        let chance = &mut self.chance;
        let most = if self.column > 600 { 4096 } else { 1000 };
        Request {
            start,
            goal: start,
            max_range: chance.pick(&[64.0, 64.0, 64.0, 64.0, 33.0]),
            node_budget: match chance.below(8) {
                0 => chance.pick(&[1, 254, 255, 256, 257, 258]),
                1 => most,
                2 => most / 2 + chance.word() % most / 2,
                _ => 300 + chance.word() % 300,
            },
            step_height: chance.pick(&[0.125, 1.0, 128.0, 128.0, 128.0, 128.0, 128.0]),
            jump_height: chance.pick(&[0.0, 0.0, 0.25, 1.0, 64.0]),
            max_drop: chance.pick(&[0.125, 1.0, 128.0, 128.0, 128.0]),
        }
    }

    fn body(&mut self) -> Body {
        let small = self.chance.once_in(8);
        Body {
            width: self.chance.pick(&[0.001, 0.001, 0.25, 0.6, 1e-9]),
            height: self.chance.pick(&[0.001, 0.001, 0.01, 0.03, 1e-9]),
            step_height: if small { 0.5 } else { 128.0 },
        }
    }

    /// A point over a top in a column of these places in x, in the middle row if
    /// it is the first one; one where the body stands, if a few tries find one.
    fn standing(&mut self, scene: &Scene, around: [f64; 3], xs: Range<i32>) -> [f64; 3] {
        let mut checks = Checks::new(scene);
        let Window { origin, sizes } = scene.tables.window;
        let depth = sizes[2] as i32;
        let zs = match xs.end {
            1 => depth / 2..depth / 2 + 1,
            _ => 0..depth,
        };
        let mut point = around;
        for _ in 0..60 {
            let [x, z] = [(0, &xs), (2, &zs)].map(|(axis, cells)| {
                let cell = self.chance.between(cells.start, cells.end - 1);
                f64::from(origin[axis] + cell) + 0.5
            });
            let heights = checks.candidate_heights(x, z, around[1]);
            if heights.is_empty() {
                continue;
            }
            let off = self.chance.pick(&[0.0, 0.0, 0.0, 0.0, 0.2]);
            let any = self.chance.pick(&heights);
            let highest = heights.into_iter().next_back().unwrap_or(any);
            point = [x + off, if xs.end == 1 { highest } else { any }, z];
            if checks.standable(point) {
                break;
            }
        }
        if point[1] == 0.0 && self.chance.once_in(2) {
            point[1] = -0.0;
        }
        point
    }
}
