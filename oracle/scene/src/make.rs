//! Scenes from a seed. A kind says which shapes, permissions, terrain, body,
//! request and coordinates are likely; the rest is common to all.

mod damage;
mod palette;
mod request;
mod terrain;

use crate::random::Random;
use crate::record::{Record, write_bytes};

/// The kinds that `make` knows.
pub const KINDS: [&str; 16] = [
    "levels",
    "slabs",
    "stairs",
    "fences",
    "doors",
    "mazes",
    "forbidden",
    "ties",
    "borders",
    "far",
    "zeros",
    "bodies",
    "budgets",
    "open",
    "invalid",
    "damaged",
];

/// The scene of a seed and a kind; `mixed` is any of the kinds.
pub fn make(seed: u64, kind: &str) -> Option<Vec<u8>> {
    let mut random = Random::new(seed, kind);
    let kind = match kind {
        "mixed" => random.one_of(&KINDS),
        kind => KINDS.into_iter().find(|&known| known == kind)?,
    };
    let mut draft = Draft::new(kind, random);
    draft.terrain();
    let mut bytes = write_bytes(&draft.records());
    if kind == "damaged" {
        damage::damage(&mut draft.random, &mut bytes);
    }
    Some(bytes)
}

const E: f64 = 1.0e-7;
const FULL: [f64; 6] = [0.0, 0.0, 0.0, 1.0, 1.0, 1.0];

/// The states that every scene has; a kind adds more.
const AIR: u32 = 0;
const GROUND: u32 = 1;
/// What fills the lowest layer at first.
const FLOOR: (u32, u32) = (GROUND, 1);

/// A scene in the making.
struct Draft {
    kind: &'static str,
    random: Random,
    origin: [i32; 3],
    sizes: [usize; 3],
    /// Shape 0 is empty, shape 1 full.
    shapes: Vec<Vec<[f64; 6]>>,
    permissions: Vec<u8>,
    cells: Vec<(u32, u32)>,
}

impl Draft {
    fn new(kind: &'static str, mut random: Random) -> Self {
        let mut size = |low, high| random.from_to(low, high) as usize;
        let sizes = match kind {
            "mazes" => [2 * size(2, 7) + 1, size(4, 5), 2 * size(2, 7) + 1],
            "open" => [size(6, 20), size(4, 5), size(6, 20)],
            _ => [size(3, 14), size(4, 7), size(4, 12)],
        };
        let mut draft = Self {
            kind,
            origin: origin(kind, &mut random, sizes),
            random,
            sizes,
            shapes: vec![Vec::new(), vec![FULL]],
            permissions: vec![7, 7],
            cells: vec![(AIR, 0); sizes.iter().product()],
        };
        draft.palette();
        draft
    }

    /// The place of a cell in `cells`.
    fn at(&self, x: usize, y: usize, z: usize) -> usize {
        x + self.sizes[0] * (z + self.sizes[2] * y)
    }

    /// The coordinates of a cell.
    fn corner(&self, x: usize, y: usize, z: usize) -> [i32; 3] {
        let [a, b, c] = self.origin;
        [a + x as i32, b + y as i32, c + z as i32]
    }

    fn records(&mut self) -> Vec<Record> {
        let mut out = vec![self.request(), self.body()];
        out.push(Record::Window {
            origin: self.origin,
            sizes: self.sizes.map(|size| size as u32),
        });
        for (shape, boxes) in (0..).zip(&self.shapes) {
            out.extend(
                boxes
                    .iter()
                    .map(|&numbers| Record::Shape { shape, numbers }),
            );
        }
        for (state, &permission) in (0..).zip(&self.permissions) {
            out.push(Record::State { state, permission });
        }
        self.fills(&mut out);
        out
    }

    /// Air everywhere, the floor's lowest layer, then what differs from both
    /// in runs along x.
    fn fills(&self, out: &mut Vec<Record>) {
        let [width, height, depth] = self.sizes;
        let fill = |min, max, (state, shape)| Record::Fill {
            min,
            max,
            state,
            shape,
        };
        let last = |y| self.corner(width - 1, y, depth - 1);
        out.push(fill(self.origin, last(height - 1), (AIR, 0)));
        out.push(fill(self.origin, last(0), FLOOR));
        for (row, cells) in self.cells.chunks(width).enumerate() {
            let (y, z) = (row / depth, row % depth);
            let base = if y == 0 { FLOOR } else { (AIR, 0) };
            let mut x = 0;
            for run in cells.chunk_by(|a, b| a == b) {
                let end = x + run.len();
                if run[0] != base {
                    out.push(fill(
                        self.corner(x, y, z),
                        self.corner(end - 1, y, z),
                        run[0],
                    ));
                }
                x = end;
            }
        }
    }
}

/// Where the window lies.
fn origin(kind: &str, random: &mut Random, sizes: [usize; 3]) -> [i32; 3] {
    let near = |random: &mut Random| random.from_to(-6, 6) as i32;
    match kind {
        "zeros" => [0, 1, 2].map(|axis| -(random.below(sizes[axis] as u64) as i32)),
        "far" => [0; 3].map(|_| {
            let size = random.one_of(&[1_000, 30_000_000, 1 << 24, 1 << 30, i32::MAX - 60]);
            let end = if random.once_in(2) { size } else { -size };
            end + random.from_to(-8, 8) as i32
        }),
        _ => [0; 3].map(|_| near(random)),
    }
}

/// The float `places` further on the line of positive floats.
fn nudge(number: f64, places: i64) -> f64 {
    if number <= 0.0 {
        return number;
    }
    f64::from_bits(number.to_bits().wrapping_add_signed(places))
}
