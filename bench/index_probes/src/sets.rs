//! Sets of points on grids: named ones at far places, and made ones.

use reading::index::home;
use scene::Random;

use crate::lookups::Point;

/// Places of a grid, where the grid begins, and how far apart its places are.
pub struct Set {
    pub places: Vec<[i64; 3]>,
    pub first: [f64; 3],
    pub apart: [f64; 3],
}

impl Set {
    fn point(&self, place: [i64; 3]) -> Point {
        std::array::from_fn(|axis| {
            (self.first[axis] + place[axis] as f64 * self.apart[axis]).to_bits()
        })
    }

    pub fn points(&self) -> Vec<Point> {
        self.places.iter().map(|&place| self.point(place)).collect()
    }

    /// The six neighbours of each point, those that are in the set too.
    pub fn beside(&self) -> Vec<Point> {
        let mut out = Vec::new();
        for &place in &self.places {
            for axis in 0..3 {
                for step in [-1, 1] {
                    let mut beside = place;
                    beside[axis] += step;
                    out.push(self.point(beside));
                }
            }
        }
        out
    }

    /// Where and how, in a few words.
    pub fn told(&self) -> String {
        let sizes: [i64; 3] = std::array::from_fn(|axis| {
            let places = self.places.iter().map(|place| place[axis]);
            places.max().map_or(0, |last| last + 1)
        });
        format!(
            "{} by {} by {}, apart {:?}, from {:?}",
            sizes[0], sizes[1], sizes[2], self.apart, self.first
        )
    }
}

/// A box of places, x first, then z, then y; the first so many of them.
fn cut_box([width, height, depth]: [i64; 3], count: usize) -> Vec<[i64; 3]> {
    let layers = (0..height).flat_map(|y| (0..depth).map(move |z| (y, z)));
    let places = layers.flat_map(|(y, z)| (0..width).map(move |x| [x, y, z]));
    places.take(count).collect()
}

/// The named shapes. Their numbers of points are powers of two.
pub fn shapes() -> Vec<(&'static str, Vec<[i64; 3]>)> {
    let whole = |sizes: [i64; 3]| cut_box(sizes, usize::MAX);
    let flat = whole([64, 1, 64]);
    let stairs = flat.iter().map(|&[x, _, z]| [x, x, z]).collect();
    let slope = flat.iter().map(|&[x, _, z]| [x, x + z, z]).collect();
    vec![
        ("flat, 64 by 64", flat),
        ("line along x, 128", whole([128, 1, 1])),
        ("line along z, 128", whole([1, 1, 128])),
        ("line up, 128", whole([1, 128, 1])),
        ("line across, 128", (0..128).map(|k| [k, 0, k]).collect()),
        ("cube of 8", whole([8, 8, 8])),
        ("cube of 16", whole([16, 16, 16])),
        ("wall, 64 by 64", whole([64, 64, 1])),
        ("stairs, 64 by 64", stairs),
        ("slope, 64 by 64", slope),
    ]
}

/// Near 0, near the largest numbers that a request may have, and across a power
/// of two.
const FAR: f64 = 2147483648.0 - 256.0;
const PLACES: [f64; 7] = [
    0.5,
    FAR,
    -FAR,
    FAR + 0.5,
    -FAR - 0.5,
    1073741824.0 - 16.5,
    -1073741824.0 - 16.5,
];
const HEIGHTS: [f64; 5] = [1.0, -60.0, 300.0, FAR, -FAR];

/// A shape at each far place, with its columns one or one half apart and its
/// heights one, one half or an eighth.
pub fn far(places: &[[i64; 3]]) -> Vec<Set> {
    let spread = |axis: usize| places.iter().any(|place| place[axis] != 0);
    let pitches = if spread(0) || spread(2) { 2 } else { 1 };
    let steps = if spread(1) { 3 } else { 1 };
    let mut out = Vec::new();
    for pitch in &[1.0, 0.5][..pitches] {
        for step in &[1.0, 0.5, 0.125][..steps] {
            for x in PLACES {
                for z in PLACES {
                    out.extend(HEIGHTS.map(|y| Set {
                        places: places.to_vec(),
                        first: [x, y, z],
                        apart: [*pitch, *step, *pitch],
                    }));
                }
            }
        }
    }
    out
}

/// How far apart the heights of made sets are.
pub const STEPS: [f64; 6] = [1.0, 0.5, 0.125, 0.0625, 0.1, 1.0 / 3.0];

/// How far from 0 made sets are at the most, as powers of two of blocks, in x and
/// z and in height: near, as far as a world's border of 30,000,000 blocks, and
/// anywhere that a request may lie.
pub const REACHES: [(&str, u32, u32); 3] =
    [("near", 17, 9), ("world", 25, 9), ("anywhere", 31, 31)];

/// A box of so many points, up to 128 by 128 columns, one or one half apart.
pub fn made(random: &mut Random, (across, up): (u32, u32), count: usize, step: f64) -> Set {
    let (width, depth) = (side(random), side(random));
    let layers = count as i64 / (width * depth) + 1;
    let pitch = random.one_of(&[1.0, 0.5]);
    Set {
        places: cut_box([width, layers, depth], count),
        first: [
            offset(random, across, 0.5),
            offset(random, up, step),
            offset(random, across, 0.5),
        ],
        apart: [pitch, step, pitch],
    }
}

/// 1 to 128, of each size as often: 1, 2 and 3, 4 to 7, and so on.
fn side(random: &mut Random) -> i64 {
    (7.0 * random.part()).exp2() as i64
}

/// Whole steps from 0: up to some power of two of blocks, each as often.
fn offset(random: &mut Random, power: u32, step: f64) -> f64 {
    let blocks = (1i64 << random.below(u64::from(power) + 1)).min(FAR as i64);
    let most = (blocks as f64 / step) as i64;
    step * random.from_to(-most, most) as f64
}

/// Points that somebody chose so that all have the same slot for their own: of
/// each of 64 by 64 columns a height near 64, as a box may have it.
pub fn chosen(count: usize) -> Vec<Point> {
    let (slots, apart) = (2 * count, 2f64.powi(-40));
    let mut out = Vec::new();
    for k in 0..count {
        let (x, z) = ((k % 64) as f64 + 0.5, (k / 64) as f64 + 0.5);
        let mut y = 64.0;
        while home(slots, [x, y, z].map(f64::to_bits)) != 0 {
            y += apart;
        }
        out.push([x, y, z].map(f64::to_bits));
    }
    out
}
