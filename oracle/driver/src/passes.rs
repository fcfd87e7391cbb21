//! How often the proved search passes over the boxes under a way (01's
//! "Supported segment", `carries` of `crates/segments`): a count for what a world
//! reaches, which decides no answer.

use reading::E;
use scene::{Scene, Tables};

/// Passes that cover more before parts further ahead are gathered.
const PATIENCE: usize = 8;
/// The parts that the room for them takes.
const ROOM: usize = 1024;

/// What was seen under a way.
#[derive(Default)]
pub struct Passed {
    pub carried: bool,
    /// How often parts further ahead were gathered.
    pub gathered: usize,
    /// The most parts that were.
    pub parts: usize,
    /// Whether a shape refused the way.
    pub refused: bool,
}

/// The parts of a centre line in the order of a pass, or nothing if a shape
/// refuses the way.
type Parts = Option<Vec<(f64, f64)>>;

pub fn passes(scene: &Scene, from: [f64; 3], to: [f64; 3]) -> Passed {
    let mut out = Passed::default();
    let Some(parts) = under(scene, from, to) else {
        out.refused = true;
        return out;
    };
    let (mut covered, mut grew) = (0.0, 0);
    loop {
        let next = joined(parts.iter().copied(), covered);
        out.carried = 1.0 - E <= next;
        if out.carried || next <= covered {
            return out;
        }
        covered = next;
        if grew < PATIENCE {
            grew += 1;
        } else {
            out.gathered += 1;
            let ahead = parts.iter().filter(|part| covered < part.1);
            out.parts = out.parts.max(ahead.count());
            covered = ahead_joined(&parts, covered);
        }
    }
}

fn joined(parts: impl Iterator<Item = (f64, f64)>, covered: f64) -> f64 {
    parts.fold(covered, |covered, (begin, end)| {
        match begin <= covered + E {
            true => covered.max(end),
            false => covered,
        }
    })
}

/// The parts further ahead in order, as many as the room takes.
fn ahead_joined(parts: &[(f64, f64)], covered: f64) -> f64 {
    let mut room: Vec<(f64, f64)> = Vec::new();
    for &part in parts.iter().filter(|part| covered < part.1) {
        if room.len() == ROOM {
            room.drain(..ROOM / 2);
        }
        let place = room.partition_point(|other| part.0 <= other.0);
        room.insert(place, part);
    }
    joined(room.into_iter().rev(), covered)
}

fn under(scene: &Scene, from: [f64; 3], to: [f64; 3]) -> Parts {
    let half = scene.body.width * 0.5;
    let wide = [half, 0.0, half];
    let min: [f64; 3] = std::array::from_fn(|k| from[k].min(to[k]) - wide[k]);
    let max: [f64; 3] = std::array::from_fn(|k| from[k].max(to[k]) + wide[k]);
    let mut parts = Vec::new();
    for y in min[1].floor() as i32 - 2..=max[1].floor() as i32 {
        for z in min[2].floor() as i32..max[2].ceil() as i32 {
            for x in min[0].floor() as i32..max[0].ceil() as i32 {
                let (support, boxes) = content(&scene.tables, [x, y, z]);
                for shape in boxes {
                    let at = [x, y, z, x, y, z].map(f64::from);
                    let shape: [f64; 6] = std::array::from_fn(|k| shape[k] + at[k]);
                    let level = min[1] - E <= shape[4] && shape[4] <= max[1] + E;
                    let over = |k: usize| shape[k] < max[k] && min[k] < shape[k + 3];
                    if level && over(0) && over(2) {
                        if !support {
                            return None;
                        }
                        parts.extend(part(&shape, from, to));
                    }
                }
            }
        }
    }
    Some(parts)
}

/// Whether a cell carries, and its boxes.
fn content(tables: &Tables, at: [i32; 3]) -> (bool, &[[f64; 6]]) {
    let [x, y, z] = std::array::from_fn(|k| at[k].wrapping_sub(tables.window.origin[k]) as u32);
    let [width, tall, depth] = tables.window.sizes;
    if x >= width || y >= tall || z >= depth {
        return (false, &[[0.0, 0.0, 0.0, 1.0, 1.0, 1.0]]);
    }
    let (state, shape) = tables.cells[(x + width * (z + depth * y)) as usize];
    let (first, count) = tables.shapes[shape as usize];
    let run = &tables.boxes[first as usize..][..count as usize];
    (tables.permissions[state as usize] & 2 != 0, run)
}

fn part(shape: &[f64; 6], from: [f64; 3], to: [f64; 3]) -> Option<(f64, f64)> {
    let (mut begin, mut end) = (0.0_f64, 1.0_f64);
    for k in [0, 2] {
        let delta = to[k] - from[k];
        if delta == 0.0 {
            if from[k] < shape[k] || shape[k + 3] < from[k] {
                return None;
            }
        } else {
            let [a, b] = [shape[k], shape[k + 3]].map(|border| (border - from[k]) / delta);
            begin = begin.max(a.min(b));
            end = end.min(a.max(b));
        }
    }
    (begin <= end).then_some((begin, end))
}
