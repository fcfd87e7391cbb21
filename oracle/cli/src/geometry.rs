//! Questions about a scene's geometry, answered by the original's own checks, and
//! the doors by the reading.

use std::fmt::Write;

use original::Checks;
use scene::{Scene, Waypoint};

use crate::tape::Tape;

/// A question and its answer.
pub enum Question {
    InRange([f64; 3], bool),
    Standable([f64; 3], bool),
    Clear([f64; 6], bool),
    /// The first door of an area, if it is clear.
    Door([f64; 6], u64),
    Supported([f64; 3], [f64; 3], bool),
    /// x, z, the y it is looked from; the kept heights.
    Heights([f64; 3], Vec<f64>),
    /// The points, the edge check's number, and the waypoint if there is one.
    Edge([f64; 3], [f64; 3], u64, Option<Waypoint>),
    Connector([f64; 3], Option<Waypoint>),
    Steps([f64; 3], Vec<Waypoint>),
}

/// How many points of a scene are asked about.
const POINTS: usize = 4;

/// Where a point is probed from it: mostly there is no ground or a wall.
const PROBES: [[f64; 3]; 8] = [
    [1.0, 0.0, 0.0],
    [0.0, 0.0, 1.0],
    [-1.0, 0.0, 0.0],
    [0.0, 0.0, -1.0],
    [1.0, 1.0, 0.0],
    [0.0, -1.0, 1.0],
    [-1.0, 0.5, -1.0],
    [0.0, -0.5, 0.0],
];

const E: f64 = 1.0e-7;

/// The questions for a scene whose request is valid and not too large.
pub fn questions(scene: &Scene) -> Vec<Question> {
    let mut checks = Checks::new(scene);
    let points = points(scene);
    let mut out = Vec::new();
    for &point in &points {
        about_point(&mut checks, scene, point, &mut out);
        for shift in PROBES {
            let probe = std::array::from_fn(|axis| point[axis] + shift[axis]);
            about_pair(&mut checks, point, probe, &mut out);
        }
    }
    for &from in &points {
        for &to in &points {
            let near = (0..3).all(|axis| (from[axis] - to[axis]).abs() <= 2.0);
            if near {
                about_pair(&mut checks, from, to, &mut out);
            }
        }
    }
    out
}

/// Start, goal, then the first retained nodes after the start.
fn points(scene: &Scene) -> Vec<[f64; 3]> {
    let nodes = original::find_walk_path(scene).nodes;
    let mut out = vec![scene.request.start, scene.request.goal];
    out.extend(nodes.iter().skip(1).map(|node| node.point.feet));
    out.truncate(POINTS);
    out
}

fn about_point(checks: &mut Checks, scene: &Scene, point: [f64; 3], out: &mut Vec<Question>) {
    let [x, y, z] = point;
    for shift in [0.0, E, -E, 2.0 * E] {
        let shifted = [x, y + shift, z];
        out.push(Question::Standable(shifted, checks.standable(shifted)));
    }
    about_area(checks, checks.body_box(point), out);
    let range = scene.request.max_range;
    for far in [range, range + E, range + 2.0 * E] {
        let there = [x, y, scene.request.start[2] + far];
        out.push(Question::InRange(there, checks.in_range(there)));
    }
    for dx in -1..=1 {
        for dz in -1..=1 {
            let column = [
                x.floor() + f64::from(dx) + 0.5,
                z.floor() + f64::from(dz) + 0.5,
                y,
            ];
            let heights = checks.candidate_heights(column[0], column[1], y);
            out.push(Question::Heights(column, heights));
        }
    }
    out.push(Question::Connector(point, checks.connector(point)));
    out.push(Question::Steps(point, checks.steps(point)));
}

fn about_area(checks: &mut Checks, area: [f64; 6], out: &mut Vec<Question>) {
    out.push(Question::Clear(area, checks.clear_area(area)));
    out.push(Question::Door(area, checks.door_in(area)));
}

fn about_pair(checks: &mut Checks, from: [f64; 3], to: [f64; 3], out: &mut Vec<Question>) {
    let check = checks.edge_check(from, to);
    let edge = check.ok();
    out.push(Question::Edge(from, to, edge_number(check), edge));
    out.push(Question::Supported(
        from,
        to,
        checks.supported_segment(from, to),
    ));
    let lift = edge.map_or((to[1] - from[1]).max(0.0), |point| point.lift);
    // The crossing, and the way down to the target.
    let [_, crossing, settle] = checks.areas(from, lift, to);
    about_area(checks, crossing, out);
    about_area(checks, settle, out);
}

/// What `walkprint_edge` answers: by the movement, or the first reason.
pub fn edge_number(check: Result<Waypoint, u64>) -> u64 {
    match check {
        Ok(point) => 130 + point.movement,
        Err(number) => number,
    }
}

/// The questions of a scene, asked in cases of `replay_check`. Each case asks
/// every function about two points, so a pair's edge stands for the segment too,
/// a clear box for its door, and a point's columns for the heights and the steps.
pub fn ask(bytes: &[u8], scene: &Scene, tape: &mut Tape) {
    for question in questions(scene) {
        match question {
            Question::InRange(feet, _)
            | Question::Standable(feet, _)
            | Question::Connector(feet, _) => tape.ask_points(bytes, scene, feet, feet),
            Question::Clear([a, b, c, d, e, f], _) => {
                tape.ask_points(bytes, scene, [a, b, c], [d, e, f]);
            }
            Question::Edge(from, to, ..) => tape.ask_points(bytes, scene, from, to),
            Question::Steps(from, _) => tape.ask_columns(bytes, scene, from),
            Question::Supported(..) | Question::Heights(..) | Question::Door(..) => {}
        }
    }
}

impl Question {
    /// Kind, arguments (six, unused ones 0.0), result number, heights,
    /// waypoints.
    fn parts(&self) -> (u32, [f64; 6], u64, &[f64], &[Waypoint]) {
        let point = |[a, b, c]: [f64; 3]| [a, b, c, 0.0, 0.0, 0.0];
        let pair = |[a, b, c]: [f64; 3], [d, e, f]: [f64; 3]| [a, b, c, d, e, f];
        match self {
            Question::InRange(feet, yes) => (1, point(*feet), u64::from(*yes), &[], &[]),
            Question::Standable(feet, yes) => (2, point(*feet), u64::from(*yes), &[], &[]),
            Question::Clear(area, yes) => (3, *area, u64::from(*yes), &[], &[]),
            Question::Supported(from, to, yes) => (4, pair(*from, *to), u64::from(*yes), &[], &[]),
            Question::Heights(column, kept) => (5, point(*column), kept.len() as u64, kept, &[]),
            Question::Edge(from, to, number, edge) => {
                (6, pair(*from, *to), *number, &[], edge.as_slice())
            }
            Question::Connector(from, edge) => {
                let edge = edge.as_slice();
                (7, point(*from), edge.len() as u64, &[], edge)
            }
            Question::Steps(from, steps) => (8, point(*from), steps.len() as u64, &[], steps),
            Question::Door(area, door) => (9, *area, *door, &[], &[]),
        }
    }

    /// A line: name, arguments, `=`, result, and what follows it.
    pub fn line(&self) -> String {
        const NAMES: [(&str, usize); 9] = [
            ("in_range", 3),
            ("standable", 3),
            ("clear", 6),
            ("supported", 6),
            ("heights", 3),
            ("edge", 6),
            ("connector", 3),
            ("steps", 3),
            ("door", 6),
        ];
        let (kind, arguments, result, heights, waypoints) = self.parts();
        let (name, used) = NAMES[kind as usize - 1];
        let mut out = name.to_string();
        let hex = |out: &mut String, number: f64| {
            let _ = write!(out, " {:016x}", number.to_bits());
        };
        for &number in &arguments[..used] {
            hex(&mut out, number);
        }
        let _ = write!(out, " = {result}");
        for &height in heights {
            hex(&mut out, height);
        }
        for point in waypoints {
            let _ = write!(out, " {}", point.movement);
            for number in [point.feet[0], point.feet[1], point.feet[2], point.lift] {
                hex(&mut out, number);
            }
            let _ = write!(out, " {}", point.door);
        }
        out
    }
}
