//! The shapes and permissions of each kind.

use super::{Draft, E, FULL, nudge};
use crate::random::Random;

type Shape = Vec<[f64; 6]>;

impl Draft {
    /// Shapes from 2 on and states from 2 on, by kind.
    pub(super) fn palette(&mut self) {
        let random = &mut self.random;
        let mut shapes: Vec<Shape> = match self.kind {
            "slabs" => slabs(),
            "stairs" => stairs(),
            "fences" => fences(),
            "doors" => doors(),
            "ties" => (0..6).map(|_| vec![lid(near_tie(random))]).collect(),
            "borders" => (0..6).map(|_| border_shape(random)).collect(),
            "zeros" => vec![
                vec![[-0.0, -0.0, -0.0, 1.0, 1.0, 1.0]],
                vec![[0.0, -1.0, 0.0, 1.0, -0.0, 1.0]],
                vec![[0.0, 0.0, 0.0, 1.0, 0.0, 1.0]],
            ],
            _ => random.one_of(&[slabs, stairs, fences, doors])(),
        };
        if random.once_in(4) {
            shapes.push((0..random.from_to(1, 4)).map(|_| any_box(random)).collect());
        }
        self.shapes.extend(shapes);
        let extra = match self.kind {
            "doors" => vec![3, 6, 7, 4, 2],
            "forbidden" => (0..6).map(|_| random.below(8) as u8).collect(),
            _ if random.once_in(3) => vec![random.below(8) as u8, 7],
            _ => vec![7],
        };
        self.permissions.extend(extra);
    }
}

fn lid(top: f64) -> [f64; 6] {
    [0.0, 0.0, 0.0, 1.0, top, 1.0]
}

fn slabs() -> Vec<Shape> {
    let mut out: Vec<_> = [0.5, 0.0625, 0.125, 0.25, 0.375, 0.875, 0.9375]
        .map(|top| vec![lid(top)])
        .into();
    out.push(vec![[0.0, 0.5, 0.0, 1.0, 1.0, 1.0]]);
    out.push(vec![lid(0.25), [0.0, 0.25, 0.0, 1.0, 0.5, 1.0]]);
    out
}

fn stairs() -> Vec<Shape> {
    let low = lid(0.5);
    vec![
        vec![low, [0.5, 0.5, 0.0, 1.0, 1.0, 1.0]],
        vec![low, [0.0, 0.5, 0.0, 0.5, 1.0, 1.0]],
        vec![low, [0.0, 0.5, 0.5, 1.0, 1.0, 1.0]],
        vec![low, [0.0, 0.5, 0.0, 1.0, 1.0, 0.5]],
        vec![low],
        vec![
            low,
            [0.5, 0.5, 0.5, 1.0, 1.0, 1.0],
            [0.0, 0.5, 0.0, 0.5, 1.0, 0.5],
        ],
    ]
}

fn fences() -> Vec<Shape> {
    let post = [0.375, 0.0, 0.375, 0.625, 1.5, 0.625];
    vec![
        vec![post],
        vec![post, [0.0, 0.0, 0.375, 0.375, 1.5, 0.625]],
        vec![post, [0.0, 0.0, 0.375, 1.0, 1.5, 0.625]],
        vec![post, [0.375, 0.0, 0.0, 0.625, 1.5, 1.0]],
        vec![[0.25, 0.0, 0.25, 0.75, 1.5, 0.75]],
        vec![lid(1.5)],
        vec![[0.0, 0.0, 0.0, 1.0, 2.0, 1.0]],
        vec![[0.0, 1.0, 0.0, 1.0, 1.25, 1.0]],
    ]
}

fn doors() -> Vec<Shape> {
    let thin = 0.1875;
    vec![
        vec![[0.0, 0.0, 0.0, thin, 1.0, 1.0]],
        vec![[1.0 - thin, 0.0, 0.0, 1.0, 1.0, 1.0]],
        vec![[0.0, 0.0, 0.0, 1.0, 1.0, thin]],
        vec![[0.0, 0.0, 1.0 - thin, 1.0, 1.0, 1.0]],
        vec![FULL],
    ]
}

/// A top that lies within a few E of another of its kind.
fn near_tie(random: &mut Random) -> f64 {
    let base = random.one_of(&[0.5, 1.0, 0.25]);
    let places = random.from_to(-5, 5) as f64;
    nudge(
        base + places * random.one_of(&[4.0e-8, 8.0e-8, E, 0.5 * E]),
        random.from_to(-1, 1),
    )
}

/// Boxes whose sides or tops lie at a border that some rule draws at E.
fn border_shape(random: &mut Random) -> Shape {
    let small = random.one_of(&[0.0, E, -E, 2.0 * E, 1.0e-8, -1.0e-8]);
    match random.below(4) {
        0 => vec![lid(nudge(
            random.one_of(&[0.5, 1.0]) + small,
            random.from_to(-1, 1),
        ))],
        1 => {
            // Two halves that meet, overlap or leave a gap at the middle.
            let middle = nudge(0.5 + small, random.from_to(-1, 1));
            vec![
                [0.0, 0.0, 0.0, 0.5, 1.0, 1.0],
                [middle, 0.0, 0.0, 1.0, 1.0, 1.0],
            ]
        }
        2 => vec![[small, 0.0, small, 1.0 - small, 1.0, 1.0]],
        _ => vec![
            [0.0, 0.0, 0.0, 1.0, 1.0, 0.5],
            [0.0, 0.0, 0.5 + small, 1.0, 1.0, 1.0],
        ],
    }
}

/// A box of any size.
fn any_box(random: &mut Random) -> [f64; 6] {
    let mut out = [0.0; 6];
    for axis in 0..3 {
        let number = |random: &mut Random| match random.below(4) {
            0 => random.part() * 4.0 - 2.0,
            1 => random.from_to(-16, 32) as f64 / 16.0,
            _ => random.from_to(0, 16) as f64 / 16.0,
        };
        let (a, b) = (number(random), number(random));
        out[axis] = a.min(b);
        out[axis + 3] = a.max(b);
    }
    out
}
