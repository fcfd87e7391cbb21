//! The proved edge check against the original's, by its number: from nodes of a
//! scene's search to the heights around them, and to points a little off those;
//! from far and from nowhere; and what is refused, by a scene's own request and
//! after an edit of `tables`.

use mutants::chance::Chance;
use mutants::draft::scene_of;
use mutants::pairs::Point;
use mutants::questions::{Questions, questions};
use original::Checks;
use reading::{Graph, Variant::ReadAsWritten};
use scene::Scene;
use walkprint::raw;

use crate::call::Call;
use crate::counts::Counts;
use crate::edits::EDITS;
use crate::expected::refused;
use crate::runner::{Makers, Mismatch, smallest};
use crate::tables::edited;

/// How many pairs of a scene's tables are asked about after an edit.
const EDITED: usize = 4;

/// The number of an edge by its movement.
const MOVES: u64 = 130;

pub fn one_scene(makers: &Makers, number: u64, counts: &mut Counts) -> Result<(), Mismatch> {
    let Some((records, scene)) = makers.scene(number, counts) else {
        return Ok(());
    };
    counts.add("scenes", 1);
    if parts(&scene, number, counts).is_none() {
        return Ok(());
    }
    Err(smallest(records, &|records| {
        parts(&scene_of(records)?, number, &mut Counts::default())
    }))
}

/// The first pair on which the two part, of the scene, of the same spoilt, and
/// of its tables after an edit.
fn parts(scene: &Scene, seed: u64, counts: &mut Counts) -> Option<String> {
    let asked = questions(scene, seed);
    let spoilt = |asked: &Questions| pairs_part(&Call::of(&asked.scene), &asked.pairs, counts);
    if let Some(parts) = asked.iter().find_map(spoilt) {
        return Some(parts);
    }
    let edit = &EDITS[Chance::new(seed).below(EDITS.len())];
    let call = edited(scene, &[edit], seed);
    let pairs = &asked[0].pairs;
    pairs_part(&call, &pairs[..EDITED.min(pairs.len())], counts)
        .map(|parts| format!("{}: {parts}", edit.name))
}

/// The first of the pairs whose edges part.
fn pairs_part(call: &Call, pairs: &[(Point, Point)], counts: &mut Counts) -> Option<String> {
    let refusal = refused(call);
    let scene = call.whole().filter(|_| refusal.is_none());
    let mut judge = scene.as_ref().map(Judge::new);
    for &(from, to) in pairs {
        let must = match &mut judge {
            None => Ok(refusal?),
            Some(judge) => judge.must(from, to),
        };
        let said = call.ask(|asked| raw::edge(asked, from, to));
        if must != Ok(said) {
            return Some(format!("{from:?} to {to:?}: {said}, must be {must:?}"));
        }
        counts.add("edges asked", 1);
        counts.told(said);
    }
    None
}

/// What the original says of edges, and the reading, which must agree.
pub struct Judge<'a> {
    checks: Checks<'a>,
    graph: Graph<'a>,
}

impl<'a> Judge<'a> {
    pub fn new(scene: &'a Scene) -> Self {
        let edit = ReadAsWritten;
        Self {
            checks: Checks::new(scene),
            graph: Graph { scene, edit },
        }
    }

    pub fn must(&mut self, from: Point, to: Point) -> Result<u64, String> {
        let must = match self.checks.edge_check(from, to) {
            Ok(point) => MOVES + point.movement,
            Err(number) => number,
        };
        let read = match self.graph.edge_check(from, to) {
            Ok(point) => MOVES + point.movement,
            Err(reason) => reason as u64,
        };
        match read == must {
            true => Ok(must),
            false => Err(format!("{must} by the original, {read} by the reading")),
        }
    }
}
