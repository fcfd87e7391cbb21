//! Questions about reasons, of an edge or of a list, and what the reading, its
//! variants and the original answer: those in the heads of scenes/reasons, and
//! those of random scenes.

use std::path::{Path, PathBuf};

use original::{Checks, Walks};
use reading::{Graph, Variant, Variant::ReadAsWritten};
use scene::{Answer, Asked, KINDS, NodeRecord, Question, Scene, Walked};

use crate::chance::Chance;
use crate::draft::scene_of;
use crate::lists::{List, lists, refused_steps, spoilt_lists};
use crate::pairs::{Point, pairs, put_off};
use crate::recipes::{RECIPES, recipe};
use crate::spoilt::spoilt;

/// How many edges of a random scene are picked at the most.
const MOST_EDGES: usize = 48;

/// The number of an edge by its movement.
const MOVES: u64 = 130;

/// The kinds of question.
pub const LISTS: usize = 0;
pub const EDGES: usize = 1;

pub fn kind(question: &Question) -> usize {
    match question {
        Question::Walk(_) => LISTS,
        Question::Edge(..) => EDGES,
    }
}

/// What the reading, or a variant of it, answers to a question.
pub fn reads(scene: &Scene, question: &Question, edit: Variant) -> Walked {
    match question {
        Question::Walk(list) => reading::walk_back(scene, list, edit),
        Question::Edge(from, to) => Walked::told(match refusal(scene, valid(scene)) {
            Some(number) => number,
            None => match (Graph { scene, edit }).edge_check(*from, *to) {
                Ok(point) => MOVES + point.movement,
                Err(reason) => reason as u64,
            },
        }),
    }
}

/// `valid_request`, as the reading has it.
fn valid(scene: &Scene) -> bool {
    reading::valid_request(scene, ReadAsWritten)
}

/// What refuses an edge check, whatever the points: "3; `valid_request` (else
/// 1); 4, the budget not read".
fn refusal(scene: &Scene, valid: bool) -> Option<u64> {
    if reading::bad_world(scene) {
        return Some(3);
    }
    if !valid {
        return Some(1);
    }
    let mut unread = scene.request;
    unread.node_budget = 0;
    scene::too_large(&unread, &scene.body).then_some(4)
}

/// The original on a scene.
pub struct Judge<'a> {
    walks: Walks<'a>,
    checks: Checks<'a>,
    /// What refuses every edge check.
    refused: Option<u64>,
}

impl<'a> Judge<'a> {
    pub fn new(scene: &'a Scene) -> Self {
        Self {
            walks: Walks::new(scene),
            checks: Checks::new(scene),
            refused: refusal(scene, original::valid_request(scene)),
        }
    }

    pub fn answers(&mut self, question: &Question) -> Walked {
        match question {
            Question::Walk(list) => self.walks.walk_back(list),
            Question::Edge(from, to) => Walked::told(match self.refused {
                Some(number) => number,
                None => match self.checks.edge_check(*from, *to) {
                    Ok(point) => MOVES + point.movement,
                    Err(number) => number,
                },
            }),
        }
    }
}

/// Scene n of the driver's commands, if it is one: of kind n mod 23, from seed n.
pub fn numbered(number: u64) -> Option<Scene> {
    let names: Vec<&str> = RECIPES.iter().chain(&KINDS).copied().collect();
    let make = recipe(names[(number % names.len() as u64) as usize])?;
    scene_of(&make(number))
}

/// A scene, its lists, and its pairs of points.
pub struct Questions {
    pub scene: Scene,
    pub lists: Vec<List>,
    pub pairs: Vec<(Point, Point)>,
}

/// What is asked of a random scene, and of the same after it was spoilt, if its
/// search began; the same for the same seed.
pub fn questions(scene: &Scene, seed: u64) -> Vec<Questions> {
    let judged = original::judge(scene).ok();
    let nodes = retained(judged.as_ref());
    let mut chance = Chance::new(seed);
    let mut out = vec![Questions {
        scene: scene.clone(),
        lists: lists(scene, judged.as_ref(), seed),
        pairs: some_pairs(scene, nodes, &mut chance),
    }];
    if !nodes.is_empty() {
        let scene = spoilt(scene, nodes, &mut chance);
        let judged = original::judge(&scene).ok();
        out.push(Questions {
            lists: spoilt_lists(nodes, &scene, judged.as_ref(), seed),
            pairs: some_pairs(&scene, retained(judged.as_ref()), &mut chance),
            scene,
        });
    }
    out
}

fn retained(answer: Option<&Answer>) -> &[NodeRecord] {
    answer.map_or(&[], |answer| &answer.nodes)
}

/// Some pairs of a scene's points, put off, of which a fourth leads from the one
/// of one pair to the other of another; and a pair for each reason that an edge
/// around the nodes has.
fn some_pairs(scene: &Scene, nodes: &[NodeRecord], chance: &mut Chance) -> Vec<(Point, Point)> {
    let pairs = pairs(scene, refusal(scene, valid(scene)).is_some());
    let one = |_| {
        let (from, to) = chance.pick(&pairs);
        let (_, other) = chance.pick(&pairs);
        let to = if chance.once_in(4) { other } else { to };
        put_off((from, to), chance)
    };
    let mut out: Vec<_> = (0..MOST_EDGES.min(2 * pairs.len())).map(one).collect();
    let refused = refused_steps(&mut Checks::new(scene), nodes).into_iter();
    out.extend(refused.map(|(node, to)| (nodes[node].point.feet, to)));
    out
}

impl Questions {
    /// All of them, the lists first.
    pub fn all(&self) -> Vec<Question> {
        let lists = self
            .lists
            .iter()
            .map(|list| Question::Walk(list.bytes.clone()));
        let edges = self
            .pairs
            .iter()
            .map(|&(from, to)| Question::Edge(from, to));
        lists.chain(edges).collect()
    }
}

/// A scene of the folder, with its questions.
pub struct Directed {
    pub name: String,
    pub scene: Scene,
    pub asked: Vec<Asked>,
}

/// The scenes with questions of a folder, by name.
pub fn directed(folder: &Path) -> Result<Vec<Directed>, String> {
    let entries = std::fs::read_dir(folder).map_err(|error| error.to_string())?;
    let mut files: Vec<_> = entries
        .filter_map(|entry| Some(entry.ok()?.path()))
        .collect();
    files.sort();
    let told = |file: &PathBuf| one(file).map_err(|error| format!("{}: {error}", file.display()));
    files.iter().map(told).collect()
}

fn one(file: &Path) -> Result<Directed, String> {
    let text = std::fs::read_to_string(file).map_err(|error| error.to_string())?;
    let bytes = scene::from_text(&text)?;
    let asked = scene::asked(&text)?;
    if asked.is_empty() {
        return Err("nothing is asked".to_string());
    }
    let stem = file.file_stem().ok_or("it has no name")?;
    Ok(Directed {
        name: stem.to_string_lossy().into_owned(),
        scene: scene::read(&bytes).map_err(|bad| format!("record {} is bad", bad.record))?,
        asked,
    })
}
