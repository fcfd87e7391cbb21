//! The fixed lists of questions and answers that the gate's programs replay.
//! oracle/README.md describes the layouts.

use std::fmt::Write;
use std::path::Path;

use mutants::questions::Directed;
use scene::{Asked, NO_DOOR, NODE, Question, Verdict, WAYPOINT};

use crate::files::{directed, scene_file};
use crate::tape::Tape;
use crate::trial::Trial;
use crate::{geometry, numbers, printed, reader, walks};

/// A scene and where it comes from.
struct Source {
    name: String,
    bytes: Vec<u8>,
}

/// Writes every list of the directed scenes in `folder`; says their sizes.
pub fn store(folder: &Path) -> Result<String, String> {
    let mut out = String::new();
    for (file, bytes) in lists(folder)? {
        std::fs::write(folder.join(file), &bytes).map_err(|error| format!("{file}: {error}"))?;
        let _ = writeln!(out, "{file} {} bytes", bytes.len());
    }
    Ok(out)
}

/// Each list's file, as seen from the folder of the directed scenes, and bytes.
/// Those of the gate's programs lie under `crates`.
pub fn lists(folder: &Path) -> Result<Vec<(&'static str, Vec<u8>)>, String> {
    let mut tape = Tape::new(printed::scenes(folder)?);
    searches(folder, &mut tape)?;
    geometries(folder, &mut tape)?;
    walks::ask(&mut tape);
    reasons(folder, &mut tape)?;
    reader::ask(&mut tape);
    let [input, output, names] = tape.files();
    let (records, lines) = numbers::files();
    Ok(vec![
        ("../../crates/replay_check/stdin", input),
        ("../../crates/replay_check/stdout", output),
        ("../replay.lst", names),
        ("../../crates/numbers_check/stdin", records),
        ("../../crates/numbers_check/stdout", lines),
    ])
}

/// The most bytes of a stored scene that was made from a seed, with the list
/// and the nodes that its search leaves.
const LARGEST: usize = 2860;
/// The seeds that are looked through for each kind.
const SEEDS: u64 = 1000;

fn number(verdict: &Verdict) -> u32 {
    match verdict {
        Ok(answer) => answer.outcome as u32,
        Err(refusal) => refusal.number,
    }
}

/// The bytes of a scene, of its list and of its nodes.
fn size(bytes: &[u8], verdict: &Verdict) -> usize {
    let left = |answer: &scene::Answer| WAYPOINT * answer.list.len() + NODE * answer.nodes.len();
    bytes.len() + verdict.as_ref().map_or(0, left)
}

const fn trial(more: usize, short: usize, index: fn(usize) -> usize, fill: u8) -> Trial {
    Trial {
        more,
        short,
        index,
        fill,
    }
}

/// The trials of every search: rooms too long by a record of any and a part of
/// one, the index twice as long as it must be; all of exactly the size; each of
/// them and the cell table a byte short; and no index. Rooms and tables are full
/// of the byte.
const TRIALS: [Trial; 7] = [
    trial(69, 0, |least| 2 * least, 171),
    trial(0, 0, |least| least, 255),
    trial(0, 1, |least| least, 1),
    trial(0, 2, |least| least, 64),
    trial(0, 3, |least| least, 0),
    trial(0, 4, |_| 0, 128),
    trial(0, 0, |_| 0, 7),
];

/// Index rooms of other sizes than the least, all but a few of them wrong; of
/// these each search is tried with two, in turn.
const INDEXES: [fn(usize) -> usize; 8] = [
    |least| least / 2,
    |least| least + 1,
    |least| least / 2 * 3,
    |least| least + 2,
    |least| least - 1,
    |least| least + 3,
    |least| least - 4,
    |least| 2 * least - 4,
];

/// Every directed scene that reads, the flat one first, then of each kind the
/// first seeds with each answer.
fn searches(folder: &Path, tape: &mut Tape) -> Result<(), String> {
    let mut sources = Vec::new();
    for name in directed(folder)? {
        let file = folder.join(&name);
        let bytes = scene_file(&file.to_string_lossy())?;
        sources.push(Source { name, bytes });
    }
    sources.sort_by_key(|source| source.name != "flat.txt");
    for kind in scene::KINDS {
        sources.extend(chosen(kind));
    }
    let mut others = INDEXES.iter().cycle();
    for Source { name, bytes } in sources {
        let Ok(scene) = scene::read(&bytes) else {
            continue;
        };
        let answer = number(&original::judge(&scene));
        tape.named(&format!("{name} search {answer}"), |tape| {
            for trial in &TRIALS {
                tape.ask_search(&bytes, &scene, trial);
            }
            for &index in others.by_ref().take(2) {
                tape.ask_search(&bytes, &scene, &trial(69, 0, index, 93));
            }
        });
    }
    Ok(())
}

/// Seeds of a kind whose answers differ in kind, small ones.
fn chosen(kind: &str) -> Vec<Source> {
    // Found long, found, unreachable searched, unreachable at once, exceeded,
    // refused.
    let mut wanted = [2, 1, 1, 1, 1, 1];
    let mut out = Vec::new();
    for seed in 1..=SEEDS {
        let bytes = scene::make(seed, kind).expect("the kind is known");
        let verdict = original::verdict(&bytes);
        let sort = match &verdict {
            Ok(answer) => match (answer.outcome, answer.nodes.len(), answer.list.len()) {
                (scene::Outcome::Found, _, 5..) => 0,
                (scene::Outcome::Found, ..) => 1,
                (scene::Outcome::Unreachable, 2.., _) => 2,
                (scene::Outcome::Unreachable, ..) => 3,
                (scene::Outcome::BudgetExceeded, ..) => 4,
            },
            Err(_) => 5,
        };
        if wanted[sort] > 0 && number(&verdict) != 7 && size(&bytes, &verdict) <= LARGEST {
            wanted[sort] -= 1;
            let name = format!("make {seed} {kind}");
            out.push(Source { name, bytes });
        }
    }
    out
}

/// The kinds whose geometry differs.
const GROUNDS: [&str; 10] = [
    "levels",
    "slabs",
    "stairs",
    "fences",
    "doors",
    "forbidden",
    "ties",
    "borders",
    "far",
    "bodies",
];

/// The first small seed of a kind whose search retains at least five nodes; that
/// of doors has one at a node.
fn ground(kind: &str) -> Option<Source> {
    let fits = |source: &Source| {
        let nodes = original::verdict(&source.bytes).map_or(Vec::new(), |answer| answer.nodes);
        let doored = kind != "doors" || nodes.iter().any(|node| node.point.door != NO_DOOR);
        nodes.len() >= 5 && doored && source.bytes.len() <= 40 * scene::RECORD
    };
    let made = |seed| Source {
        name: format!("make {seed} {kind}"),
        bytes: scene::make(seed, kind).expect("the kind is known"),
    };
    (1..=SEEDS).map(made).find(fits)
}

/// A ground of each of these kinds, then the directed scenes that only a
/// question tells apart (`asked-*.txt`), and those on the order of doors
/// (`door-order-*.txt`), with the questions of `geometry`.
fn geometries(folder: &Path, tape: &mut Tape) -> Result<(), String> {
    let mut sources: Vec<Source> = GROUNDS.iter().filter_map(|kind| ground(kind)).collect();
    for name in directed(folder)? {
        if name.starts_with("asked-") || name.starts_with("door-order-") {
            let bytes = scene_file(&folder.join(&name).to_string_lossy())?;
            sources.push(Source { name, bytes });
        }
    }
    for Source { name, bytes } in sources {
        let scene = scene::read(&bytes).map_err(|bad| format!("bad record {}", bad.record))?;
        tape.named(&format!("{name} geometry"), |tape| {
            geometry::ask(&bytes, &scene, tape);
        });
    }
    Ok(())
}

/// The questions in the heads of scenes/reasons. The program asks every function
/// about a pair of points, so an edge is left out if a point is far away or no
/// number, or if the request is refused.
fn reasons(folder: &Path, tape: &mut Tape) -> Result<(), String> {
    let folder = folder.join("../reasons");
    for Directed { name, scene, asked } in mutants::questions::directed(&folder)? {
        let bytes = scene_file(&folder.join(format!("{name}.txt")).to_string_lossy())?;
        let near = |a: [f64; 3], b: [f64; 3]| (0..3).all(|axis| (a[axis] - b[axis]).abs() <= 64.0);
        tape.named(&format!("reasons/{name}.txt asked"), |tape| {
            for Asked {
                question, answer, ..
            } in asked
            {
                match question {
                    Question::Walk(list) => tape.ask_lists(&bytes, &scene, &[list]),
                    Question::Edge(from, to) if near(from, to) && answer.number > 4 => {
                        tape.ask_points(&bytes, &scene, from, to);
                    }
                    Question::Edge(..) => {}
                }
            }
        });
    }
    Ok(())
}
