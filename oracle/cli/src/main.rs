//! The oracle: what walkprint must answer. oracle/README.md describes each
//! command.

mod bench;
mod digest;
mod files;
mod geometry;
mod numbers;
mod policy;
mod printed;
mod reader;
mod row;
mod selftest;
mod stats;
mod store;
mod tape;
mod trace;
mod trial;
mod walks;

use std::io::{ErrorKind, Read, Write};
use std::path::Path;
use std::process::ExitCode;

use reading::Variant::ReadAsWritten;
use reading::print;
use scene::{Walked, YES, words};

use crate::files::scene_file;

const USAGE: &str = "\
oracle print < SCENE
oracle nodes < SCENE
oracle scene FILE
oracle text < SCENE
oracle make SEED KIND
oracle stats KIND N
oracle policy
oracle policy bytes
oracle geometry < SCENE
oracle walkback SCENE < LIST
oracle reasons FOLDER
oracle bench SCENE N
oracle edges SCENE N
oracle mutants ...
oracle store FOLDER
oracle selftest FOLDER
";

fn main() -> ExitCode {
    let arguments: Vec<String> = std::env::args().skip(1).collect();
    match run(&arguments) {
        Ok(true) => ExitCode::SUCCESS,
        Ok(false) => ExitCode::FAILURE,
        Err(error) => {
            eprintln!("{error}");
            ExitCode::from(2)
        }
    }
}

/// False if a check failed; an error if the command could not be run.
fn run(arguments: &[String]) -> Result<bool, String> {
    let words: Vec<&str> = arguments.iter().map(String::as_str).collect();
    match words[..] {
        ["print"] => put(print(&original::verdict(&input()?), ReadAsWritten).as_bytes()),
        ["nodes"] => nodes(),
        ["scene", file] => put(&scene_file(file)?),
        ["text"] => put(scene::to_text(&input()?).as_bytes()),
        ["make", seed, kind] => make(seed, kind),
        ["stats", kind, count] => stats(kind, count),
        ["policy"] => put(policy::text().as_bytes()),
        ["policy", "bytes"] => put(&policy::bytes()),
        ["geometry"] => geometry(),
        ["bench", file, runs] => {
            put(bench::line(file, &any_scene(file)?, number(runs)?).as_bytes())
        }
        ["edges", file, runs] => {
            put(bench::edges_line(file, &any_scene(file)?, number(runs)?).as_bytes())
        }
        ["walkback", file] => walkback(file),
        ["reasons", folder] => mutants::told::answered(Path::new(folder)),
        ["store", folder] => put(store::store(Path::new(folder))?.as_bytes()),
        ["selftest", folder] => selftest::selftest(Path::new(folder)),
        ["mutants", ..] => Ok(mutants::run(&arguments[1..])),
        _ => Err(USAGE.to_string()),
    }
}

fn input() -> Result<Vec<u8>, String> {
    let mut bytes = Vec::new();
    std::io::stdin()
        .read_to_end(&mut bytes)
        .map_err(|error| error.to_string())?;
    Ok(bytes)
}

fn put(bytes: &[u8]) -> Result<bool, String> {
    match std::io::stdout().write_all(bytes) {
        // Whoever read it has enough.
        Err(error) if error.kind() == ErrorKind::BrokenPipe => Ok(true),
        Err(error) => Err(error.to_string()),
        Ok(()) => Ok(true),
    }
}

/// The scene of a seed and a kind.
fn make(seed: &str, kind: &str) -> Result<bool, String> {
    put(&scene::make(number(seed)?, kind).ok_or_else(kinds_known)?)
}

/// The shares of a kind, or of each and of all mixed.
fn stats(kind: &str, count: &str) -> Result<bool, String> {
    let count = number(count)?;
    let kinds = match kind {
        "all" => [&scene::KINDS[..], &["mixed"]].concat(),
        kind => vec![kind],
    };
    for kind in kinds {
        put(stats::stats(kind, count)
            .ok_or_else(kinds_known)?
            .as_bytes())?;
    }
    Ok(true)
}

fn kinds_known() -> String {
    format!("kinds: mixed {}", scene::KINDS.join(" "))
}

fn number(word: &str) -> Result<u64, String> {
    word.parse()
        .map_err(|_| format!("{word} is no whole number"))
}

/// The original's checks on chosen points of a scene.
fn geometry() -> Result<bool, String> {
    let bytes = input()?;
    let scene = scene::read(&bytes).map_err(|bad| format!("record {} is bad", bad.record))?;
    if !original::valid_request(&scene) || scene::too_large(&scene.request, &scene.body) {
        return Err("the request is invalid or too large".to_string());
    }
    let mut out = String::new();
    for question in geometry::questions(&scene) {
        out.push_str(&question.line());
        out.push('\n');
    }
    put(out.as_bytes())
}

/// A large world by its name, or a scene in a file, in text form if its name
/// ends so.
fn any_scene(file: &str) -> Result<scene::Scene, String> {
    if let Some(scene) = scene::large(file) {
        return Ok(scene);
    }
    let bytes = if file.ends_with(".txt") {
        scene_file(file)?
    } else {
        std::fs::read(file).map_err(|error| format!("{file}: {error}"))?
    };
    scene::read(&bytes).map_err(|bad| format!("record {} is bad", bad.record))
}

/// What the walk-back says of a list of 48-byte records on a scene in a file.
fn walkback(file: &str) -> Result<bool, String> {
    let Walked { number, place } = original::walk_back(&any_scene(file)?, &input()?);
    let answer = match (number, place) {
        (YES, _) => "yes\n".to_string(),
        (3 | 4, _) => format!("refused {number} 0\n"),
        (_, Some(place)) => format!("no {number} {}, place {place}\n", words(number)),
        _ => format!("no {number} {}\n", words(number)),
    };
    put(answer.as_bytes())
}

/// The retained nodes in records, in hex, one a line.
fn nodes() -> Result<bool, String> {
    let mut out = String::new();
    if let Ok(answer) = original::verdict(&input()?) {
        for node in &answer.nodes {
            for byte in node.bytes() {
                out.push_str(&format!("{byte:02x}"));
            }
            out.push('\n');
        }
    }
    put(out.as_bytes())
}
