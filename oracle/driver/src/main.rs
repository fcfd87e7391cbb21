//! The differential driver: the proved search, called through the C interface
//! as a server would, against the original. oracle/README.md says what each
//! command does.

mod begun;
mod call;
mod changed;
mod columns;
mod counts;
mod differ;
mod divided;
mod edges;
mod edits;
mod expected;
mod large;
mod lengths;
mod misread;
mod numbers;
mod passes;
mod policy;
mod reader;
mod reasons;
mod room;
mod roots;
mod runner;
mod scenes;
mod short;
mod sizes;
mod slivers;
mod strewn;
mod sweeps;
mod tables;
mod tick;
mod ticks;
mod used;
mod walkback;

use std::process::ExitCode;

use crate::runner::{Check, Numbers, run};

const USAGE: &str = "\
driver scenes FROM COUNT [THREADS]
driver directed FOLDER
driver large
driver rooms FROM COUNT [THREADS]
driver tables FROM COUNT [THREADS]
driver walkback FROM COUNT [THREADS]
driver sweeps FROM COUNT [THREADS]
driver read FROM COUNT [THREADS]
driver policy FROM COUNT [THREADS]
driver numbers FROM COUNT [THREADS]
driver roots FROM COUNT [THREADS]
driver lengths FROM COUNT [THREADS]
driver edges FROM COUNT [THREADS]
driver reasons FOLDER
driver misread FROM COUNT
driver short FROM COUNT [THREADS]
driver columns FROM COUNT [THREADS]
driver slivers FROM COUNT [THREADS]
driver divided FROM COUNT [THREADS]
driver divided large
driver changed FROM COUNT [THREADS]
driver begun FROM COUNT [THREADS]
driver ticks
";

fn main() -> ExitCode {
    let arguments: Vec<String> = std::env::args().skip(1).collect();
    match command(&arguments) {
        Ok(true) => ExitCode::SUCCESS,
        Ok(false) => ExitCode::FAILURE,
        Err(error) => {
            eprint!("{error}");
            ExitCode::from(2)
        }
    }
}

/// False if something parts; an error if the command could not be run.
fn command(arguments: &[String]) -> Result<bool, String> {
    let words: Vec<&str> = arguments.iter().map(String::as_str).collect();
    let (name, from, count, threads) = match words[..] {
        ["directed", folder] => return scenes::directed(folder),
        ["reasons", folder] => return reasons::all(folder),
        ["misread", from, count] => return Ok(misread::all(number(from)?, number(count)?)),
        ["large"] => return Ok(large::all()),
        ["divided", "large"] => return Ok(divided::large()),
        ["ticks"] => return Ok(ticks::all()),
        [name, from, count] => (name, from, count, "1"),
        [name, from, count, threads] => (name, from, count, threads),
        _ => return Err(USAGE.to_string()),
    };
    let check: Check = match name {
        "scenes" => scenes::one_scene,
        "rooms" => scenes::all_rooms,
        "tables" => tables::one_call,
        "walkback" => walkback::one_scene,
        "sweeps" => sweeps::one_scene,
        "read" => reader::one_scene,
        "policy" => policy::one_scene,
        "numbers" => numbers::one_of_each,
        "roots" => roots::one_pattern,
        "lengths" => lengths::one_list,
        "edges" => edges::one_scene,
        "short" => short::one_scene,
        "columns" => columns::one_world,
        "slivers" => slivers::one_world,
        "divided" => divided::one_scene,
        "changed" => changed::one_scene,
        "begun" => begun::one_scene,
        _ => return Err(USAGE.to_string()),
    };
    let numbers = Numbers {
        from: number(from)?,
        count: number(count)?.max(1),
        threads: number(threads)?.max(1),
    };
    let flags = name != "policy" || policy::all_flags();
    Ok(flags && run(name, &numbers, check))
}

fn number(word: &str) -> Result<u64, String> {
    word.parse()
        .map_err(|_| format!("{word} is no whole number\n"))
}
