//! Single-edit variants of the reading, run over scenes. README.md says what
//! each command does. The driver makes its scenes by the same recipes and
//! shrinks them by the same means.

mod agree;
pub mod chance;
pub mod changes;
mod claims;
mod compare;
mod doorways;
pub mod draft;
mod hunt;
pub mod lengths;
pub mod lists;
pub mod notice;
pub mod pairs;
pub mod questions;
pub mod recipes;
pub mod shrink;
pub mod spoilt;
pub mod states;
mod table;
pub mod tick_cases;
pub mod ticked;
pub mod told;

use std::path::PathBuf;

use reading::{VARIANTS, Variant};
use scene::KINDS;

use crate::recipes::{RECIPES, Recipe};

const USAGE: &str = "\
oracle mutants
oracle mutants reasons FROM COUNT
oracle mutants ticks FROM COUNT
oracle mutants agree SEED COUNT [RECIPE ..]
oracle mutants claims SEED COUNT [RECIPE ..]
oracle mutants tidy
oracle mutants hunt RECIPE SEED COUNT ENOUGH [NAME ..]
";

/// Runs a command; false if a variant survives, or the reading and the
/// original part.
pub fn run(arguments: &[String]) -> bool {
    let words: Vec<&str> = arguments.iter().map(String::as_str).collect();
    match words[..] {
        [] => {
            let searched = table::table(&scenes("directed"), 0, 20_000);
            notice::table(&scenes("reasons"), 0..11_000).expect("the folder of questions")
                && searched
        }
        ["reasons", from, count] => told::agree(number(from), number(count)),
        ["ticks", from, count] => {
            let (from, count) = (number(from), number(count));
            ticked::agree(from, count) && ticked::table(from..from + count)
        }
        ["agree", seed, count, ref names @ ..] => {
            let (seed, count) = (number(seed), number(count));
            let agrees = |name: &&str| agree::agree(name, &recipe(name), seed, count);
            recipes_of(names).iter().all(agrees) && agree::agree_policy(seed, count)
        }
        ["claims", seed, count, ref names @ ..] => {
            let (seed, count) = (number(seed), number(count));
            let keeps = |name: &&str| claims::claims(name, &recipe(name), seed, count);
            recipes_of(names).iter().all(keeps)
        }
        ["tidy"] => {
            hunt::tidy(&scenes("directed"));
            true
        }
        ["hunt", name, seed, count, enough, ref names @ ..] => {
            let first = number(seed);
            let seeds = first..first + number(count);
            hunt::hunt(
                &chosen(names),
                seeds,
                number(enough) as usize,
                &recipe(name),
                &scenes("directed"),
            );
            true
        }
        _ => {
            eprint!("{USAGE}");
            false
        }
    }
}

fn recipe(name: &str) -> Recipe {
    recipes::recipe(name).unwrap_or_else(|| panic!("{name} is no recipe"))
}

/// The named recipes, or all of them and the kinds of `oracle make`.
fn recipes_of<'a>(names: &[&'a str]) -> Vec<&'a str> {
    if names.is_empty() {
        return RECIPES.iter().chain(&KINDS).copied().collect();
    }
    names.to_vec()
}

/// A folder of the repository's scenes.
fn scenes(folder: &str) -> PathBuf {
    PathBuf::from(concat!(env!("CARGO_MANIFEST_DIR"), "/../../scenes")).join(folder)
}

fn number(word: &str) -> u64 {
    word.parse()
        .unwrap_or_else(|_| panic!("{word} is no number"))
}

/// The variants of these names, or those without a directed scene.
fn chosen(names: &[&str]) -> Vec<Variant> {
    if names.is_empty() {
        return table::survivors(&scenes("directed"));
    }
    let named = |name: &&str| {
        VARIANTS
            .iter()
            .copied()
            .find(|variant| variant.name() == *name)
    };
    names
        .iter()
        .map(|name| named(name).unwrap_or_else(|| panic!("{name} is no variant")))
        .collect()
}
