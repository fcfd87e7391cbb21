//! A server's tick, from a Rust program: reads the scene file that it is given and
//! searches a way, three expansions a tick; prints how far the search has come, and
//! at its end the route. In the third tick it asks for no expansion at all: that is
//! refused, and nothing is lost. tools/test-examples builds and runs it on
//! scenes/start/gap.txt.

use std::error::Error;

use examples::{World, print_route};
use walkprint::{Counts, Search, Tick, word};

/// So many nodes are closed in a tick. A server would take more: the header says how
/// many are sensible.
const EXPANSIONS: u64 = 3;

fn main() -> Result<(), Box<dyn Error>> {
    let world = World::named()?;
    let begun = Search::begin(&world.tables(), &world.scene.request, &world.scene.body)?;
    let mut search = match begun {
        Ok(search) => search,
        Err(outcome) => {
            println!("{outcome}: no search began");
            return Ok(());
        }
    };
    print_counts("begun", search.counts());
    for tick in 1.. {
        match search.advance(if tick == 3 { 0 } else { EXPANSIONS }) {
            Ok(Tick::Searching(counts)) => print_counts(&format!("tick {tick}: still searching"), counts),
            Ok(Tick::Ended(answer)) => {
                print_counts(&format!("tick {tick}: {}", answer.outcome), search.counts());
                break;
            }
            Err(refusal) => println!("tick {tick}: refused: {}", word(refusal.number())),
        }
    }
    print_route(&search.list());
    println!("length {}", walkprint::length(search.list_records()));
    Ok(())
}

fn print_counts(what: &str, counts: Counts) {
    let Counts { retained, closed, pushed, dropped } = counts;
    println!("{what}: {retained} retained, {closed} closed, {pushed} pushed, {dropped} dropped");
}
