//! How soon the variants of the reading part from what the proved calls say: those
//! of reasons on lists and edges, those of doors on searches, in the list and in
//! the node room, or in rooms that are too short, those of lengths on lists that no
//! search gave and on found ones, and those of begin and continue on calls of them.

use std::ops::Range;

use mutants::chance::Chance;
use mutants::notice::notice;
use mutants::questions::numbered;
use mutants::ticked;
use reading::{ROOMED, Rooms, TICKED, Tick, VARIANTS, Variant, search, search_in};
use scene::{Question, Scene, Verdict, Walked};
use walkprint::raw;

use crate::call::Call;
use crate::lengths::noticed;
use crate::sizes::{FRONT, INDEX, NODES, OUT, Sizes, needed};
use crate::tick::answer;

/// A line a variant: how many lists, edges or searches of the scenes of these
/// numbers agree before one parts. False if none does for one of them.
pub fn all(from: u64, count: u64) -> bool {
    let reasons = reasons(from..from + count);
    let searches = searches(from..from + count);
    let lengths = lengths(from..from + count);
    let ticks = ticks(from..from + count);
    let all = [reasons, searches, lengths, ticks].concat();
    for (variant, line) in &all {
        let line = line.as_deref().unwrap_or("NOT NOTICED");
        println!("{}: {line}", variant.name());
    }
    let survivors = all.iter().filter(|(_, line)| line.is_none()).count();
    println!("misread: {} variants, {survivors} not noticed", all.len());
    survivors == 0
}

/// A variant and how soon it was noticed, if it was.
type Line = (Variant, Option<String>);

/// The variants of reasons.
fn reasons(numbers: Range<u64>) -> Vec<Line> {
    let mut answers = |scene: &Scene, questions: &[Question]| {
        let call = Call::of(scene);
        let answer = |question: &Question| proved(&call, question);
        questions.iter().map(answer).collect()
    };
    let table = notice(numbers, &mut answers).into_iter();
    table
        .map(|row| (row.variant, (!row.survives()).then(|| row.line())))
        .collect()
}

/// What the proved call answers.
fn proved(call: &Call, question: &Question) -> Walked {
    match question {
        Question::Walk(list) => call.walk_back(list),
        Question::Edge(from, to) => Walked::told(call.ask(|asked| raw::edge(asked, *from, *to))),
    }
}

/// How many agreed before one parted, by each of two means, in words.
fn line(variant: Variant, what: &str, after: [Option<u64>; 2], names: [&str; 2]) -> Line {
    let told = |(after, name): (Option<u64>, &str)| Some(format!("{} by {name}", after?));
    let parts: Vec<String> = after.into_iter().zip(names).filter_map(told).collect();
    let line = format!("{what} {}", parts.join(", "));
    (variant, (!parts.is_empty()).then_some(line))
}

/// The variants of lengths.
fn lengths(numbers: Range<u64>) -> Vec<Line> {
    let names = ["lists that no search gave", "found lists"];
    let rows = noticed(numbers).into_iter();
    rows.map(|(variant, after)| line(variant, "lengths", after, names))
        .collect()
}

/// The variants of begin and continue.
fn ticks(numbers: Range<u64>) -> Vec<Line> {
    let mut strips = Chance::new(0);
    let mut answers = |scene: &Scene, asked: Tick, lent| {
        let call = Call::of(scene);
        Ok(call.ask(|handed| answer(handed, asked, &lent, &mut strips)))
    };
    let rows = ticked::noticed(numbers, &mut answers).unwrap_or_else(|parts| {
        println!("{parts}");
        TICKED.iter().map(|&variant| (variant, None)).collect()
    });
    let line = |after: u64| format!("calls {after}");
    let rows = rows.into_iter();
    rows.map(|(variant, after)| (variant, after.map(line)))
        .collect()
}

/// A variant of doors: how many searches agreed before one parted, in the list and
/// in the node room, or in its number where a room is too short.
struct Row {
    variant: Variant,
    after: [Option<u64>; 2],
}

impl Row {
    fn line(&self) -> Line {
        let names = match ROOMED.contains(&self.variant) {
            true => ["a room too short", ""],
            false => ["the list", "the nodes"],
        };
        line(self.variant, "searches", self.after, names)
    }

    /// Whether a search may still show it: a room only by the number.
    fn waits(&self) -> bool {
        let parts = if ROOMED.contains(&self.variant) { 1 } else { 2 };
        self.after[..parts].contains(&None)
    }

    /// Notes where this search parts first.
    fn look(&mut self, searches: u64, parted: [bool; 2]) {
        for (after, parted) in self.after.iter_mut().zip(parted) {
            if after.is_none() && parted {
                *after = Some(searches);
            }
        }
    }
}

/// The variants of doors, each against the proved search.
fn searches(numbers: Range<u64>) -> Vec<Line> {
    let doors = VARIANTS.iter().filter(|variant| variant.is_of_doors());
    let mut rows: Vec<Row> = doors
        .chain(ROOMED)
        .map(|&variant| Row {
            variant,
            after: [None; 2],
        })
        .collect();
    let scenes = numbers.filter_map(numbered);
    for (searches, scene) in (0..).zip(scenes) {
        let call = Call::of(&scene);
        let budget = scene.request.node_budget.min(4096);
        let (_, said) = call.search(needed(budget));
        for row in rows.iter_mut().filter(|row| row.waits()) {
            let parted = match ROOMED.contains(&row.variant) {
                true => [short_parts(&call, &scene, row.variant), false],
                false => parts(&said, &search(&scene, row.variant)),
            };
            row.look(searches, parted);
        }
    }
    rows.iter().map(Row::line).collect()
}

/// Whether the list and the nodes are others than a variant's.
fn parts([list, nodes]: &[Vec<u8>; 2], verdict: &Verdict) -> [bool; 2] {
    let (must_list, must_nodes): (Vec<u8>, Vec<u8>) = match verdict {
        Ok(answer) => (
            answer.list.iter().flat_map(|point| point.bytes()).collect(),
            answer.nodes.iter().flat_map(|node| node.bytes()).collect(),
        ),
        Err(_) => (Vec::new(), Vec::new()),
    };
    [*list != must_list, *nodes != must_nodes]
}

/// Whether the number is another than a variant's, with some room a byte short.
fn short_parts(call: &Call, scene: &Scene, edit: Variant) -> bool {
    let budget = scene.request.node_budget.min(4096);
    Rooms::short(budget).into_iter().any(|(_, rooms)| {
        let (number, _) = call.search(sizes(&rooms));
        let must = match search_in(scene, &rooms, edit) {
            Ok(answer) => answer.outcome as u64,
            Err(refusal) => refusal.number.into(),
        };
        number != must
    })
}

/// The rooms in the order in which they are lent.
fn sizes(rooms: &Rooms) -> Sizes {
    let mut out = [0; 4];
    out[NODES] = rooms.nodes as usize;
    out[FRONT] = rooms.frontier as usize;
    out[INDEX] = rooms.index as usize;
    out[OUT] = rooms.output as usize;
    out
}
