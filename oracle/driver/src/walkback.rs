//! The proved walk-back against the oracle's, number and place: on found lists,
//! on each of them damaged, on other routes and on random lists.

use mutants::chance::Chance;
use mutants::draft::scene_of;
use mutants::lists::{List, Source};
use mutants::questions::{Questions, questions};
use original::Walks;
use reading::Variant::ReadAsWritten;
use scene::{Scene, WAYPOINT, Walked, YES};
use walkprint::raw::{self, Asked};

use crate::call::Call;
use crate::counts::Counts;
use crate::edits::EDITS;
use crate::expected::judge;
use crate::room::Room;
use crate::runner::{Makers, Mismatch, smallest};
use crate::scenes::answered;
use crate::tables::edited;

/// Bytes of a place.
const PLACE: usize = 8;

pub fn one_scene(makers: &Makers, number: u64, counts: &mut Counts) -> Result<(), Mismatch> {
    let Some((records, scene)) = makers.scene(number, counts) else {
        return Ok(());
    };
    counts.add("scenes", 1);
    let parts = |scene: &Scene, counts: &mut Counts| {
        scene_parts(scene, number, counts).or_else(|| edited_parts(scene, number, counts))
    };
    match parts(&scene, counts) {
        None => Ok(()),
        Some(_) => Err(smallest(records, &|records| {
            parts(&scene_of(records)?, &mut Counts::default())
        })),
    }
}

/// What the oracle says of lists: the original and the reading, which must
/// agree. Without a scene the tables are bad ones.
struct Judge<'a>(Option<(&'a Scene, Walks<'a>)>);

impl<'a> Judge<'a> {
    fn new(scene: Option<&'a Scene>) -> Self {
        Self(scene.map(|scene| (scene, Walks::new(scene))))
    }

    fn must(&mut self, list: &[u8]) -> Result<Walked, String> {
        let Some((scene, walks)) = &mut self.0 else {
            return Ok(Walked::told(3));
        };
        let must = walks.walk_back(list);
        match reading::walk_back(scene, list, ReadAsWritten) {
            read if read == must => Ok(must),
            read => Err(format!("{must:?} by the original, {read:?} by the reading")),
        }
    }
}

/// What the oracle says of a list on a call.
pub fn must(call: &Call, list: &[u8]) -> Result<Walked, String> {
    let scene = call.whole();
    Judge::new(scene.as_ref()).must(list)
}

/// Asks the proved walk-back about a list, and lends it a place of 8 bytes, of
/// more or of fewer. Says what is not as it must be: the number, or any byte of
/// the place or around it.
pub fn differ(
    asked: &Asked,
    list: &[u8],
    must: Walked,
    chance: &mut Chance,
    counts: &mut Counts,
) -> Result<(), String> {
    let length = match chance.below(8) {
        0 => 0,
        1 => PLACE - 1,
        2 => chance.below(PLACE),
        3 | 4 => PLACE + 1 + chance.below(24),
        _ => PLACE,
    };
    let mut room = Room::new(length, chance);
    let written = must.place.filter(|_| length >= PLACE);
    let after = room.after(&written.map_or(Vec::new(), |place| place.to_le_bytes().to_vec()));
    let said = raw::walk_back(asked, list, room.lent());
    if said != must.number {
        return Err(format!("answered {said}, must be {must:?}"));
    }
    if let Some(parts) = room.parts(&after) {
        return Err(format!("place: {parts}, where it must be {must:?}"));
    }
    counts.add("lists", 1);
    counts.told(said);
    counts.add("places written", written.is_some().into());
    let short = must.place.is_some() && length < PLACE;
    counts.add("places too short to be written", short.into());
    Ok(())
}

/// A list's records, a word each.
pub fn hex(list: &[u8]) -> String {
    let digits = |record: &[u8]| record.iter().map(|byte| format!("{byte:02x}")).collect();
    list.chunks(WAYPOINT)
        .map(digits)
        .collect::<Vec<String>>()
        .join(" ")
}

/// Asks both about a list.
fn ask(
    call: &Call,
    judge: &mut Judge,
    list: &[u8],
    chance: &mut Chance,
    counts: &mut Counts,
) -> Result<u64, String> {
    let told = |parts: String| format!("{parts}: {}", hex(list));
    let must = judge.must(list).map_err(told)?;
    call.ask(|asked| differ(asked, list, must, chance, counts))
        .map_err(told)?;
    Ok(must.number)
}

/// The first list on which the two part, of the scene and of the same spoilt.
fn scene_parts(scene: &Scene, seed: u64, counts: &mut Counts) -> Option<String> {
    let mut chance = Chance::new(!seed);
    questions(scene, seed)
        .iter()
        .find_map(|asked| lists_part(asked, &mut chance, counts))
}

fn lists_part(asked: &Questions, chance: &mut Chance, counts: &mut Counts) -> Option<String> {
    let call = Call::of(&asked.scene);
    let whole = call.whole();
    let mut judge = Judge::new(whole.as_ref());
    for list in &asked.lists {
        let said = match list.source {
            Source::Found => budgets(&call, list, chance, counts),
            _ => ask(&call, &mut judge, &list.bytes, chance, counts),
        };
        match said {
            Ok(number) => counts.add(kind(list.source, number == YES), 1),
            Err(parts) => return Some(format!("{:?}: {parts}", list.source)),
        }
    }
    None
}

/// A found list is a route, with whatever budget.
fn budgets(
    call: &Call,
    list: &List,
    chance: &mut Chance,
    counts: &mut Counts,
) -> Result<u64, String> {
    for budget in [call.request.node_budget, 0, 4097, u64::MAX] {
        let mut other = call.clone();
        other.request.node_budget = budget;
        let whole = other.whole();
        let judge = &mut Judge::new(whole.as_ref());
        if ask(&other, judge, &list.bytes, chance, counts)? != YES {
            return Err(format!("a found list is no route: {}", hex(&list.bytes)));
        }
    }
    Ok(YES)
}

/// What is counted of a list that was as it must be.
fn kind(source: Source, yes: bool) -> &'static str {
    match (source, yes) {
        (Source::Found, _) => "found lists",
        (Source::Damaged, true) => "damages that keep a route",
        (Source::Damaged, false) => "damages refused",
        (Source::Beyond, true) => "ways beyond the goal that are routes",
        (Source::Beyond, false) => "ways beyond the goal that are none",
        (Source::Off, true) => "ways with another step that are routes",
        (Source::Off, false) => "ways with another step that are none",
        (Source::Refused, _) => "ways with a step that has a reason",
        (Source::Spoilt, true) => "ways on a spoilt scene that are routes",
        (Source::Spoilt, false) => "ways on a spoilt scene that are none",
        (Source::Walk, true) => "walks that are routes",
        (Source::Walk, false) => "walks that are none",
        (Source::Ends | Source::Retained | Source::Bytes, true) => "other lists that are routes",
        (Source::Ends | Source::Retained | Source::Bytes, false) => "other lists that are none",
    }
}

/// The same tables after an edit that no scene could hold, with the list that
/// the search gives there, or with none.
fn edited_parts(scene: &Scene, number: u64, counts: &mut Counts) -> Option<String> {
    let edit = &EDITS[Chance::new(number).below(EDITS.len())];
    let call = edited(scene, &[edit], number);
    let judged = judge(&call);
    let list: Vec<u8> = match answered(&judged) {
        Some(answer) => answer.list.iter().flat_map(|point| point.bytes()).collect(),
        None => Vec::new(),
    };
    let whole = call.whole();
    let judge = &mut Judge::new(whole.as_ref());
    ask(&call, judge, &list, &mut Chance::new(number), counts)
        .map_err(|parts| format!("{}: {parts}", edit.name))
        .err()
}
