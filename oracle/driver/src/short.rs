//! Records of any length. Where the window's, the request's, the ends' or the
//! body's is shorter than its struct, the request is an invalid one: a search
//! and an edge answer 1, the walk-back 111. 3 comes before that, for which the
//! fields that a window does not have are 0, and 8 of a mob's search before
//! both. What stands behind a record is not read.

use mutants::chance::Chance;
use mutants::draft::scene_of;
use original::Policy;
use scene::{NODE, Record, Scene, WAITING, WAYPOINT, Walked, Window, u32_at};
use walkprint::raw::{self, Asked};

use crate::call::Call;
use crate::counts::Counts;
use crate::differ::compare;
use crate::expected::{Judged, expected, judge, refused};
use crate::room::{Room, any_bytes};
use crate::runner::{Makers, Mismatch, smallest};
use crate::sizes::needed;
use crate::{edges, walkback};

/// Bytes of a window, a request and a body, and of a mob's two ends.
pub const WHOLE: [usize; 3] = [24, 88, 24];
const ENDS: usize = 48;

/// What the walk-back tells of an invalid request.
const INVALID_REQUEST: u64 = 111;

pub fn one_scene(makers: &Makers, number: u64, counts: &mut Counts) -> Result<(), Mismatch> {
    let Some((records, scene)) = makers.scene(number, counts) else {
        return Ok(());
    };
    if parts(&scene, number, counts).is_ok() {
        return Ok(());
    }
    Err(smallest(records, &|records: &[Record]| {
        parts(&scene_of(records)?, number, &mut Counts::default()).err()
    }))
}

/// A call's records as they are handed over, and what is left of the call.
pub struct Handed {
    records: [Vec<u8>; 3],
    /// With the window that 3 is judged by.
    pub call: Call,
    pub short: bool,
}

/// One, or now and then each of the three records ends at any byte, or has a
/// few more.
pub fn handed(scene: &Scene, whole: [usize; 3], chance: &mut Chance) -> Handed {
    let mut call = Call::of(scene);
    let [window, request, body] = [
        call.tables.window.bytes().to_vec(),
        call.request.bytes()[..whole[1]].to_vec(),
        call.body.bytes().to_vec(),
    ];
    let cut = chance.below(4);
    let mut place = 0;
    let records = [window, request, body].map(|record| {
        let at = chance.below(record.len() + 9);
        let chosen = cut == place || cut == 3;
        place += 1;
        let length = if chosen { at } else { record.len() };
        let mut handed = [record, any_bytes(8, chance)].concat();
        handed.truncate(length);
        handed
    });
    call.tables.window = window_of(&records[0]);
    let short = (0..3).any(|k| records[k].len() < whole[k]);
    Handed {
        records,
        call,
        short,
    }
}

/// A window of the fields that fit whole, and zeros.
fn window_of(record: &[u8]) -> Window {
    let kept = record.len() / 4 * 4;
    let bytes: [u8; 24] = std::array::from_fn(|at| if at < kept { record[at] } else { 0 });
    Window {
        origin: [0, 4, 8].map(|at| u32_at(&bytes, at).cast_signed()),
        sizes: [12, 16, 20].map(|at| u32_at(&bytes, at)),
    }
}

impl Handed {
    pub fn asked(&self) -> Asked<'_> {
        let [window, request, body] = &self.records;
        Asked {
            window,
            tables: self.call.tables.all(),
            request,
            body,
        }
    }

    /// What a record that is cut short is answered with: 3, or the call's
    /// number of an invalid request.
    pub fn cut(&self, invalid: u64) -> Option<u64> {
        let number = match scene::bad_world(&self.call.tables) {
            true => 3,
            false => invalid,
        };
        self.short.then_some(number)
    }

    pub fn lengths(&self) -> String {
        format!(
            "records of {:?} bytes",
            self.records.each_ref().map(Vec::len)
        )
    }
}

fn parts(scene: &Scene, seed: u64, counts: &mut Counts) -> Result<(), String> {
    let mut chance = Chance::new(seed);
    let handed = handed(scene, WHOLE, &mut chance);
    let told = |call: &str, parts| format!("{call}, {}: {parts}", handed.lengths());
    search(&handed, seed, &mut chance, counts).map_err(|parts| told("search", parts))?;
    questions(&handed, scene, &mut chance, counts).map_err(|parts| told("question", parts))?;
    mob(scene, seed, &mut chance, counts)
}

/// The search, in rooms that are long enough or have no bytes.
fn search(
    handed: &Handed,
    seed: u64,
    chance: &mut Chance,
    counts: &mut Counts,
) -> Result<(), String> {
    let budget = handed.call.request.node_budget;
    let sizes = match chance.once_in(4) {
        true => [0; 4],
        false => needed(budget),
    };
    let judged = match handed.cut(1) {
        Some(number) => Judged::Ends(number),
        None => judge(&handed.call),
    };
    let must = expected(&judged, budget, sizes);
    compare(&must, sizes, None, seed, |lent| {
        raw::find_walk_path(&handed.asked(), lent)
    })?;
    counts.search(&must);
    counts.add("searches of records cut short", handed.short.into());
    Ok(())
}

/// The walk-back of the list that the whole records find, or of that and a point
/// more, and the edge from the start to the goal.
fn questions(
    handed: &Handed,
    scene: &Scene,
    chance: &mut Chance,
    counts: &mut Counts,
) -> Result<(), String> {
    let whole = Call::of(scene);
    let mut list: Vec<u8> = match judge(&whole) {
        Judged::Answered(answer) => answer.list.iter().flat_map(|p| p.bytes()).collect(),
        Judged::Ends(_) => vec![0; WAYPOINT],
    };
    if chance.once_in(2) {
        list.extend([0; WAYPOINT]);
    }
    let must = match handed.cut(INVALID_REQUEST) {
        Some(number) => Walked::told(number),
        None => walkback::must(&handed.call, &list)?,
    };
    walkback::differ(&handed.asked(), &list, must, chance, counts)?;
    let [start, goal] = [scene.request.start, scene.request.goal];
    let must = match handed.cut(1).or_else(|| refused(&handed.call)) {
        Some(number) => number,
        None => edges::Judge::new(scene).must(start, goal)?,
    };
    counts.add("edges asked", 1);
    counts.told(must);
    match raw::edge(&handed.asked(), start, goal) {
        said if said == must => Ok(()),
        said => Err(format!("edge answered {said}, must be {must}")),
    }
}

/// A mob's search whose records are cut short: "8", the permission table filled,
/// then 3, then 1. (`policy` has those whose records are whole.)
fn mob(scene: &Scene, seed: u64, chance: &mut Chance, counts: &mut Counts) -> Result<(), String> {
    let handed = handed(scene, [24, ENDS, 24], chance);
    let Some(number) = handed.cut(1) else {
        return Ok(());
    };
    let states = scene.tables.permissions.len();
    let flags = any_bytes(states + chance.pick(&[0, 0, 0, 1]), chance);
    let combination = chance.below(256) as u64;
    let policy = Policy::numbered(combination as u32 % 128, 1.25);
    let (number, filled) = match flags.len() == states {
        true => (
            number,
            original::permission_bytes(&policy, combination >= 128, &flags),
        ),
        false => (8, Vec::new()),
    };
    let mut permissions = Room::new(states, chance);
    let after = permissions.after(&filled);
    let sizes = [NODE, WAITING, 4, WAYPOINT].map(|record| record * chance.below(3));
    let must = expected(&Judged::Ends(number), 0, sizes);
    let told = |parts| format!("mob, {}: {parts}", handed.lengths());
    compare(&must, sizes, None, seed, |lent| {
        let room = permissions.lent();
        raw::find_path(combination, 1.25, &flags, &handed.asked(), room, lent)
    })
    .map_err(told)?;
    counts.add("mobs' searches of records cut short", 1);
    match permissions.parts(&after) {
        None => Ok(()),
        Some(parts) => Err(told(format!("permissions: {parts}"))),
    }
}
