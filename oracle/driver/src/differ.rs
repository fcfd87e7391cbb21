//! One call of the proved search against what must come of it: the answer, and
//! every byte of every lent room and around it.

use mutants::chance::Chance;
use reading::Variant::ReadAsWritten;
use reading::same_number;
use scene::WAYPOINT;
use walkprint::raw::{self, Lent};

use crate::call::Call;
use crate::expected::{Expected, Judged, expected};
use crate::room::Room;
use crate::sizes::{FRONT, INDEX, NODES, OUT, Sizes};
use crate::used::{USED, Used};

/// Bytes of an answer: outcome, count, retained, closed. It is not written on
/// number 8, nor where it does not fit.
const ANSWER: usize = 32;

/// Calls the search with rooms of these sizes, filled by the seed. What it
/// answered if all is as it must be, else what is not.
pub fn differ(call: &Call, judged: &Judged, sizes: Sizes, seed: u64) -> Result<Expected, String> {
    differ_over(call, judged, sizes, None, seed)
}

/// The same with old bytes of the index room that look like an index.
pub fn differ_over(
    call: &Call,
    judged: &Judged,
    sizes: Sizes,
    used: Option<Used>,
    seed: u64,
) -> Result<Expected, String> {
    let must = expected(judged, call.request.node_budget, sizes);
    compare(&must, sizes, used, seed, |lent| {
        call.ask(|asked| raw::find_walk_path(asked, lent))
    })?;
    Ok(must)
}

/// Makes rooms of these sizes, filled by the seed, lends them to a search, and
/// says what is not as it must be.
pub fn compare(
    must: &Expected,
    sizes: Sizes,
    used: Option<Used>,
    seed: u64,
    search: impl FnOnce(Lent) -> u64,
) -> Result<(), String> {
    let mut chance = Chance::new(seed);
    let mut rooms = filled(must, sizes, used, &mut chance);
    let length = match chance.below(20) {
        0 => chance.below(ANSWER),
        n => ANSWER - 1 + n,
    };
    let mut answer = Room::new(length, &mut chance);
    let after = after(&rooms, must);
    let said = answer.after(&told(must, length));
    let [nodes, front, index, out] = rooms.each_mut().map(Room::lent);
    let number = search(Lent {
        nodes,
        front,
        index,
        out,
        answer: answer.lent(),
    });
    if number != must.number {
        return Err(format!("answered {number}, must be {}", must.number));
    }
    // Before the rooms are looked at: no byte of them may change by this either.
    let lengths = lengths(&rooms[OUT], must.list.len(), &mut chance);
    let answers = answer.parts(&said).map(|parts| format!("answer: {parts}"));
    if let Some(parts) = answers.or_else(|| parted(&rooms, &after)) {
        let numbers = must.answer();
        return Err(format!("{parts}, where the answer must be {numbers:?}"));
    }
    same_length(&must.list, lengths)
}

/// Rooms of these sizes. The index room looks used where that is asked for, and
/// else in half of all calls.
fn filled(must: &Expected, sizes: Sizes, used: Option<Used>, chance: &mut Chance) -> [Room; 4] {
    let mut rooms = sizes.map(|size| Room::new(size, chance));
    let any = chance.pick(&USED);
    let any = chance.once_in(2).then_some(any);
    if let Some(used) = used.or(any) {
        used.fill(rooms[INDEX].lent(), &must.points(), chance);
    }
    rooms
}

/// What the rooms must hold after the call: the nodes and the list at the
/// front, and where the search began a frontier and an index all zero.
fn after(rooms: &[Room; 4], must: &Expected) -> [Vec<u8>; 4] {
    [NODES, FRONT, INDEX, OUT].map(|room| {
        let written = match room {
            NODES => must.nodes.clone(),
            OUT => must.list.clone(),
            _ if must.began => vec![0; rooms[room].length()],
            _ => Vec::new(),
        };
        rooms[room].after(&written)
    })
}

/// The first room whose bytes are not as they must be.
fn parted(rooms: &[Room; 4], after: &[Vec<u8>; 4]) -> Option<String> {
    let names = ["nodes", "frontier", "index", "output"];
    (0..4).find_map(|room| {
        let parts = rooms[room].parts(&after[room])?;
        Some(format!("{}: {parts}", names[room]))
    })
}

/// What is written of an answer into a place of so many bytes.
fn told(must: &Expected, length: usize) -> Vec<u8> {
    match length >= ANSWER && must.number != 8 {
        true => must.answer().map(u64::to_le_bytes).concat(),
        false => Vec::new(),
    }
}

/// The proved length of the list that a search wrote into its output, and of the
/// same with a part of a record behind it.
fn lengths(out: &Room, list: usize, chance: &mut Chance) -> [f64; 2] {
    let behind = chance.below(WAYPOINT).min(out.length() - list);
    [list, list + behind].map(|end| raw::length(&out.bytes()[..end]))
}

/// Both are the reading's, which sums by the processor's root.
fn same_length(list: &[u8], lengths: [f64; 2]) -> Result<(), String> {
    let must = reading::length(list, ReadAsWritten);
    match lengths.iter().all(|&length| same_number(length, must)) {
        true => Ok(()),
        false => Err(format!(
            "length {:e}, with a part of a record behind {:e}, must be {must:e}",
            lengths[0], lengths[1]
        )),
    }
}
