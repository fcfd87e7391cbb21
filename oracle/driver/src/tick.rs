//! One call of begin or of continue (02, No. 10), through the C interface, against
//! what must come of it: its number, and every byte of every lent room and around
//! it.

use mutants::chance::Chance;
use mutants::states::read;
use reading::{Lent, Tick};
use scene::Scene;
use walkprint::raw::{self, Asked};

use crate::call::Call;
use crate::counts::Counts;
use crate::room::{Room, pattern};

/// What a call answers, and what was lent to it as it is then.
pub type Answer = (u64, Lent);

/// What must come of a call: 3 where its tables cannot even be read, else what the
/// reading says.
pub fn must(call: &Call, asked: Tick, lent: &Lent) -> Answer {
    match call.whole() {
        None => (3, lent.clone()),
        Some(scene) => read(&scene, asked, lent.clone()),
    }
}

/// A proved call on a scene, `call` as it is handed over, against the reading.
pub fn compared(
    call: &Call,
    scene: &Scene,
    asked: Tick,
    lent: Lent,
    chance: &mut Chance,
    counts: &mut Counts,
) -> Result<Answer, String> {
    let must = read(scene, asked, lent.clone());
    call.ask(|handed| differ(handed, asked, &lent, must, chance, counts))
}

/// Rooms of these bytes, each filled with a pattern.
pub fn patterned([nodes, front, out, progress]: [usize; 4], chance: &mut Chance) -> Lent {
    Lent {
        nodes: pattern(nodes, chance),
        front: pattern(front, chance),
        out: pattern(out, chance),
        progress: pattern(progress, chance),
    }
}

/// Lends these bytes to the proved call. What must come of it if that comes, else
/// what parts.
pub fn differ(
    handed: &Asked,
    asked: Tick,
    lent: &Lent,
    must: Answer,
    chance: &mut Chance,
    counts: &mut Counts,
) -> Result<Answer, String> {
    let mut rooms = all(lent).map(|bytes| Room::holding(bytes, chance));
    let after: Vec<Vec<u8>> = all(&must.1).iter().zip(&rooms).map(after).collect();
    let number = proved(handed, asked, &mut rooms);
    if number != must.0 {
        return Err(format!("{asked:?} answered {number}, must be {}", must.0));
    }
    let names = ["nodes", "frontier", "output", "progress"];
    for place in 0..4 {
        if let Some(parts) = rooms[place].parts(&after[place]) {
            return Err(format!("{asked:?}, {number}, {}: {parts}", names[place]));
        }
    }
    counts.tick(asked, number);
    Ok(must)
}

/// What the proved call answers, whatever must come.
pub fn answer(handed: &Asked, asked: Tick, lent: &Lent, chance: &mut Chance) -> Answer {
    let mut rooms = all(lent).map(|bytes| Room::holding(bytes, chance));
    let number = proved(handed, asked, &mut rooms);
    let [nodes, front, out, progress] = rooms.each_ref().map(|room| room.bytes().to_vec());
    let lent = Lent {
        nodes,
        front,
        out,
        progress,
    };
    (number, lent)
}

fn all(lent: &Lent) -> [&[u8]; 4] {
    [&lent.nodes, &lent.front, &lent.out, &lent.progress]
}

fn after((held, room): (&&[u8], &Room)) -> Vec<u8> {
    room.after(held)
}

fn proved(handed: &Asked, asked: Tick, rooms: &mut [Room; 4]) -> u64 {
    let [nodes, front, out, progress] = rooms.each_mut().map(Room::lent);
    match asked {
        Tick::Begin => raw::begin_search(handed, nodes, front, out, progress),
        Tick::Continue(counts, expansions) => {
            let counts = [
                counts.retained,
                counts.closed,
                counts.pushed,
                counts.dropped,
            ];
            raw::continue_search(counts, expansions, handed, nodes, front, out, progress)
        }
    }
}
