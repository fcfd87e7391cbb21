//! Lists for a walk-back: found ones, and each of them damaged.

use scene::{Answer, NO_DOOR, Outcome, Scene, WAYPOINT, Waypoint, u64_at};

use crate::tape::Tape;

const KINDS: [&str; 6] = ["levels", "slabs", "stairs", "doors", "far", "zeros"];
/// The most bytes of a scene, and the seeds looked through for each kind.
const SCENE: usize = 32 * scene::RECORD;
const SEEDS: u64 = 1000;

/// Scenes with lists to walk back.
pub fn ask(tape: &mut Tape) {
    for kind in KINDS {
        let Some((seed, bytes, answer)) = found(kind) else {
            continue;
        };
        let scene = scene::read(&bytes).expect("it was searched");
        tape.named(&format!("make {seed} {kind} walkback"), |tape| {
            tape.ask_lists(&bytes, &scene, &lists(&scene, &answer));
        });
    }
}

/// The first small scene of a kind with a list of four points; that of doors has
/// one on its list.
fn found(kind: &str) -> Option<(u64, Vec<u8>, Answer)> {
    (1..=SEEDS).find_map(|seed| {
        let bytes = scene::make(seed, kind)?;
        let answer = original::verdict(&bytes).ok()?;
        let short = answer.list.len() == 4 && bytes.len() <= SCENE;
        let doored = kind != "doors" || answer.list.iter().any(|point| point.door != NO_DOOR);
        let fits = answer.outcome == Outcome::Found && short && doored;
        fits.then_some((seed, bytes, answer))
    })
}

/// The found list; then lists that differ from it in one thing.
pub fn lists(scene: &Scene, answer: &Answer) -> Vec<Vec<u8>> {
    let list: Vec<u8> = answer.list.iter().flat_map(|p| p.bytes()).collect();
    // Empty, a byte too short, a word too long.
    let less = list[..list.len() - 1].to_vec();
    let more = [&list[..], &[0; 8]].concat();
    let mut out = vec![list.clone(), Vec::new(), less, more];
    for begin in (0..list.len()).step_by(WAYPOINT) {
        let end = begin + WAYPOINT;
        // Without this record, and with it twice.
        out.push([&list[..begin], &list[end..]].concat());
        out.push([&list[..end], &list[begin..]].concat());
        for at in (begin..end).step_by(8) {
            let word = u64_at(&list, at);
            for changed in changes(word, at - begin) {
                let mut copy = list.clone();
                copy[at..at + 8].copy_from_slice(&changed.to_le_bytes());
                out.push(copy);
            }
        }
    }
    // The start and the goal alone.
    let ends = [scene.request.start, scene.request.goal].map(Waypoint::walked);
    out.push(ends.iter().flat_map(|point| point.bytes()).collect());
    out
}

/// Other words for the one at this place of a record: a movement, a door, or a
/// float's neighbours and a zero's other sign.
fn changes(word: u64, place: usize) -> Vec<u64> {
    match place {
        32 => return vec![(word + 1) % 4, word + 4, word + (1 << 32)],
        40 => return doors(word),
        _ => {}
    }
    let number = f64::from_bits(word);
    let other = if number == 0.0 { -number } else { number + 1.0 };
    vec![
        number.next_up().to_bits(),
        other.to_bits(),
        f64::NAN.to_bits(),
    ]
}

/// None for a door and a door for none, another state, and another high half.
fn doors(door: u64) -> Vec<u64> {
    let none = if door == NO_DOOR { 2 } else { NO_DOOR };
    vec![none, door ^ 1, door + (1 << 32), 0]
}
