//! `find_path` under every policy against the original's: the permission bytes
//! of all flag bytes, and searches on scenes with any flags.

use mutants::chance::Chance;
use mutants::draft::scene_of;
use original::Policy;
use scene::{Body, Request, Scene, Tables};
use walkprint::raw::{self, Asked};

use crate::call::Call;
use crate::counts::Counts;
use crate::differ::compare;
use crate::expected::{Expected, Judged, expected, judge};
use crate::room::Room;
use crate::runner::{Makers, Mismatch, smallest};
use crate::sizes::{INDEX, Sizes, needed};
use crate::strewn::strewn;

/// Combinations of the seven flags of a policy and of being in water.
const COMBINATIONS: u64 = 256;

/// Scene n under combination n / 23 mod 256, so that 5,888 scenes in a row have
/// every kind under every combination.
pub fn one_scene(makers: &Makers, number: u64, counts: &mut Counts) -> Result<(), Mismatch> {
    let Some((records, scene)) = makers.scene(number, counts) else {
        return Ok(());
    };
    match parts(&scene, number, counts) {
        None => Ok(()),
        Some(_) => Err(smallest(records, &|records| {
            parts(&scene_of(records)?, number, &mut Counts::default())
        })),
    }
}

fn parts(scene: &Scene, number: u64, counts: &mut Counts) -> Option<String> {
    let mut chance = Chance::new(number);
    let own = scene.tables.permissions.len();
    // Half of the scenes have more states, all doors of some sort.
    let scene = match chance.once_in(2) {
        true => strewn(scene.clone(), number),
        false => scene.clone(),
    };
    let states = scene.tables.permissions.len();
    let mut flags: Vec<u8> = (0..own).map(|_| any_flags(&mut chance)).collect();
    flags.extend((own..states).map(|_| chance.pick(&[8, 8, 24, 40, 56])));
    if let Some(air) = flags.first_mut().filter(|_| !chance.once_in(8)) {
        *air = 0;
    }
    let wrong = chance.once_in(16);
    if wrong {
        let length = [flags.len() + 1, flags.len().saturating_sub(1), 0];
        flags.resize(chance.pick(&length), 0);
    }
    let jump = chance.pick(&[1.252203352512, 0.0, 1.0, 2.5, f64::NAN, -1.0]);
    let combination = number / Makers::KINDS % COMBINATIONS;
    let call = original::Call {
        tables: &scene.tables,
        flags: &flags,
        body: scene.body,
        policy: Policy::numbered(combination as u32 % 128, jump),
        in_water: combination >= 128,
        start: scene.request.start,
        goal: scene.request.goal,
    };
    one_call(combination, &call, number, counts).err()
}

/// A door, water, anything.
fn any_flags(chance: &mut Chance) -> u8 {
    let usual = chance.pick(&[0, 0, 0, 0, 1, 2, 4, 8, 24, 40, 56, 9, 10]);
    match chance.below(4) {
        0 => chance.below(256) as u8,
        _ => usual,
    }
}

/// The permission bytes of all flag bytes under every combination; prints the
/// first that parts.
pub fn all_flags() -> bool {
    let flags: Vec<u8> = (0..=255).collect();
    let tables = Tables {
        permissions: vec![0; 256],
        ..Tables::default()
    };
    let body = Body {
        width: 1.0,
        height: 1.0,
        step_height: 0.5,
    };
    let parted = (0..COMBINATIONS).find_map(|combination| {
        let call = original::Call {
            tables: &tables,
            flags: &flags,
            body,
            policy: Policy::numbered(combination as u32 % 128, 1.25),
            in_water: combination >= 128,
            start: [0.5; 3],
            goal: [0.5; 3],
        };
        let parts = one_call(combination, &call, combination, &mut Counts::default()).err()?;
        Some(format!("policy {combination}: {parts}"))
    });
    match &parted {
        None => {
            println!("policy: 256 flag bytes under each of {COMBINATIONS} policies, 0 mismatches")
        }
        Some(parts) => println!("{parts}"),
    }
    parted.is_none()
}

/// "It judges 8, fills the permission table, which stays filled, then searches
/// in the order above." The combination is the policy's number.
fn one_call(
    combination: u64,
    call: &original::Call,
    seed: u64,
    counts: &mut Counts,
) -> Result<(), String> {
    let mut chance = Chance::new(seed);
    let sizes = any_sizes(&mut chance);
    let mut permissions = Room::new(call.tables.permissions.len(), &mut chance);
    let (must, filled) = must(call, sizes)?;
    let after = permissions.after(&filled);
    compare(&must, sizes, None, seed, |lent| {
        asked(call, Vec::new()).ask(|asked| {
            let ends = Asked {
                request: &asked.request[..48],
                ..*asked
            };
            let (jump, room) = (call.policy.jump_height, permissions.lent());
            raw::find_path(combination, jump, call.flags, &ends, room, lent)
        })
    })?;
    if let Some(parts) = permissions.parts(&after) {
        return Err(format!("permissions: {parts}"));
    }
    counts.search(&must);
    Ok(())
}

/// Rooms that are long enough, an index of the least size, twice or four times
/// that; and now and then each of them a byte short, or an index of a wrong
/// size.
fn any_sizes(chance: &mut Chance) -> Sizes {
    let needed = needed(2048);
    let mut sizes = needed.map(|size| match chance.below(24) {
        0 => size - 1,
        _ => size + chance.below(100),
    });
    let least = needed[INDEX];
    sizes[INDEX] = match chance.below(24) {
        0 => chance.pick(&[
            0,
            4,
            least / 2,
            least - 4,
            least - 1,
            least + 1,
            least + 4,
            least / 2 * 3,
            least * 3,
        ]),
        _ => least << chance.below(3),
    };
    sizes
}

/// What must come of it, and the permission bytes that must be written.
fn must(call: &original::Call, sizes: Sizes) -> Result<(Expected, Vec<u8>), String> {
    if call.flags.len() != call.tables.permissions.len() {
        return Ok((expected(&Judged::Ends(8), 0, sizes), Vec::new()));
    }
    let filled = original::permission_bytes(&call.policy, call.in_water, call.flags);
    let asked = asked(call, filled.clone());
    let judged = judge(&asked);
    let number = match &judged {
        // The original has no limits and would not end.
        Judged::Ends(4) => return Ok((expected(&judged, 0, sizes), filled)),
        Judged::Ends(number) => *number,
        Judged::Answered(answer) => answer.outcome as u64,
    };
    let theirs = original::find_path(call);
    let mut same = theirs.request.bytes() == asked.request.bytes();
    same &= theirs.permissions == filled && theirs.found == (number == 0);
    if let Judged::Answered(answer) = &judged {
        same &= answer.same_bits(&theirs.answer);
    }
    match same {
        true => Ok((expected(&judged, asked.request.node_budget, sizes), filled)),
        false => Err("01's request and the original's find_path part".to_string()),
    }
}

/// "`find_path` asks range 16, budget 2,048, drop 3, the body's step, and the
/// policy's jump height or 0 if it can't jump."
fn asked(call: &original::Call, permissions: Vec<u8>) -> Call {
    let mut tables = call.tables.raw();
    tables.permissions = permissions;
    let jumps = call.policy.can_jump;
    Call {
        tables,
        request: Request {
            start: call.start,
            goal: call.goal,
            max_range: 16.0,
            node_budget: 2048,
            step_height: call.body.step_height,
            jump_height: if jumps { call.policy.jump_height } else { 0.0 },
            max_drop: 3.0,
        },
        body: call.body,
    }
}
