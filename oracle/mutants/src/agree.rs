//! The unedited reading against the original: searches on random scenes, and
//! the policy.

use original::Apex;
use reading::{
    Area, E, Graph, Passage, Variant, is_route, jump_apex, passage, permission, search,
    valid_request,
};
use scene::{Answer, Outcome, Record, Scene, Waypoint, to_text, write_bytes};

use crate::chance::Chance;
use crate::compare::{parting, same};
use crate::draft::scene_of;
use crate::recipes::Recipe;
use crate::shrink::shrink;

/// How the scenes ended.
#[derive(Default)]
struct Ends {
    found: u64,
    unreachable: u64,
    exceeded: u64,
    refused: u64,
    bad: u64,
    nodes: usize,
}

/// Compares `count` scenes from `seed` on: outcome or refusal, list, counts and
/// node records, bit for bit; a found list must also be a route; and the graph's
/// questions at a few points. Prints the first scene that parts.
pub fn agree(name: &str, make: &Recipe, seed: u64, count: u64) -> bool {
    let mut ends = Ends::default();
    for number in seed..seed + count {
        let records = make(number);
        let Some(scene) = scene_of(&records) else {
            ends.bad += 1;
            continue;
        };
        let ours = search(&scene, Variant::ReadAsWritten);
        if !same(&ours, &original::judge(&scene)) {
            println!("{name} {number}: the reading and the original part");
            show(records);
            return false;
        }
        match ours {
            Ok(answer) => {
                ends.nodes += answer.nodes.len();
                match answer.outcome {
                    Outcome::Found => ends.found += 1,
                    Outcome::Unreachable => ends.unreachable += 1,
                    Outcome::BudgetExceeded => ends.exceeded += 1,
                }
                let found = answer.outcome == Outcome::Found;
                let mut chance = Chance::new(number);
                let parted = if found != is_route(&scene, &answer.list) {
                    Some("the list is no route, or a route without a find".to_string())
                } else {
                    questions(&scene, &answer, &mut chance)
                };
                if let Some(parted) = parted {
                    println!("{name} {number}: {parted}");
                    print!("{}", to_text(&write_bytes(&records)));
                    return false;
                }
            }
            Err(_) => ends.refused += 1,
        }
    }
    let Ends {
        found,
        unreachable,
        exceeded,
        refused,
        bad,
        nodes,
    } = ends;
    println!(
        "{name}: {count} scenes from seed {seed} agree: {found} found, {unreachable} unreachable, \
         {exceeded} exceeded, {refused} refused, {bad} bad; {nodes} nodes"
    );
    true
}

/// Asks both about points at and off the scene's; the first question on which
/// they part.
fn questions(scene: &Scene, answer: &Answer, chance: &mut Chance) -> Option<String> {
    if !valid_request(scene, Variant::ReadAsWritten) {
        return None;
    }
    let graph = Graph {
        scene,
        edit: Variant::ReadAsWritten,
    };
    let mut original = original::Checks::new(scene);
    let mut points = vec![scene.request.start, scene.request.goal];
    points.extend(answer.nodes.iter().take(4).map(|node| node.point.feet));
    let near = chance.pick(&points).map(|n| {
        let moved = n + chance.pick(&[0.0, 0.0, 0.5, -0.5, 0.3, -0.3, 1.0, E, -E]);
        chance.pick(&[moved, moved.next_up(), moved.next_down(), moved])
    });
    // A segment across the world would have too many cells.
    let close = |point: &[f64; 3]| (0..3).all(|axis| (point[axis] - near[axis]).abs() <= 8.0);
    points.retain(close);
    points.push(near);
    let far = chance.pick(&points);
    let [ax, ay, az] = near;
    let area = Area {
        min: near,
        max: [ax + 0.5, ay + chance.pick(&[1.0, 0.25, 0.0]), az + 0.5],
    };
    let [bx, by, bz] = area.max;
    let bits = |points: &[Waypoint]| points.iter().map(Waypoint::bytes).collect::<Vec<_>>();
    let edge = |edge: Option<Waypoint>| edge.map(|point| point.bytes());
    let agree = [
        graph.in_range(near) == original.in_range(near),
        graph.clear(area) == original.clear_area([ax, ay, az, bx, by, bz]),
        graph.standable(near) == original.standable(near),
        graph.supported(near, far) == original.supported_segment(near, far),
        graph.supported(far, near) == original.supported_segment(far, near),
        edge(graph.edge(near, far)) == edge(original.edge(near, far)),
        edge(graph.edge(far, near)) == edge(original.edge(far, near)),
        bits(&graph.steps(near, &|_| false)) == bits(&original.steps(near)),
        edge(graph.connector(near)) == edge(original.connector(near)),
    ];
    let parted = agree.iter().position(|agree| !agree)?;
    Some(format!("question {parted} at {near:?} and {far:?}"))
}

/// Compares passages and permission bytes for every policy and flag byte, and
/// jumps for random powers and gravities.
pub fn agree_policy(seed: u64, jumps: u64) -> bool {
    let flags: Vec<u8> = (0..=255).collect();
    for number in 0..256 {
        let theirs = original::Policy::numbered(number % 128, 1.25);
        let ours = reading::Policy {
            avoid_water: theirs.avoid_water,
            avoid_damage_blocks: theirs.avoid_damage_blocks,
            can_jump: theirs.can_jump,
            jump_height: theirs.jump_height,
            can_pass_doors: theirs.can_pass_doors,
            can_open_doors: theirs.can_open_doors,
            can_open_iron_doors: theirs.can_open_iron_doors,
            door_breaker: theirs.door_breaker,
        };
        let in_water = number >= 128;
        let bytes = original::permission_bytes(&theirs, in_water, &flags);
        for (&flags, byte) in flags.iter().zip(bytes) {
            let number = match passage(&ours, flags) {
                Passage::Shape => 0,
                Passage::Through => 1,
                Passage::Wall => 2,
            };
            if number != original::door_passage(&theirs, flags)
                || permission(&ours, in_water, flags) != byte
            {
                println!("policy {theirs:?}, flags {flags}: the reading and the original part");
                return false;
            }
        }
    }
    let mut chance = Chance::new(seed);
    for _ in 0..jumps {
        let power = chance.pick(&[0.1, 1.0, 40.0, 1e9]) * (2.0 * chance.part() - 0.2);
        let gravity = chance.pick(&[1e-3, 0.08, 1.0, 1e3]) * (chance.part() - 0.1);
        let theirs = original::jump_apex(power as f32, gravity);
        let agrees = match (jump_apex(power as f32, gravity), theirs) {
            (Ok(ours), Apex::Height(theirs)) => ours.to_bits() == theirs.to_bits(),
            (Err(refusal), Apex::Endless) => refusal.number == 6,
            _ => false,
        };
        if !agrees {
            println!("power {power}, gravity {gravity}: the reading and the original part");
            return false;
        }
    }
    println!(
        "policy: 256 policies with 256 flag bytes each and {jumps} jumps from seed {seed} agree"
    );
    true
}

/// Prints a small scene on which the reading and the original part.
fn show(records: Vec<Record>) {
    let both = |records: &[Record]| {
        let scene = scene_of(records)?;
        Some((
            search(&scene, Variant::ReadAsWritten),
            original::judge(&scene),
        ))
    };
    let small = shrink(records, &|records| {
        both(records).is_some_and(|(ours, theirs)| !same(&ours, &theirs))
    });
    if let Some((ours, theirs)) = both(&small) {
        let [left, right] = parting(&ours, &theirs, Variant::ReadAsWritten);
        println!("the reading: {left}\nthe original: {right}");
    }
    print!("{}", to_text(&write_bytes(&small)));
}
