//! Checks of the oracle itself: 01's examples, the text form, the stand-ins.

use std::path::Path;

use original::{Apex, Policy};
use reading::Variant::ReadAsWritten;
use reading::print;
use scene::{Answer, Outcome, YES};

use crate::files::{directed, scene_file};
use crate::{geometry, policy, store, trace, walks};

/// Runs every check on the scenes of a folder; prints a line each, and is
/// false if one failed.
pub fn selftest(folder: &Path) -> Result<bool, String> {
    let flat = std::fs::read_to_string(folder.join("flat.txt")).map_err(|e| e.to_string())?;
    let checks: [(&str, bool); 12] = [
        ("the flat scene prints 01's lines", flat_lines(&flat)?),
        ("the flat scene's budgets and goals", flat_variants(&flat)?),
        (
            "each directed scene comes back from its text",
            texts(folder)?,
        ),
        ("each made scene comes back from its text", made_texts()),
        ("the traced search agrees with the original", traced()),
        ("a reused scratch changes no answer", reused()),
        ("found lists are routes, damaged ones mostly not", walks()),
        (
            "the questions of scenes/reasons have the answers that stand there",
            mutants::told::answered(&folder.join("../reasons"))?,
        ),
        ("01's examples of the policy", policy_examples()),
        (
            "jumps that end do so within 65,536 ticks",
            policy::most_ticks() <= 65_536,
        ),
        (
            "the geometry's questions agree with the search",
            questions(),
        ),
        (
            "the stored lists are as `store` makes them",
            stored(folder)?,
        ),
    ];
    for (name, passed) in checks {
        println!("{} {name}", if passed { "ok  " } else { "FAIL" });
    }
    Ok(checks.iter().all(|(_, passed)| *passed))
}

fn answered(text: &str) -> Result<Answer, String> {
    let bytes = scene::from_text(text)?;
    original::verdict(&bytes).map_err(|refusal| format!("refused {}", refusal.number))
}

fn flat_lines(flat: &str) -> Result<bool, String> {
    let lines = "\
found 3 9 2 4000000000000000
0 walk 3fe0000000000000 3ff0000000000000 3fe0000000000000 0000000000000000 4294967295
1 walk 3ff8000000000000 3ff0000000000000 3fe0000000000000 0000000000000000 4294967295
2 walk 4004000000000000 3ff0000000000000 3fe0000000000000 0000000000000000 4294967295
";
    Ok(print(&Ok(answered(flat)?), ReadAsWritten) == lines)
}

/// "Budget 0 and 1 exceed, 2 finds. Goal x 2.0: two points; 2.0625: three."
fn flat_variants(flat: &str) -> Result<bool, String> {
    let budget = |n: u32| answered(&flat.replace("budget 64", &format!("budget {n}")));
    let goal = |x: &str| answered(&flat.replace("goal 2.5", &format!("goal {x}")));
    Ok(budget(0)?.outcome == Outcome::BudgetExceeded
        && budget(1)?.outcome == Outcome::BudgetExceeded
        && budget(2)?.outcome == Outcome::Found
        && goal("2.0")?.list.len() == 2
        && goal("2.0625")?.list.len() == 3)
}

fn comes_back(bytes: &[u8]) -> bool {
    scene::from_text(&scene::to_text(bytes)).is_ok_and(|back| back == bytes)
}

fn texts(folder: &Path) -> Result<bool, String> {
    for name in directed(folder)? {
        if !comes_back(&scene_file(&folder.join(&name).to_string_lossy())?) {
            println!("{name} does not come back");
            return Ok(false);
        }
    }
    Ok(true)
}

/// Made scenes of every kind, some of each.
fn made() -> impl Iterator<Item = Vec<u8>> {
    let seeds = |kind| (1..=200).map(move |seed| scene::make(seed, kind).expect("a kind"));
    scene::KINDS.into_iter().flat_map(seeds)
}

fn made_texts() -> bool {
    made().all(|bytes| comes_back(&bytes))
}

fn traced() -> bool {
    made().all(|bytes| match original::verdict(&bytes) {
        Ok(answer) if !answer.nodes.is_empty() => {
            let scene = scene::read(&bytes).expect("it was searched");
            let (_, nodes) = trace::trace(&scene);
            let same = |(a, b): (&scene::NodeRecord, &scene::NodeRecord)| a.bytes() == b.bytes();
            nodes.len() == answer.nodes.len() && nodes.iter().zip(&answer.nodes).all(same)
        }
        _ => true,
    })
}

fn reused() -> bool {
    let mut scenes = made()
        .filter(|bytes| original::verdict(bytes).is_ok())
        .filter_map(|bytes| scene::read(&bytes).ok())
        .filter(original::valid_request);
    let Some(first) = scenes.next() else {
        return false;
    };
    let mut navigator = original::Navigator::new(&first);
    scenes.all(|scene| {
        navigator.turn_to(&scene);
        navigator
            .answer(&scene)
            .same_bits(&original::find_walk_path(&scene))
    })
}

/// A found list is a route; fewer than a tenth of the damaged ones are.
fn walks() -> bool {
    let (mut lists, mut routes) = (0, 0);
    let all_found = made().all(|bytes| match original::verdict(&bytes) {
        Ok(answer) if answer.outcome == Outcome::Found && answer.list.len() < 6 => {
            let scene = scene::read(&bytes).expect("it was searched");
            let asked = walks::lists(&scene, &answer);
            let yes = |list: &Vec<u8>| original::walk_back(&scene, list).number == YES;
            lists += asked.len();
            routes += asked[1..].iter().filter(|list| yes(list)).count();
            yes(&asked[0])
        }
        _ => true,
    });
    all_found && routes > 0 && 10 * routes < lists
}

fn stored(folder: &Path) -> Result<bool, String> {
    let mut same = true;
    for (file, bytes) in store::lists(folder)? {
        let there = std::fs::read(folder.join(file)).unwrap_or_default();
        if there != bytes {
            println!("{file} is not as it would be made now");
            same = false;
        }
    }
    Ok(same)
}

/// "Breaker who may pass: flags 8 Through (byte 3), 24 without iron Wall
/// (byte 6), 56 Shape"; and an infinite power.
fn policy_examples() -> bool {
    // Bit 3 may pass, bit 6 breaks.
    let breaker = Policy::numbered(1 << 3 | 1 << 6, 0.0);
    let passages = [8, 24, 56].map(|flags| original::door_passage(&breaker, flags));
    let bytes = original::permission_bytes(&breaker, false, &[8, 24, 56]);
    passages == [1, 2, 0]
        && bytes == [3, 6, 7]
        && original::jump_apex(f32::INFINITY, 0.08) == Apex::Endless
        && original::jump_apex(f32::INFINITY, f64::INFINITY) == Apex::Height(f64::INFINITY)
        && original::jump_apex(f32::MAX, 5.0e-324) != Apex::Endless
}

/// The ends of a searched scene are standable, and the start is in range.
fn questions() -> bool {
    made().all(|bytes| match original::verdict(&bytes) {
        Ok(answer) if !answer.nodes.is_empty() => {
            let scene = scene::read(&bytes).expect("it was searched");
            let mut checks = original::Checks::new(&scene);
            checks.standable(scene.request.start)
                && checks.standable(scene.request.goal)
                && checks.in_range(scene.request.goal)
                && answer
                    .nodes
                    .iter()
                    .all(|node| checks.standable(node.point.feet))
                && !geometry::questions(&scene).is_empty()
        }
        _ => true,
    })
}
