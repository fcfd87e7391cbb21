//! Scenes, made and directed, and rooms of every size around their limits.

use std::path::Path;

use mutants::chance::Chance;
use mutants::draft::scene_of;
use reading::Variant::{ReadAsWritten, ReparentKeepsDoor};
use reading::search;
use scene::{NODE, RECORD, Record, Scene, WAITING, WAYPOINT};

use crate::call::Call;
use crate::counts::Counts;
use crate::differ::{differ, differ_over};
use crate::expected::{Judged, judge};
use crate::runner::{Makers, Mismatch, smallest};
use crate::sizes::{FRONT, INDEX, NODES, OUT, Sizes, longer, needed};
use crate::used::{USED, Used};

/// A scene once, with rooms that are just as long as they must be, or longer.
pub fn one_scene(makers: &Makers, number: u64, counts: &mut Counts) -> Result<(), Mismatch> {
    let Some((records, scene)) = makers.scene(number, counts) else {
        return Ok(());
    };
    let call = Call::of(&scene);
    let judged = judge(&call);
    let mut chance = Chance::new(number);
    let [nodes, front, out] = [(); 3].map(|()| more(&mut chance));
    let extra = [nodes, front, chance.pick(&[0, 0, 1, 2, 3]), out];
    let sizes = grown(&call, extra);
    match differ(&call, &judged, sizes, number) {
        Ok(answer) => {
            counts.search(&answer);
            counts.index(&answer, sizes[INDEX]);
            counts.add("nodes re-parented with another door", turned(&scene));
        }
        Err(_) => return Err(smallest(records, &|records| parts(records, extra, number))),
    }
    Ok(())
}

/// How many nodes of a scene's search are re-parented by an edge with another
/// door than their first one: those that a search which kept the first would give
/// another door.
fn turned(scene: &Scene) -> u64 {
    let permissions = &scene.tables.permissions;
    if permissions.iter().all(|byte| byte & 4 != 0) {
        return 0;
    }
    let [last, first] = [ReadAsWritten, ReparentKeepsDoor].map(|edit| {
        let nodes = search(scene, edit).map_or(Vec::new(), |answer| answer.nodes);
        nodes.into_iter().map(|node| node.point.door)
    });
    last.zip(first)
        .filter(|(last, first)| last != first)
        .count() as u64
}

/// How many bytes longer than needed a room is.
pub fn more(chance: &mut Chance) -> usize {
    match chance.below(4) {
        0 => 0,
        1 => 1 + chance.below(8),
        _ => chance.below(300),
    }
}

/// The rooms that a call needs, and so many bytes more, the index so often
/// doubled. A budget that is refused needs none.
fn grown(call: &Call, extra: Sizes) -> Sizes {
    longer(needed(call.request.node_budget.min(4096)), extra)
}

fn parts(records: &[Record], extra: Sizes, seed: u64) -> Option<String> {
    let call = Call::of(&scene_of(records)?);
    differ(&call, &judge(&call), grown(&call, extra), seed).err()
}

/// A scene with rooms of every size around their limits: each alone, and all.
pub fn all_rooms(makers: &Makers, number: u64, counts: &mut Counts) -> Result<(), Mismatch> {
    let records = makers.records(number);
    match rooms_of(&records, number, counts) {
        None => Ok(()),
        Some(_) => Err(smallest(records, &|records| {
            rooms_of(records, number, &mut Counts::default())
        })),
    }
}

/// The first sizes with which the scene parts.
fn rooms_of(records: &[Record], seed: u64, counts: &mut Counts) -> Option<String> {
    let Some(scene) = scene_of(records) else {
        counts.add("no scenes", 1);
        return None;
    };
    let call = Call::of(&scene);
    let (judged, kept) = (judge(&call), call.clone());
    counts.add("scenes", 1);
    counts.add("nodes re-parented with another door", turned(&scene));
    let sets = sets(call.request.node_budget.min(4096));
    for (place, (sizes, used)) in sets.into_iter().enumerate() {
        match differ_over(&call, &judged, sizes, used, seed + place as u64) {
            Ok(answer) => counts.search(&answer),
            Err(parts) => return Some(told(sizes, used, &parts)),
        }
    }
    let whole = call.tables == kept.tables;
    (!whole).then(|| "a table was written".to_string())
}

fn told(sizes: Sizes, used: Option<Used>, parts: &str) -> String {
    let index = used.map_or(String::new(), |used| format!(", the index {used:?}"));
    format!("rooms of {sizes:?} bytes{index}: {parts}")
}

/// Every set of rooms that a scene is searched with, and what the index room
/// looks like where it is to look used.
fn sets(budget: u64) -> Vec<(Sizes, Option<Used>)> {
    let exact = needed(budget);
    let sizes = [record_sizes(exact), index_sizes(exact)].concat();
    let mut out: Vec<_> = sizes.into_iter().map(|sizes| (sizes, None)).collect();
    for used in USED {
        for doubled in [0, 1] {
            out.push((longer(exact, [0, 0, doubled, 0]), Some(used)));
        }
    }
    out
}

/// Exactly what the budget needs; each room of records, and all, a byte or a
/// record or more shorter and longer; empty; and long enough for every budget.
fn record_sizes(exact: Sizes) -> Vec<Sizes> {
    let mut out = vec![exact, [0; 4], needed(4096)];
    for (room, size) in [(NODES, NODE), (FRONT, WAITING), (OUT, WAYPOINT)] {
        let size = size as i64;
        for change in [
            -1,
            1,
            -size,
            size,
            1 - size,
            size - 1,
            -size - 1,
            7 * size + 3,
        ] {
            let mut sizes = exact;
            sizes[room] = (exact[room] as i64 + change).max(0) as usize;
            out.push(sizes);
        }
        let mut sizes = exact;
        sizes[room] = 0;
        out.push(sizes);
    }
    for change in [-1, 1, 1000] {
        let mut sizes = exact.map(|size| (size as i64 + change).max(0) as usize);
        sizes[INDEX] = exact[INDEX];
        out.push(sizes);
    }
    out
}

/// The index room alone of other sizes: right ones, half, three times a power
/// of two, a byte or a slot off, empty, one slot, long enough for every budget.
/// Then other rooms too short or longer beside it.
fn index_sizes(exact: Sizes) -> Vec<Sizes> {
    let (least, most) = (exact[INDEX], needed(4096)[INDEX]);
    let others = [
        [2 * least, 4 * least, least / 2, 3 * least / 2, 3 * least],
        [least + 1, least + 2, least + 3, least + 4, least - 1],
        [least - 4, 2 * least - 4, 0, 4, most],
    ];
    let with = |sizes: Sizes, index: usize| {
        let mut sizes = sizes;
        sizes[INDEX] = index;
        sizes
    };
    let alone = others.as_flattened().iter();
    let mut out: Vec<Sizes> = alone.map(|&index| with(exact, index)).collect();
    for room in [NODES, FRONT, OUT] {
        let mut short = with(exact, least / 2);
        short[room] = short[room].saturating_sub(1);
        out.push(short);
    }
    out.extend([
        with([0; 4], least),
        with(needed(4096), 0),
        exact.map(|size| size + 1),
        with(exact.map(|size| size + 1000), 3 * least),
    ]);
    out
}

/// Every scene in text form of a folder, with rooms of every size.
pub fn directed(folder: &str) -> Result<bool, String> {
    let error = |error: std::io::Error| format!("{folder}: {error}");
    let files = std::fs::read_dir(Path::new(folder)).map_err(error)?;
    let mut paths: Vec<_> = files.flatten().map(|file| file.path()).collect();
    paths.retain(|path| path.extension().is_some_and(|end| end == "txt"));
    paths.sort();
    let mut counts = Counts::default();
    let mut mismatches = 0;
    for path in &paths {
        let text = std::fs::read_to_string(path).map_err(error)?;
        let bytes = scene::from_text(&text).map_err(|error| error.to_string())?;
        let records: Vec<Record> = bytes.chunks(RECORD).map(Record::from_bytes).collect();
        counts.add("files", 1);
        if let Some(parts) = rooms_of(&records, 0, &mut counts) {
            println!("{}: {parts}", path.display());
            mismatches += 1;
        }
    }
    println!("directed: {counts}, {mismatches} mismatches");
    Ok(mismatches == 0)
}

/// Whether a call was searched to its end or would be.
pub fn answered(judged: &Judged) -> Option<&scene::Answer> {
    match judged {
        Judged::Answered(answer) => Some(answer),
        Judged::Ends(_) => None,
    }
}
