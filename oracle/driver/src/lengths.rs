//! The proved length on lists that no search gave, against the reading's, which
//! sums by the processor's root; and how soon the reading's variants part from it.

use std::ops::Range;

use mutants::chance::Chance;
use mutants::lengths::list;
use mutants::questions::numbered;
use reading::Variant::ReadAsWritten;
use reading::{LISTED, VARIANTS, Variant, edges, length, same_number};
use scene::WAYPOINT;
use walkprint::raw;

use crate::call::Call;
use crate::counts::Counts;
use crate::room::Room;
use crate::runner::{Makers, Mismatch};
use crate::sizes::needed;
use crate::walkback::hex;

/// The list of a number: its length, and that no byte of it or around it changes.
pub fn one_list(_: &Makers, number: u64, counts: &mut Counts) -> Result<(), Mismatch> {
    let (kind, list) = list(number);
    if let Some(what) = parts(&list, number) {
        let still = |list: &[u8]| parts(list, number).is_some();
        let small = plainer(shorter(list, &still), &still);
        let then = parts(&small, number).unwrap_or_default();
        return Err(Mismatch {
            what: format!("{kind}: {what}; smallest: {then}"),
            scene: hex(&small),
        });
    }
    let must = length(&list, ReadAsWritten);
    counts.add(kind, 1);
    counts.add("lists", 1);
    counts.add("records", (list.len() / WAYPOINT) as u64);
    let partial = !list.len().is_multiple_of(WAYPOINT);
    counts.add("with a partial record", partial.into());
    let falls = edges(&list).iter().any(|[lift, ..]| *lift < 0.0);
    counts.add("with a lift below 0", falls.into());
    counts.add(ending(must), 1);
    counts.lengths(&list);
    Ok(())
}

/// What the length of a list is.
fn ending(length: f64) -> &'static str {
    match length {
        _ if length.is_nan() => "lengths that are NaN",
        _ if length.is_infinite() => "lengths that are infinite",
        _ => "lengths that are numbers",
    }
}

/// What is not as it must be, where the list lies between bytes that nobody may
/// read or touch.
fn parts(list: &[u8], seed: u64) -> Option<String> {
    let mut room = Room::new(list.len(), &mut Chance::new(!seed));
    room.lent().copy_from_slice(list);
    let before = room.after(&[]);
    let (said, must) = (raw::length(room.bytes()), length(list, ReadAsWritten));
    if !same_number(said, must) {
        return Some(format!("length {said:e}, must be {must:e}"));
    }
    room.parts(&before)
}

/// Without the records, and the part of one, that can be left out.
fn shorter(mut list: Vec<u8>, still: &dyn Fn(&[u8]) -> bool) -> Vec<u8> {
    let mut begin = 0;
    while begin < list.len() {
        let end = (begin + WAYPOINT).min(list.len());
        let less = [&list[..begin], &list[end..]].concat();
        match still(&less) {
            true => list = less,
            false => begin = end,
        }
    }
    list
}

/// With zeros for the words that may be so.
fn plainer(mut list: Vec<u8>, still: &dyn Fn(&[u8]) -> bool) -> Vec<u8> {
    for begin in (0..list.len()).step_by(8) {
        let end = (begin + 8).min(list.len());
        let mut zeros = list.clone();
        zeros[begin..end].fill(0);
        if still(&zeros) {
            list = zeros;
        }
    }
    list
}

/// Every variant of lengths, and how many lists agreed before one parted: lists
/// that no search gave, and found lists of the scenes of these numbers.
pub fn noticed(numbers: Range<u64>) -> Vec<(Variant, [Option<u64>; 2])> {
    let unsearched: Vec<Vec<u8>> = numbers.clone().map(|number| list(number).1).collect();
    let found: Vec<Vec<u8>> = numbers.filter_map(found_list).collect();
    let after = |lists: &[Vec<u8>], edit: Variant| {
        let parts = |list: &Vec<u8>| !same_number(raw::length(list), length(list, edit));
        lists.iter().position(parts).map(|place| place as u64)
    };
    let variants = VARIANTS.iter().filter(|edit| edit.is_of_lengths());
    variants
        .chain(LISTED)
        .map(|&edit| (edit, [after(&unsearched, edit), after(&found, edit)]))
        .collect()
}

/// The list that the proved search finds on the scene of a number.
fn found_list(number: u64) -> Option<Vec<u8>> {
    let scene = numbered(number)?;
    let budget = scene.request.node_budget.min(4096);
    let (outcome, [list, _]) = Call::of(&scene).search(needed(budget));
    (outcome == 0).then_some(list)
}
