//! Makes a scene smaller and its numbers plainer while it keeps a property.

use scene::{Record, to_text, write_bytes};

/// Tries every smaller scene in turn until none keeps the property.
pub fn shrink(mut records: Vec<Record>, keeps: &dyn Fn(&[Record]) -> bool) -> Vec<Record> {
    loop {
        let before = weight(&records);
        records = without_records(records, keeps);
        records = with_plainer_records(records, keeps);
        if weight(&records) >= before {
            return records;
        }
    }
}

/// The length of the text, with cells and budget on top, and with what reaches
/// out of the window.
pub fn weight(records: &[Record]) -> usize {
    let text: usize = to_text(&write_bytes(records)).len();
    let window = records.iter().find_map(|record| match record {
        Record::Window { origin, sizes } => Some((origin.map(i64::from), sizes.map(i64::from))),
        _ => None,
    });
    let outside = |min: &[i32; 3], max: &[i32; 3]| -> usize {
        let Some((origin, sizes)) = window else {
            return 0;
        };
        (0..3)
            .map(|axis| {
                let before = origin[axis] - i64::from(min[axis]);
                let behind = i64::from(max[axis]) - (origin[axis] + sizes[axis] - 1);
                (before.max(0) + behind.max(0)).min(50) as usize
            })
            .sum()
    };
    let extra: usize = records
        .iter()
        .map(|record| match record {
            Record::Window { sizes, origin } => {
                let away: u32 = origin.iter().map(|n| n.unsigned_abs().min(50)).sum();
                sizes.iter().map(|&n| n as usize).product::<usize>() + away as usize
            }
            Record::Request { budget, .. } => *budget as usize / 8,
            Record::Shape { shape, .. } => *shape as usize,
            Record::Fill { min, max, .. } => outside(min, max),
            _ => 0,
        })
        .sum();
    text + extra + 20 * records.len()
}

fn without_records(mut records: Vec<Record>, keeps: &dyn Fn(&[Record]) -> bool) -> Vec<Record> {
    let mut place = records.len();
    while place > 3 {
        place -= 1;
        let mut fewer = records.clone();
        fewer.remove(place);
        if keeps(&fewer) {
            records = fewer;
        }
    }
    records
}

fn with_plainer_records(
    mut records: Vec<Record>,
    keeps: &dyn Fn(&[Record]) -> bool,
) -> Vec<Record> {
    for place in 0..records.len() {
        loop {
            let now = weight(&records);
            let better = plainer(&records[place]).into_iter().find_map(|record| {
                let mut changed = records.clone();
                changed[place] = record;
                (weight(&changed) < now && keeps(&changed)).then_some(changed)
            });
            match better {
                Some(changed) => records = changed,
                None => break,
            }
        }
    }
    for change in [renumber_shapes, same_steps, slide] {
        let changed = change(&records);
        if weight(&changed) < weight(&records) && keeps(&changed) {
            records = changed;
        }
    }
    records
}

/// Shapes without holes in their numbers.
fn renumber_shapes(records: &[Record]) -> Vec<Record> {
    let mut names: Vec<u32> = records
        .iter()
        .filter_map(|record| match record {
            Record::Shape { shape, .. } => Some(*shape),
            _ => None,
        })
        .collect();
    names.dedup();
    let new = |old: u32| {
        names
            .iter()
            .position(|&name| name == old)
            .map_or(old, |n| n as u32 + 1)
    };
    let mut changed = records.to_vec();
    for record in &mut changed {
        match record {
            Record::Shape { shape, .. } | Record::Fill { shape, .. } => *shape = new(*shape),
            _ => {}
        }
    }
    changed
}

/// One step height for the request and the body.
fn same_steps(records: &[Record]) -> Vec<Record> {
    let mut changed = records.to_vec();
    if let Some(Record::Body { numbers }) = changed.get_mut(1) {
        numbers[5] = numbers[0];
    }
    changed
}

/// The whole scene moved to the origin.
fn slide(records: &[Record]) -> Vec<Record> {
    let mut changed = records.to_vec();
    let Some(Record::Window { origin, .. }) = records.get(2) else {
        return changed;
    };
    for record in &mut changed {
        match record {
            Record::Request { start, goal, .. } => {
                for axis in 0..3 {
                    start[axis] -= f64::from(origin[axis]);
                    goal[axis] -= f64::from(origin[axis]);
                }
            }
            Record::Window { origin, .. } => *origin = [0; 3],
            Record::Fill { min, max, .. } => {
                for axis in 0..3 {
                    min[axis] = min[axis].saturating_sub(origin[axis]);
                    max[axis] = max[axis].saturating_sub(origin[axis]);
                }
            }
            _ => {}
        }
    }
    changed
}

/// Records that say less than this one.
fn plainer(record: &Record) -> Vec<Record> {
    let mut out = match record {
        Record::Window { origin, sizes } => smaller_windows(*origin, *sizes),
        Record::Fill { .. } => smaller_fills(record),
        Record::Request { .. } => smaller_requests(record),
        Record::State { state, .. } => [7, 6, 5, 3]
            .map(|permission| Record::State {
                state: *state,
                permission,
            })
            .to_vec(),
        _ => Vec::new(),
    };
    let count = floats(&mut record.clone()).len();
    for place in 0..count {
        let old = *floats(&mut record.clone())[place];
        for new in rounder(old) {
            let mut changed = record.clone();
            *floats(&mut changed)[place] = new;
            out.push(changed);
        }
    }
    out
}

/// A layer less at either end of each axis.
fn smaller_windows(origin: [i32; 3], sizes: [u32; 3]) -> Vec<Record> {
    let mut out = Vec::new();
    for axis in (0..3).filter(|&axis| sizes[axis] > 0) {
        let mut less = sizes;
        less[axis] -= 1;
        out.push(Record::Window {
            origin,
            sizes: less,
        });
        let mut later = origin;
        later[axis] = later[axis].saturating_add(1);
        out.push(Record::Window {
            origin: later,
            sizes: less,
        });
    }
    out
}

/// One layer, or a layer less, along each axis; or from 0 on.
fn smaller_fills(record: &Record) -> Vec<Record> {
    let mut out = Vec::new();
    for axis in 0..3 {
        for way in 0..5 {
            let mut changed = record.clone();
            if let Record::Fill { min, max, .. } = &mut changed {
                match way {
                    0 => max[axis] = min[axis],
                    1 => min[axis] = max[axis],
                    2 => min[axis] = min[axis].saturating_add(1),
                    3 => max[axis] = max[axis].saturating_sub(1),
                    _ => min[axis] = 0,
                }
            }
            out.push(changed);
        }
    }
    out
}

/// Smaller budgets, and a goal with a coordinate of the start's.
fn smaller_requests(record: &Record) -> Vec<Record> {
    let mut out = Vec::new();
    let Record::Request { budget, .. } = record else {
        return out;
    };
    for less in [64, 16, 8, 4, 2, 1, 0, budget / 2, budget.saturating_sub(1)] {
        let mut changed = record.clone();
        if let Record::Request { budget, .. } = &mut changed {
            *budget = less;
        }
        out.push(changed);
    }
    for axis in 0..3 {
        let mut changed = record.clone();
        if let Record::Request { start, goal, .. } = &mut changed {
            goal[axis] = start[axis];
        }
        out.push(changed);
    }
    out
}

/// The floats of a record.
fn floats(record: &mut Record) -> Vec<&mut f64> {
    match record {
        Record::Request {
            start,
            goal,
            max_range,
            ..
        } => {
            let mut all: Vec<&mut f64> = start.iter_mut().chain(goal).collect();
            all.push(max_range);
            all
        }
        Record::Body { numbers } | Record::Shape { numbers, .. } => numbers.iter_mut().collect(),
        _ => Vec::new(),
    }
}

/// Plainer numbers, the plainest first.
fn rounder(number: f64) -> Vec<f64> {
    let mut out = vec![0.0, 1.0, 0.5, 2.0, 3.0, 16.0];
    out.push(number.round());
    for scale in [
        2.0, 4.0, 8.0, 16.0, 10.0, 100.0, 1e3, 1e5, 1e7, 1e8, 1e9, 1e12,
    ] {
        out.push((number * scale).round() / scale);
    }
    out.push(number.trunc() + 0.5);
    out.push(number.floor());
    out.retain(|new| new.to_bits() != number.to_bits());
    out
}
