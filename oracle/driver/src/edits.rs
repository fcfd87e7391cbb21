//! What is changed in a call, mostly so that no scene could have made it.

use mutants::chance::Chance;
use scene::{NODE, f64_at, u32_at};

use crate::call::Call;
use crate::room::any_bytes;
use crate::strewn::strew;

pub struct Edit {
    pub name: &'static str,
    /// Whether it can make a bad world of a good one.
    pub damages: bool,
    pub make: fn(&mut Call, &mut Chance),
}

impl Edit {
    /// A number of its own, by its name.
    pub fn seed(&self) -> u64 {
        let mix = |seed: u64, byte: u8| seed.wrapping_mul(257).wrapping_add(u64::from(byte));
        self.name.bytes().fold(0, mix) << 20
    }
}

const fn good(name: &'static str, make: fn(&mut Call, &mut Chance)) -> Edit {
    Edit {
        name,
        damages: false,
        make,
    }
}

const fn bad(name: &'static str, make: fn(&mut Call, &mut Chance)) -> Edit {
    Edit {
        name,
        damages: true,
        make,
    }
}

pub const EDITS: [Edit; 26] = [
    good("high permission bits", high_bits),
    good("many states", many_states),
    good("bit 4 taken away", without_bit_4),
    good("doors in free cells", doors),
    good("numbers past every table", past_tables),
    good("overlapping runs", overlapping_runs),
    good("runs grown into the next", grown_runs),
    good("boxes in front", boxes_in_front),
    good("many shapes", many_shapes),
    good("boxes to the rule's ends", boxes_at_the_ends),
    good("an empty run at the end", empty_run_at_the_end),
    good("a window of 256 on one axis", wide_window),
    good("a window of 256 on two axes", wider_window),
    good("a window at the end of i32", window_at_the_end),
    good("no cells", no_cells),
    good("a budget above a scene's", budget),
    good("a limit and its neighbours", limits),
    bad("a size above 256", size_above),
    bad("sizes whose product wraps", sizes_wrap),
    bad("cells of another length", cells_length),
    bad("a partial shape", partial_shape),
    bad("a partial box", partial_box),
    bad("a count above 16", count_above),
    bad("a run past the boxes", run_past),
    bad("a first that wraps", first_wraps),
    bad("a box off its rule", box_off),
];

fn high_bits(call: &mut Call, chance: &mut Chance) {
    for byte in &mut call.tables.permissions {
        *byte |= (chance.below(32) as u8) << 3;
    }
}

/// Some states pass through, so that their boxes are gone and they are doors.
fn without_bit_4(call: &mut Call, chance: &mut Chance) {
    for byte in &mut call.tables.permissions {
        if chance.once_in(3) {
            *byte &= !4;
        }
    }
}

/// Doors of new states in cells that have no boxes; where a table cannot be read
/// as numbers there are none.
fn doors(call: &mut Call, chance: &mut Chance) {
    if let Some(mut scene) = call.whole() {
        strew(&mut scene.tables, chance);
        call.tables = scene.tables.raw();
    }
}

/// A multiple of a scene's states, each group alike but for higher bits, and
/// the cells in any group.
fn many_states(call: &mut Call, chance: &mut Chance) {
    let table = &mut call.tables.permissions;
    let states = table.len();
    if states == 0 || states > 300 {
        return;
    }
    let groups = 2 + chance.pick(&[1, 100, 1000]);
    for place in states..states * groups {
        let byte = table[place % states] | (chance.below(4) as u8) << 6;
        table.push(byte);
    }
    for cell in call.tables.cells.chunks_mut(8) {
        let state = u32_at(cell, 0);
        if (state as usize) < states {
            let moved = state + (states * chance.below(groups)) as u32;
            cell[..4].copy_from_slice(&moved.to_le_bytes());
        }
    }
}

/// A few cells with states or shapes that no table has.
fn past_tables(call: &mut Call, chance: &mut Chance) {
    let cells = call.tables.cells.len() / 8;
    let ends = [
        call.tables.permissions.len() as u32,
        (call.tables.shapes.len() / 8) as u32,
    ];
    for _ in 0..cells / 64 {
        let at = 8 * chance.below(cells);
        let field = chance.below(2);
        let number = chance.pick(&[ends[field], ends[field] + 1, 1 << 29, 1 << 31, u32::MAX]);
        call.tables.cells[at + 4 * field..][..4].copy_from_slice(&number.to_le_bytes());
    }
}

fn boxes(call: &Call) -> usize {
    call.tables.boxes.len() / 48
}

fn shapes(call: &Call) -> usize {
    call.tables.shapes.len() / 8
}

fn push_shape(call: &mut Call, first: u32, count: u32) {
    call.tables.shapes.extend(first.to_le_bytes());
    call.tables.shapes.extend(count.to_le_bytes());
}

fn set_shape(call: &mut Call, shape: usize, first: u32, count: u32) {
    call.tables.shapes[8 * shape..][..4].copy_from_slice(&first.to_le_bytes());
    call.tables.shapes[8 * shape + 4..][..4].copy_from_slice(&count.to_le_bytes());
}

fn shape(call: &Call, shape: usize) -> (u32, u32) {
    let table = &call.tables.shapes;
    (u32_at(table, 8 * shape), u32_at(table, 8 * shape + 4))
}

/// Gives one cell in `times` another shape from `from` on.
fn reshape(call: &mut Call, chance: &mut Chance, from: usize, times: usize) {
    let all = shapes(call);
    if all <= from {
        return;
    }
    for cell in call.tables.cells.chunks_mut(8) {
        let empty = u32_at(cell, 4) == 0;
        if !empty && chance.once_in(times) {
            let shape = (from + chance.below(all - from)) as u32;
            cell[4..].copy_from_slice(&shape.to_le_bytes());
        }
    }
}

/// New shapes with any runs of the boxes, and some cells of these shapes.
fn overlapping_runs(call: &mut Call, chance: &mut Chance) {
    let (old, all) = (shapes(call), boxes(call));
    for _ in 0..1 + chance.below(8) {
        let first = chance.below(all + 1);
        let count = chance.below((all - first).min(16) + 1);
        push_shape(call, first as u32, count as u32);
    }
    reshape(call, chance, old, 3);
}

/// Some runs with the boxes of the shape behind them too.
fn grown_runs(call: &mut Call, chance: &mut Chance) {
    let all = boxes(call) as u32;
    for place in 0..shapes(call) {
        let (first, count) = shape(call, place);
        if count < 16 && first + count < all && chance.once_in(3) {
            set_shape(call, place, first, count + 1);
        }
    }
}

/// So many boxes before all others that no scene could have them.
fn boxes_in_front(call: &mut Call, chance: &mut Chance) {
    let before = 257 + chance.below(300);
    let old = std::mem::take(&mut call.tables.boxes);
    for _ in 0..before {
        let numbers: [f64; 6] = std::array::from_fn(|k| match k < 3 {
            true => -16.0 * chance.part(),
            false => 16.0 * chance.part(),
        });
        push_box(call, numbers);
    }
    call.tables.boxes.extend(old);
    for place in 0..shapes(call) {
        let (first, count) = shape(call, place);
        set_shape(call, place, first + before as u32, count);
    }
}

fn push_box(call: &mut Call, numbers: [f64; 6]) {
    let bytes = numbers.map(|number| number.to_bits().to_le_bytes());
    call.tables.boxes.extend(bytes.concat());
}

/// More shapes than a scene can have, each like one of the old, and the cells in any
/// group of them.
fn many_shapes(call: &mut Call, chance: &mut Chance) {
    let old = shapes(call);
    if old == 0 || old > 300 {
        return;
    }
    let groups = 2 + 256 / old;
    for place in old..old * groups {
        let (first, count) = shape(call, place % old);
        push_shape(call, first, count);
    }
    for cell in call.tables.cells.chunks_mut(8) {
        let shape = u32_at(cell, 4);
        if (shape as usize) < old {
            let moved = shape + (old * chance.below(groups)) as u32;
            cell[4..].copy_from_slice(&moved.to_le_bytes());
        }
    }
}

/// A shape of up to 16 boxes that reach to -16 or 16 somewhere, for a few cells.
fn boxes_at_the_ends(call: &mut Call, chance: &mut Chance) {
    let (old, first) = (shapes(call), boxes(call));
    let count = 1 + chance.below(16);
    for _ in 0..count {
        let mut numbers = [0.0, 0.0, 0.0, 1.0, 1.0, 1.0];
        let axis = chance.below(3);
        match chance.below(3) {
            0 => numbers[axis] = -16.0,
            1 => numbers[axis + 3] = 16.0,
            _ => (numbers[axis], numbers[axis + 3]) = (0.0, -0.0),
        }
        push_box(call, numbers);
    }
    push_shape(call, first as u32, count as u32);
    reshape(call, chance, old, 24);
}

/// "First + count" is the number of boxes, with count 0.
fn empty_run_at_the_end(call: &mut Call, chance: &mut Chance) {
    let (old, all) = (shapes(call), boxes(call));
    push_shape(call, all as u32, 0);
    reshape(call, chance, old, 12);
}

/// A wider window than this stays as it is.
const MOST_CELLS: usize = 1 << 19;

/// The same cells in a window of these sizes, with any content of theirs
/// around.
fn widen(call: &mut Call, sizes: [u32; 3], chance: &mut Chance) {
    if sizes.iter().map(|&size| size as usize).product::<usize>() > MOST_CELLS {
        return;
    }
    let old = call.tables.window.sizes.map(|size| size as usize);
    let new = sizes.map(|size| size as usize);
    let cells = std::mem::take(&mut call.tables.cells);
    let all = cells.len() / 8;
    let stray = chance.pick(&[2, 10, 1000]);
    let mut out = Vec::with_capacity(8 * new.iter().product::<usize>());
    for y in 0..new[1] {
        for z in 0..new[2] {
            for x in 0..new[0] {
                let inside = x < old[0] && y < old[1] && z < old[2];
                let at = match inside {
                    true => x + old[0] * (z + old[2] * y),
                    false if all > 0 && chance.once_in(stray) => chance.below(all),
                    false => {
                        out.extend([0; 8]);
                        continue;
                    }
                };
                out.extend(&cells[8 * at..][..8]);
            }
        }
    }
    call.tables.window.sizes = sizes;
    call.tables.cells = out;
}

fn wide_window(call: &mut Call, chance: &mut Chance) {
    let mut sizes = call.tables.window.sizes;
    if cells_fit(call) {
        sizes[chance.below(3)] = 256;
        widen(call, sizes, chance);
    }
}

fn wider_window(call: &mut Call, chance: &mut Chance) {
    let mut sizes = call.tables.window.sizes;
    if cells_fit(call) && chance.once_in(8) {
        let axis = chance.below(3);
        sizes = sizes.map(|size| size.min(4));
        sizes[axis] = 256;
        sizes[(axis + 1) % 3] = chance.pick(&[256, 255, 100]);
        let less = [0, 1, 2].map(|k| sizes[k].min(call.tables.window.sizes[k]));
        widen(call, less, chance);
        widen(call, sizes, chance);
    }
}

/// Whether the cells are those of the window, so that they can be placed.
fn cells_fit(call: &Call) -> bool {
    let sizes = call.tables.window.sizes;
    let volume: u64 = sizes.iter().map(|&size| u64::from(size)).product();
    sizes.iter().all(|&size| size <= 256) && call.tables.cells.len() as u64 == 8 * volume
}

/// The whole scene moved along an axis, so that its window begins near the end
/// of i32 or goes past it.
fn window_at_the_end(call: &mut Call, chance: &mut Chance) {
    let axis = chance.below(3);
    let past = chance.pick(&[0, 10, 25, 40, 40, 60, 60, 100]);
    let origin = chance.pick(&[i32::MAX - past, i32::MIN + past]);
    let old = std::mem::replace(&mut call.tables.window.origin[axis], origin);
    let shift = f64::from(origin) - f64::from(old);
    call.request.start[axis] += shift;
    call.request.goal[axis] += shift;
}

fn no_cells(call: &mut Call, chance: &mut Chance) {
    if chance.once_in(4) {
        call.tables.window.sizes[chance.below(3)] = 0;
        call.tables.cells.clear();
    }
}

fn budget(call: &mut Call, chance: &mut Chance) {
    call.request.node_budget = match chance.below(16) {
        0 => 4096,
        1 => 4095,
        2..5 => 4097,
        5 => 4098 + chance.word() % 5000,
        6 => 1 << 32,
        7 => (1 << 32) + chance.word() % 64,
        8 => 1 << 63,
        9 => u64::MAX,
        10 => (u64::MAX / NODE as u64) + chance.word() % 100,
        _ => 513 + chance.word() % 1500,
    };
}

fn limits(call: &mut Call, chance: &mut Chance) {
    let (request, body) = (&mut call.request, &mut call.body);
    let (number, limit) = match chance.below(3) {
        0 => (&mut request.max_range, 64.0_f64),
        1 => (&mut body.width, 8.0),
        _ => (&mut body.height, 16.0),
    };
    *number = chance.pick(&[
        limit,
        limit.next_up(),
        limit.next_down(),
        2.0 * limit,
        1e300,
    ]);
}

fn size_above(call: &mut Call, chance: &mut Chance) {
    let axis = chance.below(3);
    let old = call.tables.window.sizes;
    let size = chance.pick(&[257, 258, 1000, 1 << 31, u32::MAX]);
    call.tables.window.sizes[axis] = size;
    if size == 257 {
        let volume: usize = (0..3)
            .map(|k| {
                if k == axis {
                    257
                } else {
                    old[k].min(256) as usize
                }
            })
            .product();
        if volume < 1 << 20 {
            call.tables.cells.resize(8 * volume, 0);
        }
    }
}

/// Sizes whose product, or eight times it, is 0 or small in fewer bits.
fn sizes_wrap(call: &mut Call, chance: &mut Chance) {
    let sizes = [
        [1 << 16, 1 << 16, 1],
        [1 << 31, 2, 1],
        [1 << 30, 1 << 30, 4],
        [1 << 29, 1, 1],
        [1 << 21, 1 << 20, 1 << 20],
        [u32::MAX, u32::MAX, u32::MAX],
    ];
    call.tables.window.sizes = chance.pick(&sizes);
    if chance.once_in(2) {
        call.tables.cells.clear();
    }
}

/// Longer or shorter by bytes or by cells.
fn change_length(table: &mut Vec<u8>, change: i64) {
    let length = (table.len() as i64 + change).max(0) as usize;
    table.resize(length, 0);
}

fn cells_length(call: &mut Call, chance: &mut Chance) {
    let change = chance.pick(&[-1, 1, -8, 8, -4, 4, -7, 7, -4096, 4096, -1 << 40]);
    change_length(&mut call.tables.cells, change);
}

fn partial_shape(call: &mut Call, chance: &mut Chance) {
    let change = i64::from(chance.between(1, 7)) * chance.pick(&[1, -1]);
    change_length(&mut call.tables.shapes, change);
}

fn partial_box(call: &mut Call, chance: &mut Chance) {
    let change = i64::from(chance.between(1, 47)) * chance.pick(&[1, -1]);
    change_length(&mut call.tables.boxes, change);
}

/// Enough boxes, so that the count alone is at fault, where it is.
fn count_above(call: &mut Call, chance: &mut Chance) {
    let first = boxes(call) as u32;
    for _ in 0..20 {
        push_box(call, [0.0, 0.0, 0.0, 1.0, 1.0, 1.0]);
    }
    let count = chance.pick(&[15, 16, 17, 17, 18, 20, 1 << 16, 1 << 31, u32::MAX]);
    push_shape(call, first, count);
}

fn run_past(call: &mut Call, chance: &mut Chance) {
    let all = boxes(call) as u32;
    let count = chance.below(17) as u32;
    let over = chance.pick(&[0, 1, 1, 1, 2]);
    push_shape(call, (all + over).saturating_sub(count), count);
}

fn first_wraps(call: &mut Call, chance: &mut Chance) {
    let count = chance.pick(&[0, 1, 2, 16]);
    let first = chance.pick(&[u32::MAX, u32::MAX - 15, 1 << 31, u32::MAX - count + 1]);
    push_shape(call, first, count);
}

/// One number of one box, used or not, moved off the rule or onto its border.
fn box_off(call: &mut Call, chance: &mut Chance) {
    if boxes(call) == 0 || chance.once_in(4) {
        push_box(call, [0.0, 0.0, 0.0, 1.0, 1.0, 1.0]);
    }
    let at = 48 * chance.below(boxes(call));
    let field = chance.below(6);
    let other = at + 8 * ((field + 3) % 6);
    let opposite = f64_at(&call.tables.boxes, other);
    let numbers = [
        f64::NAN,
        f64::INFINITY,
        f64::NEG_INFINITY,
        16.0_f64.next_up(),
        (-16.0_f64).next_down(),
        16.0,
        -16.0,
        opposite,
        opposite.next_up(),
        opposite.next_down(),
        -0.0,
        1e300,
    ];
    let mut bytes = chance.pick(&numbers).to_bits().to_le_bytes().to_vec();
    if chance.once_in(12) {
        bytes = any_bytes(8, chance);
    }
    call.tables.boxes[at + 8 * field..][..8].copy_from_slice(&bytes);
}
