//! 01's "Tables": what stands in a cell.

use scene::Tables;

use crate::Variant;
use crate::boxes::Area;

/// What stands in a cell; its boxes are in world coordinates.
pub struct Cell<'a> {
    /// The body may be in it (bit 1).
    pub occupied: bool,
    /// The body may stand on it (bit 2).
    pub support: bool,
    position: [f64; 3],
    /// Local boxes.
    run: &'a [[f64; 6]],
}

const CUBE: [[f64; 6]; 1] = [[0.0, 0.0, 0.0, 1.0, 1.0, 1.0]];

impl Cell<'_> {
    /// The boxes, "shifted by the cell's position".
    pub fn boxes(&self) -> impl Iterator<Item = Area> + '_ {
        self.run.iter().map(|&[ax, ay, az, bx, by, bz]| {
            Area {
                min: [ax, ay, az],
                max: [bx, by, bz],
            }
            .offset(self.position)
        })
    }
}

/// The cell at `at`: known by the tables, or unknown.
pub fn cell(tables: &Tables, at: [i64; 3], edit: Variant) -> Cell<'_> {
    let position = at.map(|n| n as f64);
    let Some(Known {
        permission, run, ..
    }) = known(tables, at, edit)
    else {
        // "One full unit cube, neither occupiable nor a support."
        return Cell {
            occupied: edit == Variant::UnknownIsAir,
            support: edit == Variant::UnknownSupports,
            position,
            run: match edit {
                Variant::UnknownIsAir | Variant::UnknownHasNoCube => &[],
                _ => &CUBE,
            },
        };
    };
    // "1 occupied, 2 support, 4 collides." "A known state without bit 4 has no
    // boxes."
    let (occupied, support) = match edit {
        Variant::OccupiedAndSupportSwapped => (2, 1),
        _ => (1, 2),
    };
    let collides = permission & 4 != 0 || edit == Variant::CollidesUnread;
    Cell {
        occupied: permission & occupied != 0,
        support: permission & support != 0,
        position,
        run: if collides { run } else { &[] },
    }
}

/// The state of a cell that "is known, lacks bit 4" (02, No. 5).
pub fn door_state(tables: &Tables, at: [i64; 3], edit: Variant) -> Option<u32> {
    let Known {
        state,
        shape,
        permission,
        ..
    } = known(tables, at, edit)?;
    let lacks = match edit {
        Variant::DoorCollidesUnread => true,
        Variant::DoorByOccupied => permission & 1 == 0,
        Variant::DoorBySupport => permission & 2 == 0,
        Variant::DoorZeroIsNone => permission & 4 == 0 && state != 0,
        _ => permission & 4 == 0,
    };
    let number = match edit {
        Variant::DoorOfTheShape => shape,
        _ => state,
    };
    lacks.then_some(number)
}

/// What the tables say of a known cell.
struct Known<'a> {
    state: u32,
    shape: u32,
    permission: u8,
    run: &'a [[f64; 6]],
}

/// State and shape of a cell inside the window.
fn content(tables: &Tables, at: [i64; 3], edit: Variant) -> Option<(u32, u32)> {
    let origin = tables.window.origin.map(i64::from);
    let [width, tall, depth] = tables.window.sizes.map(i64::from);
    let [x, y, z] = [at[0] - origin[0], at[1] - origin[1], at[2] - origin[2]];
    let inside = (0..width).contains(&x) && (0..tall).contains(&y) && (0..depth).contains(&z);
    let wraps = || (0..3).any(|axis| origin[axis] + [width, tall, depth][axis] > i32::MAX.into());
    if !inside || edit == Variant::WindowEndWraps && wraps() {
        return None;
    }
    // "x runs fastest, then z, then y."
    let place = match edit {
        Variant::CellsRunYBeforeZ => x + width * (y + tall * z),
        _ => x + width * (z + depth * y),
    };
    Some(tables.cells[place as usize])
}

/// "A cell is unknown outside the window, or with no permission byte for its
/// state, or no such shape."
fn known(tables: &Tables, at: [i64; 3], edit: Variant) -> Option<Known<'_>> {
    let (state, shape) = content(tables, at, edit)?;
    let permission = match tables.permissions.get(state as usize) {
        None if edit == Variant::StateWithoutByteIsAir => {
            return Some(Known {
                state,
                shape,
                permission: 7,
                run: &[],
            });
        }
        found => *found?,
    };
    let (first, count) = match tables.shapes.get(shape as usize) {
        None if edit == Variant::MissingShapeIsEmpty => (0, 0),
        found => *found?,
    };
    let count = match edit {
        Variant::LastBoxOfRunMissing => count.saturating_sub(1),
        _ => count,
    };
    let first = first as usize;
    Some(Known {
        state,
        shape,
        permission,
        run: &tables.boxes[first..first + count as usize],
    })
}
