//! The tables as the bytes that a caller lends, and number 3, BadWorld.

use crate::bytes::{f64_at, u32_at};
use crate::{Tables, Window};

/// 01's "Tables, little-endian records", as lent.
#[derive(Debug, Clone, PartialEq, Eq)]
pub struct RawTables {
    pub window: Window,
    pub cells: Vec<u8>,
    pub permissions: Vec<u8>,
    pub shapes: Vec<u8>,
    pub boxes: Vec<u8>,
}

impl Tables {
    /// The same tables as bytes.
    pub fn raw(&self) -> RawTables {
        let pairs = |table: &[(u32, u32)]| -> Vec<u8> {
            table
                .iter()
                .flat_map(|(a, b)| [a.to_le_bytes(), b.to_le_bytes()].concat())
                .collect()
        };
        RawTables {
            window: self.window,
            cells: pairs(&self.cells),
            permissions: self.permissions.clone(),
            shapes: pairs(&self.shapes),
            boxes: self
                .boxes
                .iter()
                .flatten()
                .flat_map(|number| number.to_bits().to_le_bytes())
                .collect(),
        }
    }
}

impl RawTables {
    /// Cells, permissions, shapes and boxes.
    pub fn all(&self) -> [&[u8]; 4] {
        [&self.cells, &self.permissions, &self.shapes, &self.boxes]
    }

    /// The same tables as numbers, for tables of whole records.
    pub fn numbers(&self) -> Tables {
        Tables {
            window: self.window,
            cells: pairs(&self.cells).collect(),
            permissions: self.permissions.clone(),
            shapes: pairs(&self.shapes).collect(),
            boxes: boxes(&self.boxes).collect(),
        }
    }
}

/// The cells or the shapes of a table.
fn pairs(table: &[u8]) -> impl Iterator<Item = (u32, u32)> {
    let records = table.chunks(8);
    records.map(|record| (u32_at(record, 0), u32_at(record, 4)))
}

fn boxes(table: &[u8]) -> impl Iterator<Item = [f64; 6]> {
    let records = table.chunks(48);
    records.map(|record| std::array::from_fn(|place| f64_at(record, 8 * place)))
}

/// 01's rule for a box: finite, min ≤ max, each from -16 to 16.
pub fn good_box(numbers: &[f64; 6]) -> bool {
    (0..3).all(|axis| numbers[axis] <= numbers[axis + 3])
        && numbers.iter().all(|n| (-16.0..=16.0).contains(n))
}

/// 01's number 3: "a size above 256, cell table not 8 bytes a cell, shape or
/// box table not whole records, count above 16, first + count above the boxes,
/// a box off its rule".
pub fn bad_world(tables: &RawTables) -> bool {
    let RawTables {
        window,
        cells,
        shapes,
        boxes,
        ..
    } = tables;
    if window.sizes.iter().any(|&size| size > 256) {
        return true;
    }
    let volume: u64 = window.sizes.iter().map(|&size| u64::from(size)).product();
    if cells.len() as u64 != 8 * volume || shapes.len() % 8 != 0 || boxes.len() % 48 != 0 {
        return true;
    }
    let box_count = (boxes.len() / 48) as u64;
    let bad_shape = pairs(shapes)
        .any(|(first, count)| count > 16 || u64::from(first) + u64::from(count) > box_count);
    bad_shape || self::boxes(boxes).any(|numbers| !good_box(&numbers))
}
